//! What the programs share: what the names of files cannot tell, and the
//! language of the proved programs cannot ask for. A file to write may be a
//! file to read under another name: opening it for writing would empty what is
//! to be read. A file to save to takes the place of what has its name.

use std::env;
use std::ffi::{OsStr, OsString};
use std::fs;
use std::io::{self, Write};
use std::os::unix::fs::MetadataExt;
use std::os::unix::process::CommandExt;
use std::path::{Path, PathBuf};
use std::process::{Command, ExitCode};

/// Whether two names are of one file, hard and symbolic links followed.
fn same_file(one: &OsStr, other: &OsStr) -> bool {
    let id = |name: &OsStr| fs::metadata(name).map(|file| (file.dev(), file.ino()));
    matches!((id(one), id(other)), (Ok(a), Ok(b)) if a == b)
}

/// Whether the file to write is a regular file, and one of the files to read is
/// the same file. The same name is left to the program, which has words of its
/// own for it.
pub fn overwrites(written: &OsStr, read: &[&OsStr]) -> bool {
    let is_file = fs::metadata(written).is_ok_and(|file| file.is_file());
    is_file && !read.contains(&written) && read.iter().any(|name| same_file(name, written))
}

/// The directory entry that a name stands for: its folder without links, and
/// its last part, which may be a link or be missing.
fn entry(name: &OsStr) -> Option<PathBuf> {
    let path = Path::new(name);
    let folder = path.parent()?;
    let folder = if folder.as_os_str().is_empty() {
        Path::new(".")
    } else {
        folder
    };
    Some(fs::canonicalize(folder).ok()?.join(path.file_name()?))
}

/// Whether saving to the one name would replace the other, or what it links to.
/// The same name is left to the program.
fn replaces(state: &OsStr, other: &OsStr) -> bool {
    let Some(place) = entry(state) else {
        return false;
    };
    let is_place = |path: PathBuf| path == place;
    state != other
        && (entry(other).is_some_and(is_place) || fs::canonicalize(other).is_ok_and(is_place))
}

/// The names in the arguments of `replay` and `resume`: what is loaded, LOG,
/// REPLIES, and the STATE of `--save`.
pub struct Names<'a> {
    pub first: &'a OsStr,
    log: &'a OsStr,
    replies: &'a OsStr,
    state: Option<&'a OsStr>,
}

/// The names, where there are as many arguments as the usage says; for others
/// the program has words of its own.
pub fn names(arguments: &[OsString]) -> Option<Names<'_>> {
    let (first, log, replies, state) = match arguments {
        [_, first, log, replies] | [_, first, log, replies, _] => (first, log, replies, None),
        [_, first, log, replies, save, state] | [_, first, log, replies, _, save, state]
            if save == "--save" =>
        {
            (first, log, replies, Some(state.as_os_str()))
        }
        _ => return None,
    };
    Some(Names {
        first,
        log,
        replies,
        state,
    })
}

impl Names<'_> {
    /// What is wrong with them: REPLIES that is a file to read, a STATE that is
    /// no regular file itself (a link, a folder or a device would be replaced),
    /// or that has the place of LOG, REPLIES or another of `kept`. REPLIES that
    /// is the file of STATE would empty it before there is a new one.
    pub fn fault(&self, kept: &[&OsStr]) -> Option<&'static str> {
        if overwrites(self.replies, &[self.first, self.log]) {
            return Some("REPLIES is a file to read");
        }
        let state = self.state?;
        if fs::symlink_metadata(state).is_ok_and(|file| !file.is_file()) {
            return Some("STATE is no regular file");
        }
        let others = [self.log, self.replies];
        if others
            .iter()
            .chain(kept)
            .any(|other| replaces(state, other))
            || overwrites(self.replies, &[state])
        {
            return Some("STATE is another file's name");
        }
        None
    }
}

/// Says something on standard error. Where that cannot be written, the exit
/// status says it alone.
fn say(what: &str) {
    let _ = writeln!(io::stderr(), "{what}");
}

/// The end of a program whose arguments are wrong, with what it says.
pub fn wrong(what: &str) -> ExitCode {
    say(what);
    ExitCode::from(2)
}

/// The folder of the proved programs: KEEPER_PROGRAMS, or that of this program.
fn folder() -> io::Result<PathBuf> {
    if let Some(folder) = env::var_os("KEEPER_PROGRAMS") {
        return Ok(PathBuf::from(folder));
    }
    let mut folder = env::current_exe()?;
    folder.pop();
    Ok(folder)
}

/// Runs the proved program of this name in the place of this one, with the same
/// arguments, and so with its exit status. It returns only where there is no
/// such program, with the status of a file that cannot be opened.
pub fn run(name: &str) -> ExitCode {
    let error = match folder() {
        Ok(folder) => Command::new(folder.join(name))
            .args(env::args_os().skip(1))
            .exec(),
        Err(error) => error,
    };
    say(&format!("{name}: {error}"));
    ExitCode::from(3)
}
