//! The program `replay` with an exit status, that of the proved program
//! `replay_run`, which does everything. Before that this file refuses what names
//! alone cannot tell (`programs::Names`).

use std::env;
use std::ffi::OsString;
use std::process::ExitCode;

fn main() -> ExitCode {
    let arguments: Vec<OsString> = env::args_os().collect();
    if let Some(what) = programs::names(&arguments).and_then(|names| names.fault(&[names.first])) {
        return programs::wrong(&format!("replay: {what}"));
    }
    programs::run("replay_run")
}
