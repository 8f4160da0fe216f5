//! The program `resume` with an exit status, that of the proved program
//! `resume_run`, which does everything. Before that this file refuses what names
//! alone cannot tell (`programs::Names`).

use std::env;
use std::ffi::OsString;
use std::process::ExitCode;

fn main() -> ExitCode {
    let arguments: Vec<OsString> = env::args_os().collect();
    // The file to save to may be the one that is read.
    if let Some(what) = programs::names(&arguments).and_then(|names| names.fault(&[])) {
        return programs::wrong(&format!("resume: {what}"));
    }
    programs::run("resume_run")
}
