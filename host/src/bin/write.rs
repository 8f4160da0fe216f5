//! The program `write` with an exit status, that of the proved program
//! `write_run`, which does everything. Before that this file refuses a TABLE
//! that is LIST under another name.

use std::env;
use std::ffi::OsString;
use std::process::ExitCode;

fn main() -> ExitCode {
    let arguments: Vec<OsString> = env::args_os().collect();
    if let [_, list, table] = arguments.as_slice() {
        if programs::overwrites(table, &[list]) {
            return programs::wrong("write: TABLE is the file to read");
        }
    }
    programs::run("write_run")
}
