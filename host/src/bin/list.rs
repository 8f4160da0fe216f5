//! The program `list` with an exit status, that of the proved program
//! `list_run`, which does everything.

use std::process::ExitCode;

fn main() -> ExitCode {
    programs::run("list_run")
}
