//! The command `circtool`; see `circtool --help` and docs/CIRCTOOL.md.

use circtool::cli::{call, deliver};
use circtool::paint::Paint;
use std::ffi::OsString;
use std::process::ExitCode;

fn main() -> ExitCode {
    let words: Vec<OsString> = std::env::args_os().skip(1).collect();
    let outcome = call(&words, &mut std::io::stdin().lock(), Paint::for_standard_output());
    ExitCode::from(deliver(&outcome))
}
