//! The end of a program that works out a crate's `stdin` and `stdout`: it prints the
//! one asked for.

use std::io::Write;
use std::process::ExitCode;

/// `PROGRAM input` or `PROGRAM output`.
pub fn print(program: &str, input: &[u8], output: &[u8]) -> ExitCode {
    let wanted = match std::env::args().nth(1).as_deref() {
        Some("input") => input,
        Some("output") => output,
        _ => {
            eprintln!("usage: {program} input|output");
            return ExitCode::from(2);
        }
    };
    match std::io::stdout().write_all(wanted) {
        Ok(()) => ExitCode::SUCCESS,
        Err(error) => {
            eprintln!("{error}");
            ExitCode::FAILURE
        }
    }
}
