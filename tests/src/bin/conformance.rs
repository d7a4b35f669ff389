//! Prints the conformance list, or its questions alone.

use std::process::ExitCode;

use oracle::conformance::{list, questions};

fn main() -> ExitCode {
    match std::env::args().nth(1).as_deref() {
        None => print!("{}", list()),
        Some("questions") => print!("{}", questions()),
        Some(_) => {
            eprintln!("usage: conformance [questions]");
            return ExitCode::from(2);
        }
    }
    ExitCode::SUCCESS
}
