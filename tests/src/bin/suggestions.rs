//! Prints the answers that the vectors of the call for suggestions must have,
//! or their questions.

use std::process::ExitCode;

use oracle::suggestion::vectors::{answers, questions};

fn main() -> ExitCode {
    match std::env::args().nth(1).as_deref() {
        None => print!("{}", answers()),
        Some("questions") => print!("{}", questions()),
        Some(_) => {
            eprintln!("usage: suggestions [questions]");
            return ExitCode::from(2);
        }
    }
    ExitCode::SUCCESS
}
