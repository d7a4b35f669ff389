//! Prints what the Rust gives for document 01's miniature cases, in its
//! numbers, and compares with those that the paper gives.

use std::process::ExitCode;

use oracle::cases::{Case, DEFAULT_LIMIT, FURTHER, LISTING, LISTING_TEXT, MINIATURE};
use oracle::notation::joined;
use oracle::records::{read_text, Lent, Mode, Reading};
use oracle::tally::Tally;

fn main() -> ExitCode {
    let mut tally = Tally::default();
    for case in MINIATURE.iter().chain(FURTHER) {
        compare(case, &mut tally);
    }
    let listed = listing(LISTING_TEXT);
    println!("listing of {LISTING_TEXT:?}\n{listed}");
    tally.check(listed == LISTING, || format!("expected\n{LISTING}"));
    tally.finish()
}

fn compare(case: &Case, tally: &mut Tally) {
    println!("{:?}, {:?}, limit {}", case.text, case.mode, case.limit);
    let given = read_text(case.text.as_bytes(), case.mode, case.limit, Lent::AMPLE);
    match &given {
        Ok(reading) => show(reading),
        Err(refusal) => println!("  {refusal:?}"),
    }
    let expected = Reading {
        records: case.records.to_vec(),
        strings: case.strings.into(),
        reports: case.reports.to_vec(),
    };
    tally.check(given.as_ref() == Ok(&expected), || {
        format!("{:?}: expected {expected:?}", case.text)
    });
}

fn show(reading: &Reading) {
    for record in &reading.records {
        println!("  {}", joined(record));
    }
    for report in &reading.reports {
        println!("  report {}", joined(report));
    }
    if !reading.strings.is_empty() {
        println!("  strings {:?}", String::from_utf8_lossy(&reading.strings));
    }
}

/// What the program `listing` prints for a text that it reads.
fn listing(text: &str) -> String {
    let reading = read_text(text.as_bytes(), Mode::Strict, DEFAULT_LIMIT, Lent::AMPLE);
    let lines = reading.unwrap().records.into_iter().map(|record| {
        let [kind, reason, _, start, end, line, column, .., nanoseconds] = record;
        joined(&[start, end, line, column, kind, reason, nanoseconds]) + "\n"
    });
    lines.collect()
}
