//! Holds the proved call on a timestamp's run to `rfc3339::parse`, and the
//! lexer's verdict to the call's: every date there is, damaged runs, the rows
//! that change request #101 was worked out on, and one run of 64 MiB.

use std::process::ExitCode;
use std::str::from_utf8;
use std::time::Instant;

use oracle::calls::{compare_call, Call};
use oracle::ffi::{self, Buffers};
use oracle::limits::MAX_MESSAGE_SIZE;
use oracle::notation::escaped;
use oracle::random::Random;
use oracle::records::{Lent, RECORD};
use oracle::tally::Tally;
use oracle::timestamp::{damage, grown_run, parse, TELLING};

const DAMAGED_RUNS: usize = 3_000_000;
/// Far above what one pass over 64 MiB takes, and far below what work that
/// grows with the square of the digits would take.
const LONGEST_SECONDS: f64 = 2.0;
const DAY: i64 = 86_400;

/// Runs, and the seconds and nanoseconds that they have to give.
#[rustfmt::skip]
const DATES: [(&str, i64, i64); 21] = [
    ("1970-01-01T00:00:00Z", 0, 0),
    ("1969-12-31T23:59:59.5Z", -1, 500_000_000),
    ("0000-01-01T00:00:00Z", -62_167_219_200, 0),
    ("0000-02-29T00:00:00Z", -62_162_121_600, 0),
    ("0000-01-01T00:00:00+24:60", -62_167_309_200, 0),
    ("9999-12-31T23:59:59.999999999-24:60", 253_402_390_799, 999_999_999),
    ("2000-02-29T00:00:00Z", 951_782_400, 0),
    ("2024-02-29T00:00:00Z", 1_709_164_800, 0),
    ("2024-01-02T03:04:05Z", 1_704_164_645, 0),
    ("2024-01-02T03:04:05.1Z", 1_704_164_645, 100_000_000),
    ("2024-01-02T03:04:05.000000001Z", 1_704_164_645, 1),
    ("2024-01-02T03:04:05.1234567899Z", 1_704_164_645, 123_456_789),
    ("2024-01-02T03:04:05.9999999999Z", 1_704_164_645, 999_999_999),
    ("2024-01-02T03:04:05-00:00", 1_704_164_645, 0),
    ("2024-01-02T03:04:05+01:30", 1_704_159_245, 0),
    ("2024-01-02T03:04:05-01:30", 1_704_170_045, 0),
    // RFC 3339 has none of these.
    ("2024-01-02T3:04:05Z", 1_704_164_645, 0),
    ("2024-01-02T03:04:05,5Z", 1_704_164_645, 500_000_000),
    ("2024-01-02T03:04:05+24:00", 1_704_078_245, 0),
    ("2024-01-02T03:04:05+00:60", 1_704_161_045, 0),
    ("2024-01-02T03:04:05+24:60", 1_704_074_645, 0),
];

/// Runs that are no date.
#[rustfmt::skip]
const NO_DATES: [&[u8]; 36] = [
    b"1900-02-29T00:00:00Z", b"2100-02-29T00:00:00Z", b"2023-02-29T00:00:00Z",
    b"2024-01-02T24:00:00Z", b"2024-01-02T03:60:05Z", b"2024-01-02T03:04:5Z",
    b"2024-01-02T03:04:05.Z", b"2024-01-02T03:04:05,Z", b"2024-01-02T03:04:05",
    b"2024-01-02T03:04:05+0000", b"2024-01-02T03:04:05+00", b"2024-01-02T03:04:05Z0",
    b"2024-01-02T03:04:05+25:00", b"2024-01-02T03:04:05+00:61", b"2024-01-02T03:04:05+00:00Z",
    b"2024-00-02T03:04:05Z", b"2024-13-02T03:04:05Z", b"2024-01-00T03:04:05Z",
    b"2024-01-32T03:04:05Z", b"2024-04-31T03:04:05Z", b"2024-01-02T:04:05Z",
    b"2024-01-02T003:04:05Z", b"2024-01-02 03:04:05Z", b"02024-01-02T03:04:05Z",
    b"-2024-01-02T03:04:05Z", b"+2024-01-02T03:04:05Z", b" 2024-01-02T03:04:05Z",
    b"2024-01-02T03:04:05Z ", b"2024-01-02T03:04:05Z\n", b"2024-01-02T03:04:05.5\xFFZ",
    b"2024-01-02T03:04:05Z\xC3", b"",
    // RFC 3339 has these.
    b"2024-01-02T03:04:60Z", b"2016-12-31T23:59:60Z", b"2024-01-02t03:04:05Z",
    b"2024-01-02T03:04:05z",
];

fn main() -> ExitCode {
    let mut random = Random::from_arguments();
    let mut tally = Tally::default();
    stated_rows(&mut tally);
    println!("passed on stated rows: {}", tally.passed());
    every_date(&mut tally);
    damaged_runs(&mut random, &mut tally);
    longest_runs(&mut tally);
    tally.finish()
}

/// A run that is shown as it is where it differs. Gives what the call says.
fn compare(run: &[u8], tally: &mut Tally) -> [i64; 6] {
    compare_named(|| escaped(run), run, tally)
}

/// The call against the Rust, then the lexer against the call.
fn compare_named(name: impl Fn() -> String, run: &[u8], tally: &mut Tally) -> [i64; 6] {
    match compare_call(run, Call::Timestamp) {
        Ok(compared) => tally.pass(compared),
        Err(difference) => tally.check(false, || format!("{}\n{difference}", name())),
    }
    let answer = asked(run);
    if is_cut_whole(run) {
        for mode in [0, 1] {
            tally.check(lexer_agrees(run, mode, answer[0] == 1), || {
                format!("{}: the lexer, mode {mode}, and {answer:?}", name())
            });
        }
    }
    answer
}

/// What the call answers.
fn asked(run: &[u8]) -> [i64; 6] {
    let mut answer = [Buffers::UNTOUCHED; 6];
    ffi::timestamp(run, &mut answer);
    answer
}

/// Whether a text of these bytes begins with a timestamp, good or bad, that
/// nothing in it ends.
fn is_cut_whole(run: &[u8]) -> bool {
    let is_end = |byte: &u8| b" \t\r\n,]})#".contains(byte);
    let is_comment = |pair: &[u8]| pair == b"//" || pair == b"/*";
    run.len() > 4
        && run.len() <= MAX_MESSAGE_SIZE
        && run[..4].iter().all(u8::is_ascii_digit)
        && run[4] == b'-'
        && !run.iter().any(is_end)
        && !run.windows(2).any(is_comment)
        && from_utf8(run).is_ok()
}

/// Whether the whole reading of such a run is one token, a Timestamp or Illegal
/// with reason 21, and the Eof, without a report.
fn lexer_agrees(run: &[u8], mode: u8, is_date: bool) -> bool {
    let length = run.len() as i64;
    let token = match is_date {
        true => [11, 0, 0, 0, length, 1, 1, 0, length, 0, 0, 0],
        false => [1, 21, 0, 0, length, 1, 1, length, 0, 0, 0, 0],
    };
    let eof = [0, 0, 0, length, length, 1, length + 1, length, 0, 0, 0, 0];
    let mut buffers = Buffers::untouched(Lent {
        tokens: 2 * RECORD,
        ..Lent::NONE
    });
    let mut answer = [Buffers::UNTOUCHED; 6];
    let number = ffi::read_text(run, mode, 0, &mut buffers, &mut answer);
    let given = (number, answer, &buffers.tokens[..]);
    given == (0, [2, 0, 0, 0, 0, 0], [token, eof].as_flattened())
}

/// The Rust is held to these too.
fn stated_rows(tally: &mut Tally) {
    for (run, seconds, nanoseconds) in DATES {
        let answer = compare(run.as_bytes(), tally);
        let expected = [1, seconds, nanoseconds, 0, 0, 0];
        tally.check(answer == expected, || {
            format!("{run}: {answer:?}, expected {expected:?}")
        });
        let rust = parse(run.as_bytes());
        tally.check(rust == Some((seconds, nanoseconds as i32)), || {
            format!("{run}: the Rust has {rust:?}")
        });
    }
    for run in NO_DATES {
        let answer = compare(run, tally);
        tally.check(answer == [0; 6] && parse(run).is_none(), || {
            format!("{}: {answer:?}, no date expected", escaped(run))
        });
    }
}

/// Each month from 0 to 13 of each year there is, and each day from 0 to 32 of
/// it. Whatever the Rust has, the dates among them follow each other by one
/// day, and are 25 times the 146,097 days of 400 years.
fn every_date(tally: &mut Tally) {
    let before = tally.passed();
    let mut dates = 0;
    for year in 0..10_000 {
        for month in 0..=13 {
            for day in 0..=32 {
                let run = format!("{year:04}-{month:02}-{day:02}T00:00:00Z");
                let [is_date, seconds, ..] = compare(run.as_bytes(), tally);
                if is_date == 1 {
                    let expected = -62_167_219_200 + DAY * dates;
                    tally.check(seconds == expected, || {
                        format!("{run}: {seconds}, expected {expected}")
                    });
                    dates += 1;
                }
            }
        }
    }
    tally.check(dates == 25 * 146_097, || format!("{dates} dates"));
    println!("passed on every date: {}", tally.passed() - before);
}

fn damaged_runs(random: &mut Random, tally: &mut Tally) {
    let before = tally.passed();
    let mut dates = 0;
    for _ in 0..DAMAGED_RUNS {
        let run = damaged_run(random);
        let [is_date, ..] = compare(&run, tally);
        dates += usize::from(is_date == 1);
    }
    // Fewer would show little of the one verdict or of the other.
    let share = dates as f64 / DAMAGED_RUNS as f64;
    tally.check((0.2..0.8).contains(&share), || {
        format!("{dates} of {DAMAGED_RUNS} damaged runs are dates")
    });
    println!("passed on damaged runs: {}", tally.passed() - before);
    println!("damaged runs: {DAMAGED_RUNS}, of which {dates} are dates");
}

/// None, one or two bytes of a run are removed, put in or changed; some of
/// these bytes make it no UTF-8.
fn damaged_run(random: &mut Random) -> Vec<u8> {
    let mut run = grown_run(random);
    for _ in 0..random.below(3) {
        let byte = match random.one_in(4) {
            true => random.byte(),
            false => random.pick(TELLING),
        };
        damage(&mut run, byte, random);
    }
    run
}

/// A date as long as a text may be, whose digits after the ninth are dropped;
/// the same without its zone; and a date that is longer than any text: the call
/// has no largest length.
fn longest_runs(tally: &mut Tally) {
    let mut run = b"2024-01-02T03:04:05.".to_vec();
    run.extend(b"12345678".repeat(MAX_MESSAGE_SIZE / 8));
    run.truncate(MAX_MESSAGE_SIZE);
    longest_run("without a zone", &run, [0; 6], tally);
    let date = [1, 1_704_164_645, 123_456_781, 0, 0, 0];
    run[MAX_MESSAGE_SIZE - 1] = b'Z';
    longest_run("with a zone", &run, date, tally);
    run[MAX_MESSAGE_SIZE - 1] = b'9';
    run.push(b'Z');
    longest_run("with a zone", &run, date, tally);
}

fn longest_run(variant: &str, run: &[u8], expected: [i64; 6], tally: &mut Tally) {
    let name = || format!("{} bytes {variant}", run.len());
    let answer = compare_named(name, run, tally);
    tally.check(answer == expected, || {
        format!("{}: {answer:?}, expected {expected:?}", name())
    });
    let start = Instant::now();
    asked(run);
    let seconds = start.elapsed().as_secs_f64();
    println!("{}: {seconds:.3} seconds", name());
    tally.check(seconds < LONGEST_SECONDS, || {
        format!("{}: over {LONGEST_SECONDS} seconds", name())
    });
}
