//! What the Rust gives a timestamp's run, and runs that are good or nearly so.

use std::ops::RangeInclusive;
use std::str::from_utf8;

use crate::grammar::mostly;
use crate::random::Random;
use crate::rfc3339;

/// The seconds since 1970-01-01T00:00:00Z and the nanoseconds, or `None` for
/// no date. The Rust takes UTF-8 alone; other bytes are no date.
pub fn parse(run: &[u8]) -> Option<(i64, i32)> {
    rfc3339::parse(from_utf8(run).ok()?)
}

/// Bytes that stand in a timestamp, that RFC 3339 has and the Rust has not, or
/// that end a run of the lexer.
pub const TELLING: &[u8] = b"0123456789-+:.TZtz, /#]})";

/// A run of the grammar, with each number mostly within its bounds, seldom at
/// them or just beyond: about half are dates.
pub fn grown_run(random: &mut Random) -> Vec<u8> {
    let year = random.digits(4);
    let month = two_digits(random, 1..=12, 13);
    let day = two_digits(random, 1..=28, 32);
    let t = mostly(random, "T", &["t", " "]);
    let hour = match random.one_in(8) {
        true => random.digits(1),
        false => two_digits(random, 0..=23, 25),
    };
    let minute = two_digits(random, 0..=59, 61);
    let second = two_digits(random, 0..=59, 61);
    let fraction = match random.one_in(2) {
        true => fraction(random),
        false => String::new(),
    };
    let zone = match random.one_in(2) {
        true => mostly(random, "Z", &["z", ""]).to_string(),
        false => offset(random),
    };
    format!("{year}-{month}-{day}{t}{hour}:{minute}:{second}{fraction}{zone}").into_bytes()
}

/// Takes a byte out, puts this one in, or changes one to it.
pub fn damage(run: &mut Vec<u8>, byte: u8, random: &mut Random) {
    let at = random.below(run.len() + 1);
    match random.below(3) {
        0 => run.insert(at, byte),
        _ if at == run.len() => {}
        1 => run[at] = byte,
        _ => drop(run.remove(at)),
    }
}

/// A point or a comma, and 0 to 14 digits.
fn fraction(random: &mut Random) -> String {
    let mark = mostly(random, ".", &[","]);
    let length = random.below(15);
    mark.to_string() + &random.digits(length)
}

/// Up to 26 hours and 62 minutes.
fn offset(random: &mut Random) -> String {
    let sign = random.pick(&["+", "-"]);
    let hours = two_digits(random, 0..=23, 26);
    let colon = mostly(random, ":", &[""]);
    let minutes = two_digits(random, 0..=59, 62);
    format!("{sign}{hours}{colon}{minutes}")
}

/// Mostly a usual number, seldom any up to the largest.
fn two_digits(random: &mut Random, usual: RangeInclusive<usize>, largest: usize) -> String {
    let (least, greatest) = usual.into_inner();
    let number = match random.one_in(8) {
        true => random.below(largest + 1),
        false => least + random.below(greatest - least + 1),
    };
    format!("{number:02}")
}
