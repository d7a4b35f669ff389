//! The repairs of a mistyped duration, as change request #102 has them, taken
//! from the Rust by brute force: every changed run is read. And runs that are
//! durations, or nearly so.

pub mod rows;
pub mod vectors;

use std::str::from_utf8;

use crate::cases::DEFAULT_LIMIT;
use crate::random::Random;
use crate::records::{read_text, Lent, Mode};
use crate::timestamp;
use crate::token::TokenKind;

/// No run is longer, in bytes.
pub const LONGEST: usize = 64;
/// How many numbers an entry has.
pub const ENTRY: usize = 3;
/// Nanoseconds, offset, byte.
pub type Entry = [i64; ENTRY];
/// So many numbers for each byte of a run suffice for its list: there are 95
/// printable bytes.
pub const NUMBERS_A_BYTE: usize = ENTRY * 95;

/// The list of a run, or refusal 11. Arrays are in order by their first number
/// that differs, which is the order that the list has.
pub fn list(run: &[u8]) -> Result<Vec<Entry>, u8> {
    if !is_run(run) {
        return Err(11);
    }
    let entry = |(offset, byte)| {
        let nanoseconds = duration_alone(&replaced(run, offset, byte))?;
        Some([nanoseconds, offset as i64, i64::from(byte)])
    };
    let mut entries: Vec<Entry> = candidates(run).filter_map(entry).collect();
    entries.sort();
    Ok(entries)
}

/// Whether check 11 lets these bytes pass.
pub fn is_run(bytes: &[u8]) -> bool {
    !bytes.is_empty() && bytes.len() <= LONGEST && from_utf8(bytes).is_ok()
}

/// Every offset, with every printable byte that does not stand there.
pub fn candidates(run: &[u8]) -> impl Iterator<Item = (usize, u8)> + '_ {
    run.iter().enumerate().flat_map(|(offset, &byte)| {
        let others = (0x20..=0x7E).filter(move |&other| other != byte);
        others.map(move |other| (offset, other))
    })
}

pub fn replaced(run: &[u8], offset: usize, byte: u8) -> Vec<u8> {
    let mut replaced = run.to_vec();
    replaced[offset] = byte;
    replaced
}

/// The nanoseconds of a text whose strict tokens are a Duration and the Eof. A
/// bytes literal would be one token more, so no limit matters.
pub fn duration_alone(text: &[u8]) -> Option<i64> {
    let reading = read_text(text, Mode::Strict, DEFAULT_LIMIT, Lent::AMPLE).ok()?;
    match reading.records[..] {
        [token, eof] if token[0] == DURATION && eof[0] == EOF => Some(token[11]),
        _ => None,
    }
}

const DURATION: i64 = TokenKind::Duration as i64;
const EOF: i64 = TokenKind::Eof as i64;

/// What the call leaves behind with a slice of so many numbers, all of them
/// `before` until then: its number, the count of entries, the slice.
pub fn laid(listed: &Result<Vec<Entry>, u8>, room: usize, before: i64) -> (u8, usize, Vec<i64>) {
    let mut slice = vec![before; room];
    match listed {
        Err(number) => (*number, 0, slice),
        Ok(entries) if room < ENTRY * entries.len() => (12, 0, slice),
        Ok(entries) => {
            slice[..ENTRY * entries.len()].copy_from_slice(entries.as_flattened());
            (0, entries.len(), slice)
        }
    }
}

/// Bytes that stand in a duration or around it, or nearly do.
pub const TELLING: &[u8] = b" \t\r\n-+.0159hmsnuxH#/\"p:";

/// A duration of at most so many bytes, or what is left of one where they are
/// few, with one byte damaged or, seldom, with none.
pub fn damaged_run(most: usize, random: &mut Random) -> Vec<u8> {
    let mut run = grown_run(most, random);
    damage(&mut run, random);
    run
}

/// The same of exactly so many bytes.
pub fn damaged_run_of(length: usize, random: &mut Random) -> Vec<u8> {
    let mut run = grown_run(length, random);
    let missing = length - run.len();
    match run.iter().position(u8::is_ascii_digit) {
        Some(first) if random.one_in(2) => drop(run.splice(first..first, vec![b'0'; missing])),
        _ => run.resize(length, b' '),
    }
    change(&mut run, random);
    run
}

/// Mostly changes one byte; seldom takes one out, puts one in, or does nothing.
fn damage(run: &mut Vec<u8>, random: &mut Random) {
    match random.below(8) {
        0 => {}
        1 => {
            let byte = wrong_byte(random);
            timestamp::damage(run, byte, random);
        }
        _ if run.is_empty() => {}
        _ => change(run, random),
    }
}

fn change(run: &mut [u8], random: &mut Random) {
    let at = random.below(run.len());
    run[at] = wrong_byte(random);
}

/// Mostly a printable one; with some the run is no UTF-8.
fn wrong_byte(random: &mut Random) -> u8 {
    match random.below(8) {
        0 => random.byte(),
        1..4 => random.pick(TELLING),
        _ => 0x20 + random.below(95) as u8,
    }
}

/// Blanks, perhaps a sign, parts and blanks, as many as have room.
fn grown_run(most: usize, random: &mut Random) -> Vec<u8> {
    let mut run = blanks(random);
    if random.one_in(4) {
        run += "-";
    }
    for _ in 0..random.pick(&[1, 2, 3, 12]) {
        let part = part(random);
        if run.len() + part.len() <= most {
            run += &part;
        }
    }
    run += &blanks(random);
    let mut run = run.into_bytes();
    // What is cut off is blanks, or all of a run without a part: ASCII.
    run.truncate(most);
    run
}

/// Mostly none.
fn blanks(random: &mut Random) -> String {
    match random.one_in(4) {
        true => (0..1 + random.below(3))
            .map(|_| random.pick(&[' ', '\t', '\r']))
            .collect(),
        false => String::new(),
    }
}

/// Digits, perhaps a fraction, and a unit. Seldom the digits are so many that
/// one more is too large; some fractions lose their last digits.
fn part(random: &mut Random) -> String {
    const UNITS: [&str; 7] = ["ns", "us", "\u{b5}s", "ms", "s", "m", "h"];
    if random.one_in(40) {
        let last = random.digits(1);
        return format!("922337203685477580{last}ns");
    }
    let most = random.pick(&[1, 2, 4, 7]);
    let length = 1 + random.below(most);
    let mut part = random.digits(length);
    if random.one_in(3) {
        let most = random.pick(&[3, 10, 25]);
        let length = 1 + random.below(most);
        part += ".";
        part += &random.digits(length);
    }
    part + random.pick(&UNITS)
}
