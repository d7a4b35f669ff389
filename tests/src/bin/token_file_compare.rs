//! Holds the proved writer and reader of token files to the plain Rust ones:
//! random records, good and damaged, and random files, with buffers that are
//! exact, one short and generous. What a call need not write stays untouched.

use std::process::ExitCode;

use oracle::random::Random;
use oracle::records::{Record, RECORD};
use oracle::tally::Tally;
use oracle::{ffi, token_file};

const RANDOM_RECORDS: usize = 1_000_000;

/// Numbers at and beside the borders of the record rules, and of the widths
/// in a file.
#[rustfmt::skip]
const BORDERS: [i64; 27] = [
    i64::MIN, -(1 << 32), -1, 0, 1, 2, 17, 18, 19, 20, 21, 22, 25, 26, 255, 256, 257, 65_535,
    65_536, 67_108_863, 67_108_864, 67_108_865, 67_108_866, (1 << 32) - 1, 1 << 32, (1 << 32) + 1,
    i64::MAX,
];

/// The reasons that an Illegal token has in a file.
#[rustfmt::skip]
const REASONS: [i64; 19] = [1, 2, 3, 4, 5, 6, 7, 8, 9, 10, 11, 12, 13, 14, 15, 16, 17, 18, 21];

fn main() -> ExitCode {
    let mut random = Random::from_arguments();
    let mut tally = Tally::default();
    let mut compared = 0;
    while compared < RANDOM_RECORDS {
        let records = random_records(&mut random);
        let count = records.len() / RECORD;
        compared += count;
        writes(&records, count as u64, &mut random, &mut tally);
        let mut damaged = records.clone();
        for _ in 0..random.below(2) + 1 {
            damage_records(&mut damaged, &mut random);
        }
        writes(&damaged, count as u64, &mut random, &mut tally);
        let wrong_count = random_count(count, &mut random);
        writes(&records, wrong_count, &mut random, &mut tally);

        if let Ok(mut file) = token_file::write(&records, count as u64, usize::MAX) {
            reads(&file, &mut random, &mut tally);
            for _ in 0..random.below(2) + 1 {
                damage_file(&mut file, &mut random);
            }
            reads(&file, &mut random, &mut tally);
        }
    }
    println!("records: {compared}");
    tally.finish()
}

/// The writer, with each length of buffer.
fn writes(records: &[i64], count: u64, random: &mut Random, tally: &mut Tally) {
    let exact = 9 + 16 * (records.len() / RECORD).min(count as usize);
    for length in lengths(exact, random) {
        let expected = token_file::write(records, count, length);
        let bytes = expected.as_ref().map_or(0, Vec::len);
        let call = |buffer: &mut [u8], answer: &mut [i64; 6]| {
            ffi::write_token_file(records, count, buffer, answer)
        };
        let noise: Vec<u8> = (0..length).map(|_| random.byte()).collect();
        compare(call, noise, expected, bytes, tally, || {
            format!("writing {count} of {records:?} into {length} bytes")
        });
    }
}

/// The reader, with each length of slice.
fn reads(file: &[u8], random: &mut Random, tally: &mut Tally) {
    let exact = RECORD * (file.len().saturating_sub(9) / 16);
    for length in lengths(exact, random) {
        let expected = token_file::read(file, length);
        let count = expected.as_ref().map_or(0, Vec::len) / RECORD;
        let call =
            |buffer: &mut [i64], answer: &mut [i64; 6]| ffi::read_token_file(file, buffer, answer);
        let noise: Vec<i64> = (0..length).map(|_| random.number() as i64).collect();
        compare(call, noise, expected, count, tally, || {
            format!("reading {file:?} into {length} numbers")
        });
    }
}

fn lengths(exact: usize, random: &mut Random) -> [usize; 3] {
    [exact, exact.saturating_sub(1), exact + 1 + random.below(40)]
}

/// One call on a buffer of noise: its number, its answer, and all its buffer.
fn compare<T: Clone + PartialEq>(
    call: impl Fn(&mut [T], &mut [i64; 6]) -> u8,
    noise: Vec<T>,
    expected: Result<Vec<T>, u8>,
    counted: usize,
    tally: &mut Tally,
    describe: impl Fn() -> String,
) {
    let mut buffer = noise.clone();
    let mut answer = [-7; 6];
    let number = call(&mut buffer, &mut answer);

    let mut final_buffer = noise;
    if let Ok(written) = &expected {
        final_buffer[..written.len()].clone_from_slice(written);
    }
    let final_answer = [counted as i64, 0, 0, 0, 0, 0];
    let final_number = expected.err().unwrap_or(0);
    let holds = number == final_number && answer == final_answer && buffer == final_buffer;
    tally.check(holds, || {
        let differs = buffer.iter().zip(&final_buffer).position(|(a, b)| a != b);
        format!(
            "{}: {number} {answer:?}, expected {final_number} {final_answer:?}; \
             buffers differ at {differs:?}",
            describe()
        )
    });
}

/// Records that follow the rules; seldom a column that no file holds.
fn random_records(random: &mut Random) -> Vec<i64> {
    let most_tokens = if random.one_in(500) { 2_000 } else { 12 };
    let tokens = random.below(most_tokens);
    let largest_step = if random.one_in(10) { 67_108_864 } else { 60 };
    let step = largest_step / (2 * tokens + 2);
    let mut records = Vec::new();
    let mut end = 0;
    for index in 0..=tokens {
        let is_last = index == tokens;
        let kind = if is_last { 0 } else { random.below(25) + 1 };
        let reason = if kind == 1 { random.pick(&REASONS) } else { 0 };
        let start = end + random.below(step + 1);
        let length = if is_last {
            0
        } else {
            random.below(step + 1).max(1)
        };
        end = start + length;
        let line = random_place(random, 67_108_865);
        let column = match random.one_in(100) {
            true => random_place(random, 67_108_865),
            false => random_place(random, 65_535),
        };
        // The numbers that a file drops may be any.
        let mut record: Record = [0; RECORD].map(|_| random.number() as i64);
        (record[0], record[1]) = (kind as i64, reason);
        (record[3], record[4]) = (start as i64, end as i64);
        (record[5], record[6]) = (line, column);
        records.extend(record);
    }
    records
}

/// A line or column up to `most`, that among them.
fn random_place(random: &mut Random, most: usize) -> i64 {
    let place = match random.below(10) {
        0 => most,
        1 => 1 + random.below(most),
        _ => 1 + random.below(100),
    };
    place as i64
}

/// Changes one number that a rule may speak of, swaps two records, cuts the
/// slice within a record, or lengthens it (which is no fault).
fn damage_records(records: &mut Vec<i64>, random: &mut Random) {
    let count = records.len() / RECORD;
    if count == 0 {
        return;
    }
    let at = RECORD * random.below(count);
    match random.below(9) {
        0 => {
            let other = RECORD * random.below(count);
            for number in 0..RECORD {
                records.swap(at + number, other + number);
            }
        }
        1 => records.truncate(at + random.below(RECORD)),
        2 => records.extend((0..random.below(30)).map(|_| random.number() as i64)),
        3 => {
            let number = &mut records[at + random.below(7)];
            *number = number.wrapping_add(random.pick(&[-1, 1, 1 << 8, 1 << 16, 1 << 32]));
        }
        _ => records[at + random.below(7)] = random.pick(&BORDERS),
    }
}

/// A count about the true one, or one whose product with 12 or 16 wraps.
fn random_count(count: usize, random: &mut Random) -> u64 {
    let count = count as u64;
    match random.below(7) {
        0 => 0,
        1 => count - 1,
        2 => count + 1,
        3 => count + (1 << 32),
        4 => count + (1 << 62), // times 12 or 16: as `count`
        5 => u64::MAX / 12 + 1 + random.below(3) as u64,
        _ => u64::MAX,
    }
}

/// Changes the head, one byte, or the length.
fn damage_file(file: &mut Vec<u8>, random: &mut Random) {
    if file.is_empty() {
        return;
    }
    let at = random.below(file.len());
    match random.below(6) {
        0 => file.truncate(at),
        1 => file.extend((0..random.below(33)).map(|_| random.byte())),
        2 => file[at.min(random.below(9))] = random.byte(),
        3 => file[at] = random.pick(&[0, 1, 18, 19, 20, 21, 22, 25, 26, 128, 255]),
        4 => file[at] ^= 1 << random.below(8),
        _ => file[at] = random.byte(),
    }
}
