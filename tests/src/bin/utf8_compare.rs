//! Holds the proved UTF-8 check to the standard library's: all sequences of up
//! to three bytes, those of four at the boundaries, alone and within a text,
//! and random texts with damage; then the speed of both.

use std::hint::black_box;
use std::process::ExitCode;
use std::str::from_utf8;

use oracle::ffi::check_utf8;
use oracle::random::Random;
use oracle::tally::Tally;
use oracle::texts::{damage, UTF8_BORDERS};
use oracle::timing::best_seconds;

const RANDOM_TEXTS: usize = 1_000_000;
const SPEED_BYTES: usize = 64 << 20;
const SPEED_RUNS: usize = 7;

/// What a sequence is put between. The lengths differ, so that the sequence
/// also meets the ends of a check that takes several bytes at once.
const AROUND: [(&str, &str); 5] = [
    ("", ""),
    ("abcdefg", "hijklmnopqrstuvw"),
    ("0123456789abcde", "é"),
    ("é€😀", "😀"),
    ("a", "\u{7f}"),
];

fn main() -> ExitCode {
    let mut random = Random::from_arguments();
    let mut tally = Tally::default();
    short_sequences(&mut tally);
    four_byte_sequences(&mut tally);
    random_texts(&mut random, &mut tally);
    speeds(&mut random);
    tally.finish()
}

/// The offset that the standard library gives.
fn expected(text: &[u8]) -> u64 {
    let end = from_utf8(text).map_or_else(|e| e.valid_up_to(), str::len);
    end as u64
}

fn compare(text: &[u8], tally: &mut Tally) {
    let (given, expected) = (check_utf8(text), expected(text));
    tally.check(given == expected, || {
        format!("{text:02X?}: {given}, expected {expected}")
    });
}

/// Compares a sequence alone and between other bytes. `text` is lent, so that
/// millions of sequences need one buffer.
fn compare_around(sequence: &[u8], text: &mut Vec<u8>, tally: &mut Tally) {
    for (before, after) in AROUND {
        text.clear();
        text.extend_from_slice(before.as_bytes());
        text.extend_from_slice(sequence);
        text.extend_from_slice(after.as_bytes());
        compare(text, tally);
    }
}

fn short_sequences(tally: &mut Tally) {
    let mut text = Vec::new();
    for length in 0..=3 {
        for number in 0..1u32 << (8 * length) {
            compare_around(&number.to_le_bytes()[..length], &mut text, tally);
        }
    }
    println!("passed with up to three bytes: {}", tally.passed());
}

fn four_byte_sequences(tally: &mut Tally) {
    let before = tally.passed();
    let mut text = Vec::new();
    for lead in 0xF0..=0xF7 {
        for second in UTF8_BORDERS {
            for third in UTF8_BORDERS {
                for fourth in UTF8_BORDERS {
                    compare_around(&[lead, second, third, fourth], &mut text, tally);
                }
            }
        }
    }
    println!("passed with four bytes: {}", tally.passed() - before);
}

fn random_texts(random: &mut Random, tally: &mut Tally) {
    let before = tally.passed();
    for _ in 0..RANDOM_TEXTS {
        let length = random.below(80);
        let ascii_in_ten = random.below(11);
        let mut text = random_characters(random, length, ascii_in_ten).into_bytes();
        for _ in 0..random.below(3) {
            damage(&mut text, random);
        }
        compare(&text, tally);
    }
    println!("passed on random texts: {}", tally.passed() - before);
}

/// Characters of every length up to `bytes` bytes or a few more, so many in
/// ten of them ASCII.
fn random_characters(random: &mut Random, bytes: usize, ascii_in_ten: usize) -> String {
    const LARGEST: [u32; 4] = [0x7F, 0x7FF, 0xFFFF, 0x10FFFF];
    let mut text = String::with_capacity(bytes + 4);
    while text.len() < bytes {
        let size = if random.below(10) < ascii_in_ten {
            0
        } else {
            random.below(4)
        };
        let number = random.below(LARGEST[size] as usize + 1) as u32;
        // A surrogate is no character.
        text.extend(char::from_u32(number));
    }
    text
}

fn speeds(random: &mut Random) {
    let texts = [
        ("ASCII", "x = 1.5s # log\n".repeat(SPEED_BYTES / 15)),
        ("mixed", random_characters(random, SPEED_BYTES, 8)),
        ("three-byte", "船".repeat(SPEED_BYTES / 3)),
    ];
    for (name, text) in &texts {
        let text = text.as_bytes();
        let proved = best_speed(text, |text| check_utf8(text) == text.len() as u64);
        let standard = best_speed(text, |text| from_utf8(text).is_ok());
        println!("{name}: proved {proved:.0} MiB/s, standard library {standard:.0} MiB/s");
    }
}

/// MiB per second.
fn best_speed(text: &[u8], accepts: impl Fn(&[u8]) -> bool) -> f64 {
    let seconds = best_seconds(SPEED_RUNS, || {
        assert!(accepts(black_box(text)), "a well-formed text was refused");
    });
    text.len() as f64 / f64::from(1 << 20) / seconds
}
