//! Holds the proved duration reader to `go_duration::parse`, and on bytes that
//! are no UTF-8 to its transcription, which is held to the Rust on the others.

use std::process::ExitCode;

use oracle::duration::{LARGEST, UNITS};
use oracle::random::Random;
use oracle::tally::Tally;
use oracle::{duration, exceptions, ffi};

const RANDOM_RUNS: usize = 2_000_000;

/// What stands where a unit should: near misses, and bytes of cut characters.
#[rustfmt::skip]
const WRONG_UNITS: [&[u8]; 16] = [
    b"", b"n", b"u", b"sn", b"mss", b"min", b"hs", b"S", b"d", b" s", b"-", b"\xC2", b"\xB5s",
    b"\xCEs", b"\xFF", b"\xC2\xB5",
];

const SIGNS: [&str; 3] = ["", "-", "+"];

fn main() -> ExitCode {
    let mut random = Random::from_arguments();
    let mut tally = Tally::default();
    fixed_runs(&mut tally);
    whole_numbers_at_the_border(&mut tally);
    fractions(&mut random, &mut tally);
    sums_at_the_border(&mut random, &mut tally);
    println!("passed on chosen runs: {}", tally.passed());
    for _ in 0..RANDOM_RUNS {
        compare(&random_run(&mut random), &mut tally);
    }
    tally.finish()
}

fn compare(run: &[u8], tally: &mut Tally) {
    let transcribed = duration::parse(run);
    if let Ok(text) = std::str::from_utf8(run) {
        let rust = exceptions::parse_duration(text);
        tally.check(transcribed == rust, || {
            format!("{text:?}: transcribed {transcribed:?}, the Rust {rust:?}")
        });
    }
    // A refused run leaves the value as it was.
    const BEFORE: i64 = -0x0123_4567_89AB_CDEF;
    let expected = transcribed.map_or((1, BEFORE), |value| (0, value));
    let mut value = [BEFORE];
    let verdict = ffi::parse_duration(run, &mut value);
    tally.check((verdict, value[0]) == expected, || {
        let text = String::from_utf8_lossy(run);
        format!("{text:?}: {verdict} {}, expected {expected:?}", value[0])
    });
}

/// A run with each sign and without.
fn compare_signed(unsigned: impl AsRef<[u8]>, tally: &mut Tally) {
    for sign in SIGNS {
        compare(&[sign.as_bytes(), unsigned.as_ref()].concat(), tally);
    }
}

fn fixed_runs(tally: &mut Tally) {
    for unsigned in [
        "", "0", "00", "0.", ".", ".s", "0s", "1", "1.s", ".5s", "1..5s", "1s0", "--1s",
    ] {
        compare_signed(unsigned, tally);
    }
    for byte in 0..=255 {
        compare_signed([byte], tally);
        compare_signed([b'1', byte], tally);
        compare_signed([b'1', byte, b's'], tally);
    }
    for unit in WRONG_UNITS {
        compare_signed([b"3", unit].concat(), tally);
        compare_signed([b"3s4.5", unit, b"6h"].concat(), tally);
    }
    for zeros in 0..=400 {
        let zeros = "0".repeat(zeros);
        for (unit, _) in UNITS {
            compare_signed(format!("{zeros}7{unit}"), tally);
            compare_signed(format!("{zeros}.{zeros}7{unit}"), tally);
        }
    }
}

/// Whole numbers about 2^63 divided by each unit, 2^63 and 2^64.
fn whole_numbers_at_the_border(tally: &mut Tally) {
    for (unit, nanoseconds) in UNITS {
        for border in [LARGEST / nanoseconds, LARGEST, 2 * LARGEST, 10 * LARGEST] {
            for whole in border - 12..border + 12 {
                compare_signed(format!("{whole}{unit}"), tally);
                compare_signed(format!("{whole}.999999999999{unit}"), tally);
                compare_signed(format!("000{whole}.0{unit}"), tally);
            }
        }
    }
}

/// One to 25 digits of nines, zeros and any, for each unit, and fractions whose
/// kept digits are about 2^63.
fn fractions(random: &mut Random, tally: &mut Tally) {
    for (unit, _) in UNITS {
        for length in 1..=25 {
            let mut fractions = vec!["9".repeat(length), "0".repeat(length)];
            fractions.extend((0..200).map(|_| random.digits(length)));
            for fraction in fractions {
                compare_signed(format!("{}.{fraction}{unit}", random.below(30)), tally);
                compare_signed(format!(".{fraction}{unit}"), tally);
            }
        }
        for kept in LARGEST - 30..LARGEST + 30 {
            for zeros in ["", "0", "00000"] {
                compare_signed(format!(".{zeros}{kept}{unit}"), tally);
                compare_signed(format!("1.{zeros}{kept}7{unit}"), tally);
            }
        }
    }
}

/// Several parts whose sum is about 2^63, or 2^64, where the Rust panics.
fn sums_at_the_border(random: &mut Random, tally: &mut Tally) {
    for _ in 0..50_000 {
        let (unit, nanoseconds) = random.pick(&UNITS);
        let first = i128::from(random.number()) % (LARGEST + 1) / nanoseconds;
        let missing = LARGEST - first * nanoseconds;
        let second = (missing + random.below(5) as i128 - 2).max(0);
        compare_signed(format!("{first}{unit}{second}ns"), tally);
    }
    for before in ["", "0s", "0.0h"] {
        for after in ["", "1ns", "0ns", "x", "9223372036854775808ns"] {
            let run = format!("{before}{LARGEST}ns{LARGEST}ns{after}");
            compare_signed(run, tally);
        }
    }
}

/// A run of a few parts, most of them good ones.
fn random_run(random: &mut Random) -> Vec<u8> {
    let mut run = random.pick(&["", "", "", "-", "+"]).as_bytes().to_vec();
    for _ in 0..random.below(4) + 1 {
        if !random.one_in(8) {
            let most = random.pick(&[2, 5, 10, 20, 22]);
            let length = random.below(most);
            run.extend(random.digits(length).into_bytes());
        }
        if random.one_in(2) {
            run.push(b'.');
            let length = random.below(26);
            run.extend(random.digits(length).into_bytes());
        }
        if random.one_in(30) {
            run.extend(random.pick(&WRONG_UNITS));
        } else {
            run.extend(random.pick(&UNITS).0.as_bytes());
        }
    }
    if random.one_in(20) && !run.is_empty() {
        let at = random.below(run.len());
        run[at] = random.byte();
    }
    run
}
