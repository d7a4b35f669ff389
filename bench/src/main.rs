//! The speed of the whole reading: the proved library beside the Rust's
//! `from_utf8` plus `collect_tokens`, in one process, on texts of 8 MiB; then
//! whether the proved one stays as fast on longer texts.
//!
//! What is timed of the proved library is one call, into buffers that were
//! allocated and touched before: buffers that suffice for any text of the
//! length, which is read in one pass, and buffers of just the result's size,
//! which is measured first. The goals are for the former. The Rust allocates as
//! it goes; that its tokens are freed is not timed. Each time is the best of
//! several runs.
//!
//! The arguments name the texts that are read; without any, all are.

use std::env;
use std::process::ExitCode;

use bench::reading::Reading;
use bench::texts::{self, Text, TEXTS};
use oracle::records::RECORD;
use oracle::tally::Tally;
use oracle::timing::best_seconds;

const MIB: usize = 1 << 20;
const SIZE: usize = 8 * MIB;
const SIZES: [usize; 4] = [SIZE, 16 * MIB, 32 * MIB, 64 * MIB];
const RUNS: usize = 5;
const ROUNDS: usize = 4;
/// On longer texts the speed is at least this part of that on 8 MiB. If the time
/// grew with the square of the length, it would be an eighth on 64 MiB; caches
/// alone can halve it.
const STEADY: f64 = 0.25;
/// Longer texts of more tokens are left out; the records of so many are 3 GiB.
const MOST_TOKENS: usize = (3 << 30) / (8 * RECORD);

fn main() -> ExitCode {
    let mut texts: Vec<&Text> = env::args()
        .skip(1)
        .map(|name| texts::named(&name))
        .collect();
    if texts.is_empty() {
        texts.extend(&TEXTS);
    }
    let mut tally = Tally::default();
    println!("Bytes a second on 8 MiB");
    println!(
        "{:<30}{:>12}{:>12}{:>12}  ratios",
        "", "enough", "exact", "Rust"
    );
    for text in &texts {
        beside_the_rust(text, &mut tally);
    }
    println!("\nBytes a second of the proved library on 8, 16, 32 and 64 MiB");
    for text in &texts {
        on_longer_texts(text, &mut tally);
    }
    tally.finish()
}

fn beside_the_rust(text: &Text, tally: &mut Tally) {
    let mut reading = Reading::new(text, SIZE);
    let (mut enough, mut exact, mut rust) = (0.0f64, 0.0f64, 0.0f64);
    for _ in 0..ROUNDS {
        rust = rust.max(rust_speed(&reading));
        reading.lend_exactly();
        exact = exact.max(proved_speed(&mut reading));
        reading.lend_enough();
        enough = enough.max(proved_speed(&mut reading));
    }
    let (name, goal) = (text.name, text.goal);
    let (ratio, exact_ratio) = (enough / rust, exact / rust);
    println!("{name:<30}{enough:>12.0}{exact:>12.0}{rust:>12.0}{ratio:>7.2}{exact_ratio:>7.2}");
    tally.check(ratio >= goal, || format!("{name}: the goal is {goal}"));
}

/// Whether the time is linear in the length.
fn on_longer_texts(text: &Text, tally: &mut Tally) {
    let mut shown = format!("{:<30}", text.name);
    let mut speeds = Vec::new();
    for size in SIZES {
        let mut reading = Reading::new(text, size);
        if reading.tokens > MOST_TOKENS {
            shown += "    left out";
            continue;
        }
        reading.lend_exactly();
        let speed = proved_speed(&mut reading);
        shown += &format!("{speed:>12.0}");
        speeds.push(speed);
    }
    println!("{shown}");
    let steady = speeds.iter().all(|&speed| speed >= STEADY * speeds[0]);
    tally.check(steady, || format!("{}: not linear", text.name));
}

fn proved_speed(reading: &mut Reading) -> f64 {
    let seconds = best_seconds(RUNS, || reading.proved());
    reading.text.len() as f64 / seconds
}

fn rust_speed(reading: &Reading) -> f64 {
    let seconds = best_seconds(RUNS, || reading.rust());
    reading.text.len() as f64 / seconds
}
