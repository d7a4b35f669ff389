//! Holds every call of the C interface on a text to the Rust, as document 01
//! has it: the number, the answer, and each buffer to its last element. A text
//! that shows a difference is made as small as it can be.

use std::collections::BTreeSet;
use std::fmt::Display;
use std::iter::StepBy;
use std::ops::Range;
use std::process::ExitCode;
use std::sync::atomic::{AtomicUsize, Ordering};
use std::sync::Mutex;
use std::time::Instant;
use std::{slice, thread};

use oracle::calls::{compare, compare_call, compare_suggestions, Call, Depth, Setting};
use oracle::cases::DEFAULT_LIMIT;
use oracle::conformance::{self, Asked};
use oracle::grammar::{grown_text, grown_timestamps};
use oracle::limits::MAX_MESSAGE_SIZE;
use oracle::notation::escaped;
use oracle::random::Random;
use oracle::shrink::shrink;
use oracle::suggestion::is_run;
use oracle::tally::Tally;
use oracle::texts::{damage, TELLING, UTF8_BORDERS};
use oracle::token::Position;

const WORKERS: usize = 2;
/// After so many texts that differ the rest is left out.
const ENOUGH: usize = 20;
const GROWN_TEXTS: usize = 200_000;
const GROWN_TIMESTAMPS: usize = 100_000;
/// Of the runs that the call for suggestions takes, all of so many bytes are
/// tried, and of the longer ones one in so many: for each byte of a run, the
/// Rust reads about 95 texts.
const SHORT_RUN: usize = 2;
const ONE_IN_RUNS: usize = 200;
const LIMITS: [u64; 12] = [0, 1, 2, 3, 4, 5, 6, 7, 8, 9, DEFAULT_LIMIT, u64::MAX];

fn main() -> ExitCode {
    let mut random = Random::from_arguments();
    let mut tally = Tally::default();
    let failures = Failures::default();
    let mut section = |name: &str, work: fn(&mut Worker)| {
        let (before, start) = (tally.passed(), Instant::now());
        let workers: [Worker; WORKERS] = std::array::from_fn(|index| Worker {
            index,
            random: Random::new(random.number()),
            tally: Tally::default(),
            runs: 0,
            failures: &failures,
        });
        thread::scope(|scope| {
            let threads = workers.map(|worker| scope.spawn(|| worker.run(work)));
            for thread in threads {
                tally.add(thread.join().expect("a worker that does not panic"));
            }
        });
        let (passed, seconds) = (tally.passed() - before, start.elapsed().as_secs());
        println!("passed on {name}: {passed}, in {seconds} seconds");
    };
    section("the conformance list", conformance_list);
    section("texts of up to 4 telling characters", short_texts);
    section("every character there is", every_character);
    section("sequences of up to 4 bytes", byte_sequences);
    section("grown texts and damaged copies", grown_texts);
    section("timestamps, good and nearly good", timestamps);
    section("texts of the largest size", largest_texts);
    tally.finish()
}

/// How many texts differed, and the smallest ones that were shown for them.
#[derive(Default)]
struct Failures {
    count: AtomicUsize,
    shown: Mutex<BTreeSet<String>>,
}

/// One of several that share the texts out among them.
struct Worker<'a> {
    index: usize,
    random: Random,
    tally: Tally,
    /// How many longer runs there were that the call for suggestions takes.
    runs: usize,
    failures: &'a Failures,
}

impl Worker<'_> {
    fn run(mut self, work: fn(&mut Worker)) -> Tally {
        work(&mut self);
        self.tally
    }

    /// This worker's part of so many numbered texts.
    fn share(&self, total: usize) -> StepBy<Range<usize>> {
        (self.index..total).step_by(WORKERS)
    }

    fn examine_in_both_modes(&mut self, text: &[u8], limit: u64, depth: Depth) {
        for mode in [0, 1] {
            self.examine(text, Setting { mode, limit }, depth);
        }
        self.examine_suggestions(text);
    }

    fn examine(&mut self, text: &[u8], setting: Setting, depth: Depth) {
        if self.failures.count.load(Ordering::Relaxed) >= ENOUGH {
            return;
        }
        match compare(text, setting, depth) {
            Ok(compared) => self.tally.pass(compared),
            Err(difference) => {
                let shrunk = shrink(text, |text| compare(text, setting, depth).err());
                let (text, difference) = shrunk.unwrap_or((text.to_vec(), difference));
                self.fail(escaped(&text), &difference);
            }
        }
    }

    /// The call for suggestions, with the text as a mistyped duration's run.
    fn examine_suggestions(&mut self, text: &[u8]) {
        if self.failures.count.load(Ordering::Relaxed) >= ENOUGH {
            return;
        }
        if text.len() > SHORT_RUN && is_run(text) {
            self.runs += 1;
            if !self.runs.is_multiple_of(ONE_IN_RUNS) {
                return;
            }
        }
        match compare_suggestions(text) {
            Ok(compared) => self.tally.pass(compared),
            Err(difference) => {
                let shrunk = shrink(text, |text| compare_suggestions(text).err());
                let (text, difference) = shrunk.unwrap_or((text.to_vec(), difference));
                self.fail(escaped(&text), &difference);
            }
        }
    }

    /// What one call has shown, on a text that is shown by a name.
    fn count(&mut self, name: &str, compared: Result<u64, impl Display>) {
        match compared {
            Ok(compared) => self.tally.pass(compared),
            Err(difference) => self.fail(name.to_string(), &difference),
        }
    }

    /// Counts a text that differs; the same smallest one is shown once.
    fn fail(&mut self, text: String, difference: &impl Display) {
        self.tally.fail();
        self.failures.count.fetch_add(1, Ordering::Relaxed);
        let mut shown = self.failures.shown.lock().expect("no worker panics");
        if !shown.contains(&text) {
            println!("FAILED {text}\n{difference}");
            shown.insert(text);
        }
    }
}

/// Each text everywhere, and what its case asks: its place may be one that is
/// tried nowhere else.
fn conformance_list(worker: &mut Worker) {
    let cases = conformance::cases();
    for index in worker.share(cases.len()) {
        let case = &cases[index];
        let (mode, limit) = (case.mode as u8, case.limit);
        let setting = Setting { mode, limit };
        worker.examine(&case.text, setting, Depth::Everywhere);
        let call = match case.asked {
            Asked::Whole => Call::Text(setting),
            Asked::OneToken(from) => Call::Token(from, setting),
            Asked::PlaceOf(offset) => Call::Place(offset),
            Asked::Instant => Call::Timestamp,
        };
        worker.count(&case.name, compare_call(&case.text, call));
        worker.examine_suggestions(&case.text);
    }
}

fn short_texts(worker: &mut Worker) {
    for length in 0..=4 {
        for index in worker.share(TELLING.len().pow(length)) {
            let text = String::from_iter(numbered(&TELLING, length, index));
            for &limit in limits(&text, index) {
                worker.examine_in_both_modes(text.as_bytes(), limit, depth_of(length));
            }
        }
    }
}

/// Each where it may stand: alone, in the literals, after a backslash, a digit,
/// a timestamp's start and a whole timestamp, and as an indent.
fn every_character(worker: &mut Worker) {
    for number in worker.share(0x11_0000) {
        if let Some(c) = char::from_u32(number as u32) {
            let text = format!(
                "{c}\n\"{c}\"\n\"\\{c}\"\nb\"{c}\"\n1{c}\n2024-{c}\n2024-01-02T03:04:05Z{c}\n\
                 \"\"\"\n{c}a\n{c}\"\"\""
            );
            let limit = LIMITS[number % LIMITS.len()];
            worker.examine_in_both_modes(text.as_bytes(), limit, Depth::Whole);
        }
    }
}

/// Most are no UTF-8; alone, and within a text.
fn byte_sequences(worker: &mut Worker) {
    for length in 1..=4 {
        for index in worker.share(UTF8_BORDERS.len().pow(length)) {
            let sequence = numbered(&UTF8_BORDERS, length, index);
            let within = [b"\"a\xC3\xA9", &sequence[..], b"\"z"].concat();
            let limit = LIMITS[index % LIMITS.len()];
            for text in [sequence, within] {
                worker.examine_in_both_modes(&text, limit, depth_of(length));
            }
        }
    }
}

fn grown_texts(worker: &mut Worker) {
    for _ in worker.share(GROWN_TEXTS) {
        let text = grown_text(&mut worker.random).into_bytes();
        grown(worker, &text);
        for _ in 0..2 {
            let mut damaged = text.clone();
            for _ in 0..=worker.random.below(3) {
                damage(&mut damaged, &mut worker.random);
            }
            grown(worker, &damaged);
        }
        if worker.random.one_in(500) {
            let more = (0..200).map(|_| grown_text(&mut worker.random));
            let long = String::from_iter(more).into_bytes();
            worker.examine_in_both_modes(&long, DEFAULT_LIMIT, Depth::Whole);
        }
    }
}

fn timestamps(worker: &mut Worker) {
    for _ in worker.share(GROWN_TIMESTAMPS) {
        let text = grown_timestamps(&mut worker.random).into_bytes();
        grown(worker, &text);
    }
}

/// With one of the limits; seldom with a mode that is neither 0 nor 1.
fn grown(worker: &mut Worker, text: &[u8]) {
    let limit = worker.random.pick(&LIMITS);
    let depth = match worker.random.one_in(4) {
        true => Depth::Everywhere,
        false => Depth::Whole,
    };
    worker.examine_in_both_modes(text, limit, depth);
    if worker.random.one_in(50) {
        let mode = worker.random.pick(&[2, 3, 128, 255]);
        worker.examine(text, Setting { mode, limit }, depth);
    }
}

/// As long as a text may be, and one byte longer (refusal 1, before 2).
fn largest_texts(worker: &mut Worker) {
    if worker.index > 0 {
        return;
    }
    let mut text = vec![b' '; MAX_MESSAGE_SIZE];
    largest_text(worker, "blanks", &text);
    text.push(b' ');
    largest_text(worker, "blanks and one more", &text);
    text.fill(0xFF);
    largest_text(worker, "0xFF and one more", &text);
    text.pop();
    largest_text(worker, "0xFF", &text);
}

fn largest_text(worker: &mut Worker, name: &str, text: &[u8]) {
    let (mode, limit) = (0, DEFAULT_LIMIT);
    let setting = Setting { mode, limit };
    let end = Position::with_offset(1, MAX_MESSAGE_SIZE + 1, MAX_MESSAGE_SIZE);
    let name = format!("{} bytes: {name}", text.len());
    for call in [
        Call::Text(setting),
        Call::Token(end, setting),
        Call::Place(MAX_MESSAGE_SIZE),
        Call::Place(MAX_MESSAGE_SIZE + 1),
    ] {
        worker.count(&name, compare_call(text, call));
    }
    worker.count(&name, compare_suggestions(text));
}

/// The sequence of so many of these elements that has this number.
fn numbered<T: Copy>(elements: &[T], length: u32, index: usize) -> Vec<T> {
    let digit = |place| index / elements.len().pow(place) % elements.len();
    (0..length).map(|place| elements[digit(place)]).collect()
}

/// The longest ones are many, and hold the shorter ones.
fn depth_of(length: u32) -> Depth {
    match length {
        ..4 => Depth::Everywhere,
        _ => Depth::Whole,
    }
}

/// All limits where a bytes literal may begin, else one of them.
fn limits(text: &str, index: usize) -> &'static [u64] {
    match text.contains("b\"") {
        true => &LIMITS,
        false => slice::from_ref(&LIMITS[index % LIMITS.len()]),
    }
}
