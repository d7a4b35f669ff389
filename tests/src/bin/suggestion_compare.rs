//! Holds the proved call for suggestions to the Rust, which reads every changed
//! run: the rows that change request #102 was worked out on, runs that are
//! refused, all short runs of telling bytes, damaged durations. Then how long
//! the call takes, and a search for the run on which it takes longest.

use std::fmt;
use std::iter::StepBy;
use std::ops::Range;
use std::process::ExitCode;
use std::thread;
use std::time::Instant;

use oracle::calls::compare_suggestions;
use oracle::ffi::{self, Buffers};
use oracle::notation::escaped;
use oracle::random::Random;
use oracle::suggestion::rows::{entry, COUNTED, LISTED, LONG, REFUSED};
use oracle::suggestion::{candidates, damaged_run, damaged_run_of, is_run, list};
use oracle::suggestion::{Entry, ENTRY, LONGEST, NUMBERS_A_BYTE};
use oracle::tally::Tally;
use oracle::timing::best_thread_seconds;

const WORKERS: usize = 2;
const DAMAGED_RUNS: usize = 8_000;
const LONGEST_RUNS: usize = 2_000;
/// The numbers of a slice that suffices for any run.
const ANY: usize = NUMBERS_A_BYTE * LONGEST;
/// No call takes longer.
const MOST_SECONDS: f64 = 0.001;
/// How often a run is changed in the search for the slowest.
const STEPS: usize = 1_000;

/// Bytes of durations, bytes that end them, and those of two micro signs.
#[rustfmt::skip]
const TELLING: [u8; 22] = [
    b' ', b'\t', b'\r', b'\n', b'-', b'+', b'.', b'0', b'1', b'9', b'h', b'm', b's', b'n', b'u',
    b'x', b'#', b'"', 0xC2, 0xB5, 0xCE, 0xBC,
];

fn main() -> ExitCode {
    let mut random = Random::from_arguments();
    let mut tally = Tally::default();
    stated_rows(&mut tally);
    refused_runs(&mut tally);
    println!("passed on stated rows: {}", tally.passed());
    let mut decided = 0;
    let mut section = |name: &str, work: fn(&mut Worker)| {
        let (before, start) = (tally.passed(), Instant::now());
        let workers: [Worker; WORKERS] = std::array::from_fn(|index| Worker {
            index,
            random: Random::new(random.number()),
            tally: Tally::default(),
            counts: Counts::default(),
        });
        let mut counts = Counts::default();
        thread::scope(|scope| {
            let threads = workers.map(|worker| scope.spawn(|| worker.run(work)));
            for thread in threads {
                let (added, more) = thread.join().expect("a worker that does not panic");
                tally.add(added);
                counts.add(more);
            }
        });
        let (passed, seconds) = (tally.passed() - before, start.elapsed().as_secs());
        println!("passed on {name}: {passed}, in {seconds} seconds; {counts}");
        decided += counts.candidates;
        counts
    };
    section("all runs of one byte", runs_of_one_byte);
    section("runs of 2 and 3 telling bytes", short_runs);
    let damaged = section("damaged durations", damaged_runs);
    let longest = section("damaged durations of 64 bytes", longest_runs);
    println!("candidates decided: {decided}");
    // Fewer would show little of the one kind or of the other.
    for counts in [damaged, longest] {
        let share = counts.with_entries as f64 / counts.runs as f64;
        tally.check((0.5..0.95).contains(&share), || counts.to_string());
    }
    times(&mut tally);
    slowest_run(&mut random, &mut tally);
    tally.finish()
}

/// What was tried: runs, those whose lists have an entry, and the candidates of
/// all that are not refused.
#[derive(Clone, Copy, Default)]
struct Counts {
    runs: u64,
    with_entries: u64,
    candidates: u64,
}

impl Counts {
    fn add(&mut self, more: Counts) {
        self.runs += more.runs;
        self.with_entries += more.with_entries;
        self.candidates += more.candidates;
    }
}

impl fmt::Display for Counts {
    fn fmt(&self, f: &mut fmt::Formatter<'_>) -> fmt::Result {
        let Counts {
            runs,
            with_entries,
            candidates,
        } = self;
        write!(
            f,
            "{runs} runs, {with_entries} of them with entries, {candidates} candidates"
        )
    }
}

/// One of several that share the runs out among them.
struct Worker {
    index: usize,
    random: Random,
    tally: Tally,
    counts: Counts,
}

impl Worker {
    fn run(mut self, work: fn(&mut Worker)) -> (Tally, Counts) {
        work(&mut self);
        (self.tally, self.counts)
    }

    /// This worker's part of so many numbered runs.
    fn share(&self, total: usize) -> StepBy<Range<usize>> {
        (self.index..total).step_by(WORKERS)
    }

    fn examine(&mut self, run: &[u8]) {
        let count = compare(run, &mut self.tally);
        self.counts.add(Counts {
            runs: 1,
            with_entries: u64::from(count > 0),
            candidates: match is_run(run) {
                true => candidates(run).count() as u64,
                false => 0,
            },
        });
    }
}

/// The call against the Rust, with slices of several lengths. Gives the count
/// that the call says.
fn compare(run: &[u8], tally: &mut Tally) -> usize {
    match compare_suggestions(run) {
        Ok(compared) => tally.pass(compared),
        Err(difference) => {
            tally.check(false, || format!("{}\n{difference}", escaped(run)));
        }
    }
    asked(run).1.len() / ENTRY
}

/// What the call answers with a slice that suffices: its number, and all that
/// it has written.
fn asked(run: &[u8]) -> (u8, Vec<i64>) {
    let mut slice = vec![Buffers::UNTOUCHED; ANY];
    let mut answer = [Buffers::UNTOUCHED; 6];
    let number = ffi::suggest_durations(run, &mut slice, &mut answer);
    while slice.last() == Some(&Buffers::UNTOUCHED) {
        slice.pop();
    }
    (number, slice)
}

/// The Rust is held to these too.
fn stated_rows(tally: &mut Tally) {
    for (run, rows) in LISTED {
        let expected: Vec<Entry> = rows.iter().copied().map(entry).collect();
        compare(run.as_bytes(), tally);
        let given = asked(run.as_bytes());
        tally.check(given == (0, expected.as_flattened().to_vec()), || {
            format!("{run:?}: {given:?}, expected {expected:?}")
        });
        let rust = list(run.as_bytes());
        tally.check(rust == Ok(expected), || {
            format!("{run:?}: the Rust has {rust:?}")
        });
    }
    for (run, count, first, last) in COUNTED {
        compare(run.as_bytes(), tally);
        let (first, last) = (entry(first), entry(last));
        let (number, numbers) = asked(run.as_bytes());
        let is_stated = |entries: &[i64]| {
            entries.len() == ENTRY * count
                && entries.starts_with(&first)
                && entries.ends_with(&last)
        };
        tally.check(number == 0 && is_stated(&numbers), || {
            format!("{run}: {number}, {numbers:?}")
        });
        let rust = list(run.as_bytes()).unwrap_or_default();
        tally.check(is_stated(rust.as_flattened()), || {
            format!("{run}: the Rust has {rust:?}")
        });
    }
}

/// With a slice that would suffice too.
fn refused_runs(tally: &mut Tally) {
    for (name, run) in REFUSED {
        compare(run, tally);
        let given = asked(run);
        tally.check(given == (11, Vec::new()), || format!("{name}: {given:?}"));
        let rust = list(run);
        tally.check(rust == Err(11), || format!("{name}: the Rust has {rust:?}"));
    }
}

fn runs_of_one_byte(worker: &mut Worker) {
    for byte in worker.share(256) {
        worker.examine(&[byte as u8]);
    }
}

fn short_runs(worker: &mut Worker) {
    for length in [2, 3] {
        for index in worker.share(TELLING.len().pow(length)) {
            let digit = |place| index / TELLING.len().pow(place) % TELLING.len();
            let run: Vec<u8> = (0..length).map(|place| TELLING[digit(place)]).collect();
            worker.examine(&run);
        }
    }
}

fn damaged_runs(worker: &mut Worker) {
    for _ in worker.share(DAMAGED_RUNS) {
        let most = 1 + worker.random.below(LONGEST);
        let run = damaged_run(most, &mut worker.random);
        worker.examine(&run);
    }
}

fn longest_runs(worker: &mut Worker) {
    for _ in worker.share(LONGEST_RUNS) {
        let run = damaged_run_of(LONGEST, &mut worker.random);
        worker.examine(&run);
    }
}

/// Of the call with a slice for any run, which makes one pass, and with an
/// exact one, for which it counts first; beside the Rust, by brute force.
fn times(tally: &mut Tally) {
    println!("microseconds of a call: slice for any run, exact slice, the Rust");
    for run in [
        "4j".to_string(),
        "1h30m15x".to_string(),
        "12h34m56.123456789xs".to_string(),
        LONG.to_string(),
        format!("0.{}s", &"123456789".repeat(7)[..61]),
        "a".repeat(LONGEST),
    ] {
        let run = run.as_bytes();
        let exact = asked(run).1.len();
        let any = NUMBERS_A_BYTE * run.len();
        let [any, exact] = [any, exact].map(|room| {
            let mut slice = vec![0; room];
            call_seconds(run, &mut slice, 200, 10)
        });
        let rust = best_thread_seconds(10, 1, || drop(list(run)));
        let [shown_any, shown_exact, rust] = [any, exact, rust].map(|seconds| seconds * 1e6);
        println!(
            "{:>10.2}{:>10.2}{:>10.0}  {} bytes: {}",
            shown_any,
            shown_exact,
            rust,
            run.len(),
            escaped(run)
        );
        tally.check(any.max(exact) <= MOST_SECONDS, || {
            format!("{}: over {MOST_SECONDS} seconds", escaped(run))
        });
    }
}

fn call_seconds(run: &[u8], slice: &mut [i64], times: usize, calls: usize) -> f64 {
    let mut answer = [0; 6];
    best_thread_seconds(times, calls, || {
        ffi::suggest_durations(run, slice, &mut answer);
    })
}

/// Changes one byte after the other, and keeps what makes the call slower. The
/// slice has one number less than one pass needs, so that two are made.
fn slowest_run(random: &mut Random, tally: &mut Tally) {
    let mut slice = vec![0; ANY - 1];
    let mut slowest = (0.0, Vec::new());
    for start in [
        LONG.as_bytes().to_vec(),
        [b"0.", &[b'9'; 61][..], b"s"].concat(),
        vec![b'a'; LONGEST],
        vec![b' '; LONGEST],
        damaged_run_of(LONGEST, random),
    ] {
        let mut run = start;
        for _ in 0..STEPS {
            let mut changed = run.clone();
            changed[random.below(LONGEST)] = match random.one_in(2) {
                true => random.pick(&TELLING),
                false => 0x20 + random.below(95) as u8,
            };
            // What seems slower is tried once more, with more turns.
            if [2, 10]
                .iter()
                .all(|&turns| is_slower(&changed, &run, &mut slice, turns))
            {
                run = changed;
            }
        }
        let seconds = call_seconds(&run, &mut slice, 200, 1);
        if seconds > slowest.0 {
            slowest = (seconds, run);
        }
    }
    let (seconds, run) = slowest;
    println!(
        "slowest run that was found: {:.2} microseconds, {}",
        seconds * 1e6,
        escaped(&run)
    );
    tally.check(seconds <= MOST_SECONDS, || {
        format!("the slowest run: over {MOST_SECONDS} seconds")
    });
}

/// Whether the call takes clearly longer on a run than on another. They are
/// timed by turns, since a machine is not equally fast at all times.
fn is_slower(run: &[u8], other: &[u8], slice: &mut [i64], turns: usize) -> bool {
    let (mut seconds, mut other_seconds) = (f64::INFINITY, f64::INFINITY);
    for _ in 0..turns {
        seconds = seconds.min(call_seconds(run, slice, 1, 1));
        other_seconds = other_seconds.min(call_seconds(other, slice, 1, 1));
    }
    seconds > 1.01 * other_seconds
}
