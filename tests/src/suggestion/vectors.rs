//! The vectors of the call for suggestions, for whoever builds another reader:
//! runs and lengths of list slices, with what the Rust gives by brute force.

use std::fmt;

use super::rows::{COUNTED, LISTED, REFUSED};
use super::{damaged_run, damaged_run_of, laid, list, ENTRY, LONGEST};
use crate::random::Random;

/// How many vectors there are.
pub const COUNT: usize = 208;
/// No slice is longer: the program that replays the vectors has one of this
/// length.
pub const LONGEST_ROOM: usize = 2_400;
/// What every number of the slice is before the call.
pub const BEFORE: i64 = 77;

const DAMAGED_RUNS: usize = 120;

/// A run, and how many numbers the list slice has.
#[derive(Debug, PartialEq, Eq)]
pub struct Vector {
    pub room: usize,
    pub run: Vec<u8>,
}

/// What is asked, a line each.
pub fn questions() -> String {
    let line = |vector: &Vector| format!("{vector}\n");
    vectors().iter().map(line).collect()
}

/// What has to be answered, a line for each of the questions.
pub fn answers() -> String {
    let line = |vector: &Vector| vector.answer() + "\n";
    vectors().iter().map(line).collect()
}

/// The same at each call: the rows that are written by hand, then damaged
/// durations.
pub fn vectors() -> Vec<Vector> {
    let mut vectors = Vec::new();
    let listed = LISTED.iter().map(|(run, _)| run);
    for run in listed.chain(COUNTED.iter().map(|(run, ..)| run)) {
        let exact = room_for(run.as_bytes());
        add(&mut vectors, run.as_bytes(), &rooms(exact));
    }
    for (_, run) in REFUSED {
        add(&mut vectors, run, &[0, 4]);
    }
    let mut random = Random::new(102);
    for number in 0..DAMAGED_RUNS {
        let run = match number % 4 {
            0 => damaged_run_of(LONGEST, &mut random),
            _ => damaged_run(LONGEST, &mut random),
        };
        let rooms = rooms(room_for(&run));
        add(&mut vectors, &run, &[random.pick(&rooms)]);
    }
    vectors
}

fn add(vectors: &mut Vec<Vector>, run: &[u8], rooms: &[usize]) {
    let run = run.to_vec();
    vectors.extend(rooms.iter().map(|&room| Vector {
        room,
        run: run.clone(),
    }));
}

/// Exact, longer and, where there is an entry, one short.
fn rooms(exact: usize) -> Vec<usize> {
    let short = exact.checked_sub(1);
    [exact, exact + 4].into_iter().chain(short).collect()
}

/// How many numbers the list of a run has.
fn room_for(run: &[u8]) -> usize {
    ENTRY * list(run).map_or(0, |entries| entries.len())
}

impl Vector {
    fn answer(&self) -> String {
        let (number, count, slice) = laid(&list(&self.run), self.room, BEFORE);
        let numbers: String = slice.iter().map(|number| format!(" {number}")).collect();
        format!("{number} {count}{numbers}")
    }
}

/// The question.
impl fmt::Display for Vector {
    fn fmt(&self, f: &mut fmt::Formatter<'_>) -> fmt::Result {
        let hex: String = self.run.iter().map(|byte| format!("{byte:02x}")).collect();
        write!(f, "{} {hex}", self.room)
    }
}
