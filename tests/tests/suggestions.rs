//! Holds the suggestions for mistyped durations to what change request #102
//! says of them, and reads their vectors back, as another reader's builder
//! would.

use std::collections::BTreeSet;
use std::fs;

use oracle::random::Random;
use oracle::suggestion::rows::{entry, COUNTED, LISTED, REFUSED};
use oracle::suggestion::vectors::{answers, questions, vectors, Vector};
use oracle::suggestion::vectors::{BEFORE, COUNT, LONGEST_ROOM};
use oracle::suggestion::{candidates, damaged_run, duration_alone, list, replaced};
use oracle::suggestion::{Entry, ENTRY, LONGEST};

const RUNS: usize = 500;

#[test]
fn the_stated_rows_are_the_rusts() {
    for (run, rows) in LISTED {
        let stated: Vec<Entry> = rows.iter().copied().map(entry).collect();
        assert_eq!(list(run.as_bytes()), Ok(stated), "{run:?}");
    }
    for (run, count, first, last) in COUNTED {
        let entries = list(run.as_bytes()).expect(run);
        let ends = (entries.first().copied(), entries.last().copied());
        assert_eq!(entries.len(), count, "{run}");
        assert_eq!(ends, (Some(entry(first)), Some(entry(last))), "{run}");
    }
    for (name, run) in REFUSED {
        assert_eq!(list(run), Err(11), "{name}");
    }
}

/// "least nanoseconds come first, then earliest offset, then lowest byte", and
/// "the list is empty only when no such replacement exists".
#[test]
fn lists_are_sorted_sound_and_complete() {
    let mut random = Random::new(1);
    for _ in 0..RUNS {
        let run = damaged_run(1 + random.below(LONGEST), &mut random);
        if let Ok(entries) = list(&run) {
            holds_of(&run, &entries);
        }
    }
}

/// Each candidate is looked up in the list, and each entry is a candidate.
fn holds_of(run: &[u8], entries: &[Entry]) {
    let mut listed = 0;
    for (offset, byte) in candidates(run) {
        assert!((0x20..=0x7E).contains(&byte) && run[offset] != byte);
        let place = [offset as i64, i64::from(byte)];
        let found = entries.iter().find(|entry| entry[1..] == place);
        let nanoseconds = duration_alone(&replaced(run, offset, byte));
        assert_eq!(found.map(|entry| entry[0]), nanoseconds, "{run:?}");
        listed += usize::from(nanoseconds.is_some());
    }
    assert_eq!(listed, entries.len(), "{run:?}");
    let is_before = |a: &Entry, b: &Entry| (a[0], a[1], a[2]) < (b[0], b[1], b[2]);
    assert!(entries.is_sorted_by(is_before), "{run:?}");
}

#[test]
fn no_candidate_is_missing() {
    // 94 for a printable byte, 95 for any other.
    assert_eq!(candidates(b"4j").count(), 2 * 94);
    assert_eq!(candidates("\t\u{b5}~ ".as_bytes()).count(), 3 * 95 + 2 * 94);
    assert_eq!(candidates(&[0; LONGEST]).count(), 6_080);
}

#[test]
fn the_stored_vectors_are_what_is_printed() {
    let (asked, answered) = (stored("stdin"), stored("stdout"));
    assert!(asked == questions(), "suggestion_cases/stdin differs");
    assert!(answered == answers(), "suggestion_cases/stdout differs");
    // The program that replays them reads them into a buffer.
    assert!(asked.len() < 60_000 && answered.len() < 250_000);
}

#[test]
fn the_vectors_say_what_the_rust_gives() {
    let (questions, answers, vectors) = (questions(), answers(), vectors());
    assert_eq!(vectors.len(), COUNT);
    assert_eq!(questions.lines().count(), COUNT);
    assert_eq!(answers.lines().count(), COUNT);
    let mut numbers = BTreeSet::new();
    for ((question, answer), vector) in questions.lines().zip(answers.lines()).zip(&vectors) {
        assert_eq!(asked(question), *vector);
        assert!(vector.room <= LONGEST_ROOM, "{question}");
        numbers.insert(holds(answer, vector));
    }
    assert!(numbers.into_iter().eq([0, 11, 12]));
}

/// The question as a reader takes it: the length, a blank, and digits.
fn asked(question: &str) -> Vector {
    let (room, hex) = question.split_once(' ').expect("a blank");
    let byte = |at| u8::from_str_radix(&hex[at..at + 2], 16).unwrap();
    Vector {
        room: room.parse().unwrap(),
        run: (0..hex.len()).step_by(2).map(byte).collect(),
    }
}

/// Holds an answer to its vector; gives its number.
fn holds(answer: &str, vector: &Vector) -> i64 {
    let words = answer.split(' ').map(|word| word.parse().unwrap());
    let words: Vec<i64> = words.collect();
    let [number, count, slice @ ..] = &words[..] else {
        panic!("{answer}");
    };
    assert_eq!(slice.len(), vector.room, "{vector}");
    let (result, rest) = slice.split_at(ENTRY * *count as usize);
    assert!(rest.iter().all(|&number| number == BEFORE), "{vector}");
    match list(&vector.run) {
        Err(refusal) => assert_eq!((*number, *count), (i64::from(refusal), 0), "{vector}"),
        Ok(entries) if vector.room < ENTRY * entries.len() => {
            assert_eq!((*number, *count), (12, 0), "{vector}")
        }
        Ok(entries) => assert_eq!((*number, result), (0, entries.as_flattened()), "{vector}"),
    }
    *number
}

fn stored(file: &str) -> String {
    let folder = concat!(env!("CARGO_MANIFEST_DIR"), "/../crates/suggestion_cases/");
    fs::read_to_string(folder.to_string() + file).unwrap()
}
