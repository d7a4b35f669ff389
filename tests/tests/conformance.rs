//! Reads the conformance list back, as another reader's builder would, and
//! holds it to what it promises.

use std::collections::BTreeSet;
use std::fmt::Debug;
use std::iter::Peekable;
use std::str::{FromStr, Lines};

use oracle::cases::DEFAULT_LIMIT;
use oracle::conformance::{cases, list, questions, Answer, Asked, Case};
use oracle::conformance::{COUNT, LONGEST_ROOM, LONGEST_TEXT};
use oracle::records::{Lent, Mode, Reading, Refusal};
use oracle::token::Position;

#[test]
fn the_list_says_what_the_rust_gives() {
    let (cases, list) = (cases(), list());
    assert_eq!(cases.len(), COUNT);
    let (mut names, mut kinds) = (BTreeSet::new(), BTreeSet::new());
    let (mut reasons, mut refusals) = (BTreeSet::new(), BTreeSet::new());
    let (mut accepted_from, mut accepted_at, mut accepted_room) = (false, false, false);
    let (mut date, mut no_date) = (false, false);
    let mut lines = list.lines().peekable();
    for case in &cases {
        let read = head(&mut lines);
        assert_eq!(&read, case);
        let (name, room) = (&read.name, read.room.unwrap_or(Lent::NONE));
        assert!(names.insert(name.clone()), "{name} is there twice");
        assert!(read.text.len() <= LONGEST_TEXT, "{name}");
        assert!(room.tokens <= LONGEST_ROOM.tokens, "{name}");
        assert!(room.strings <= LONGEST_ROOM.strings, "{name}");
        assert!(room.reports <= LONGEST_ROOM.reports, "{name}");
        let stated = body(&mut lines);
        assert_eq!(stated, read.answer(), "{name}");
        let refused = stated.as_ref().err().map(|refusal| refusal.number);
        assert!(
            promised(name).is_none_or(|number| refused == Some(number)),
            "{name}"
        );
        match stated {
            Ok(answer) => {
                let reading = answer.reading.unwrap_or_default();
                kinds.extend(reading.records.iter().map(|record| record[0]));
                reasons.extend(reading.records.iter().map(|record| record[1]));
                reasons.extend(reading.reports.iter().map(|report| report[0]));
                accepted_from |= matches!(read.asked, Asked::OneToken(_));
                accepted_at |= matches!(read.asked, Asked::PlaceOf(_));
                accepted_room |= read.room.is_some();
                date |= answer.instant.is_some_and(|instant| instant.is_some());
                no_date |= answer.instant == Some(None);
            }
            Err(refusal) => drop(refusals.insert(refusal.number)),
        }
    }
    assert_eq!(lines.next(), None);
    assert!(kinds.into_iter().eq(0..=25));
    assert!(reasons.into_iter().eq(0..=21));
    assert!(refusals.into_iter().eq(2..=6));
    assert!(accepted_from && accepted_at && accepted_room);
    assert!(date && no_date);
}

/// Every case has a mode and a limit, though a place or an instant depends on
/// neither.
#[test]
fn a_place_or_an_instant_is_asked_for_with_the_usual_mode_and_limit() {
    let depends_on_neither = |case: &Case| matches!(case.asked, Asked::PlaceOf(_) | Asked::Instant);
    for case in cases().into_iter().filter(depends_on_neither) {
        let (name, setting) = (case.name, (case.mode, case.limit, case.room));
        assert_eq!(setting, (Mode::Strict, DEFAULT_LIMIT, None), "{name}");
    }
}

/// A program that is to answer the questions is given no answer to copy.
#[test]
fn the_questions_hold_no_answer() {
    let questions = questions();
    let mut lines = questions.lines().peekable();
    for case in cases() {
        assert_eq!(head(&mut lines), case);
    }
    assert_eq!(lines.next(), None);
    let words = [
        "token", "strings", "report", "place", "date", "no", "refused", "end",
    ];
    let answers = |line: &&str| words.iter().any(|word| line.starts_with(word));
    assert_eq!(questions.lines().find(answers), None);
}

#[test]
fn the_stored_files_are_what_is_printed() {
    assert!(stored("stdin") == questions(), "crates/cases/stdin differs");
    assert!(stored("stdout") == list(), "crates/cases/stdout differs");
}

/// What the gate runs the program `cases` on, or holds what it prints to.
fn stored(file: &str) -> String {
    let folder = concat!(env!("CARGO_MANIFEST_DIR"), "/../crates/cases/");
    std::fs::read_to_string(folder.to_string() + file).unwrap()
}

/// What the next case asks.
fn head(lines: &mut Peekable<Lines>) -> Case {
    let name = value(lines, "case ").expect("a name").to_string();
    let mode = match value(lines, "mode ") {
        Some("strict") => Mode::Strict,
        Some("tolerant") => Mode::Tolerant,
        other => panic!("{name}: mode {other:?}"),
    };
    let limit = value(lines, "limit ").expect("a limit").parse().unwrap();
    let asked = if let Some(words) = value(lines, "from ") {
        Asked::OneToken(place(words))
    } else if let Some(word) = value(lines, "at ") {
        Asked::PlaceOf(word.parse().unwrap())
    } else if lines.next_if_eq(&"instant").is_some() {
        Asked::Instant
    } else {
        Asked::Whole
    };
    let room = value(lines, "room ").map(|words| {
        let [tokens, strings, reports] = numbers(words);
        Lent {
            tokens,
            strings,
            reports,
        }
    });
    let text = unescaped(value(lines, "text ").expect("a text"));
    Case {
        name,
        text,
        mode,
        limit,
        asked,
        room,
    }
}

/// What stands after the word, if the next line starts with it.
fn value<'a>(lines: &mut Peekable<Lines<'a>>, word: &str) -> Option<&'a str> {
    let line = lines.next_if(|line| line.starts_with(word))?;
    line.strip_prefix(word)
}

/// What is expected of a case, to its end.
fn body(lines: &mut Peekable<Lines>) -> Result<Answer, Refusal> {
    let mut reading: Option<Reading> = None;
    let (mut end, mut instant, mut refused) = (None, None, None);
    for line in lines {
        let (word, rest) = line.split_once(' ').unwrap_or((line, ""));
        match word {
            "token" => reading.get_or_insert_default().records.push(numbers(rest)),
            "strings" => reading.get_or_insert_default().strings = unescaped(rest),
            "report" => reading.get_or_insert_default().reports.push(numbers(rest)),
            "place" => end = Some(place(rest)),
            "date" => instant = Some(Some(date(rest))),
            "no" if rest == "date" => instant = Some(None),
            "refused" => refused = Some(numbers(rest)),
            "end" => break,
            other => panic!("a line with {other}"),
        }
    }
    let answer = Answer {
        reading,
        place: end,
        instant,
    };
    let Some([number, offset]) = refused else {
        return Ok(answer);
    };
    assert_eq!(answer, Answer::default());
    Err(Refusal {
        number: number as u8,
        offset,
    })
}

/// The refusal that a name such as `refused-3-line-zero` speaks of.
fn promised(name: &str) -> Option<u8> {
    let (group, rest) = name.split_once('-')?;
    let (number, _) = rest.split_once('-')?;
    match group {
        "refused" | "order" => number.parse().ok(),
        _ => None,
    }
}

fn place(words: &str) -> Position {
    let [offset, line, column] = numbers(words);
    Position::with_offset(line, column, offset)
}

fn date(words: &str) -> (i64, i32) {
    let [seconds, nanos]: [i64; 2] = numbers(words);
    (seconds, nanos.try_into().unwrap())
}

fn numbers<T: FromStr<Err: Debug> + Debug, const N: usize>(words: &str) -> [T; N] {
    let numbers: Vec<T> = words.split(' ').map(|word| word.parse().unwrap()).collect();
    numbers.try_into().unwrap()
}

fn unescaped(escaped: &str) -> Vec<u8> {
    assert!(escaped.bytes().all(|byte| byte.is_ascii_graphic()));
    let mut bytes = Vec::new();
    let mut rest = escaped;
    while let Some((before, after)) = rest.split_once('\\') {
        bytes.extend(before.bytes());
        bytes.push(u8::from_str_radix(&after[..2], 16).unwrap());
        rest = &after[2..];
    }
    bytes.extend(rest.bytes());
    bytes
}
