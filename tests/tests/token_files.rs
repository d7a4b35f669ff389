//! Holds the vectors of token files, which `token_file_vectors.py` makes, to
//! the plain Rust: both were written from the paper, apart from each other.

use std::fs;

use oracle::records::RECORD;
use oracle::token_file;

#[test]
fn the_vectors_are_what_the_plain_rust_gives() {
    let (questions, answers) = (stored("stdin"), stored("stdout"));
    assert_eq!(questions.lines().count(), answers.lines().count());
    for (question, answer) in questions.lines().zip(answers.lines()) {
        let words: Vec<&str> = question.split_whitespace().collect();
        let given = match words[..] {
            ["w", count, room, ref numbers @ ..] => write(numbers, count, room),
            ["r", room] => read("", room),
            ["r", room, hex] => read(hex, room),
            _ => panic!("{question}"),
        };
        assert_eq!(given, answer, "{question}");
    }
}

fn write(numbers: &[&str], count: &str, room: &str) -> String {
    let records: Vec<i64> = numbers.iter().map(|word| word.parse().unwrap()).collect();
    let mut buffer = vec![170; room.parse().unwrap()];
    let written = token_file::write(&records, count.parse().unwrap(), buffer.len());
    let (number, value) = laid(written, &mut buffer);
    let hex: String = buffer.iter().map(|byte| format!("{byte:02x}")).collect();
    format!("{number} {value} {hex}")
}

fn read(hex: &str, room: &str) -> String {
    let digits = |at| u8::from_str_radix(&hex[at..at + 2], 16).unwrap();
    let file: Vec<u8> = (0..hex.len()).step_by(2).map(digits).collect();
    let mut buffer = vec![77; room.parse().unwrap()];
    let (number, value) = laid(token_file::read(&file, buffer.len()), &mut buffer);
    let numbers: String = buffer.iter().map(|number| format!(" {number}")).collect();
    format!("{number} {}{numbers}", value / RECORD)
}

/// Lays what is accepted at the buffer's start. Gives the answer's number, and
/// how many elements were laid.
fn laid<T: Copy>(given: Result<Vec<T>, u8>, buffer: &mut [T]) -> (u8, usize) {
    match given {
        Ok(elements) => {
            buffer[..elements.len()].copy_from_slice(&elements);
            (0, elements.len())
        }
        Err(number) => (number, 0),
    }
}

fn stored(file: &str) -> String {
    let folder = concat!(env!("CARGO_MANIFEST_DIR"), "/../crates/token_file_cases/");
    fs::read_to_string(folder.to_string() + file).unwrap()
}
