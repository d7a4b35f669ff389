//! Bytes and numbers as they are printed.

use std::fmt::{Display, Write};

/// Bytes in a form that survives editors: printable ASCII other than a
/// backslash as itself, every other byte, blanks too, as a backslash and two
/// lower-case hex digits.
pub fn escaped(bytes: &[u8]) -> String {
    let mut escaped = String::with_capacity(bytes.len());
    for &byte in bytes {
        match byte {
            b'!'..=b'~' if byte != b'\\' => escaped.push(char::from(byte)),
            _ => write!(escaped, "\\{byte:02x}").expect("a String takes all"),
        }
    }
    escaped
}

pub fn joined(numbers: &[impl Display]) -> String {
    let words: Vec<String> = numbers.iter().map(|number| number.to_string()).collect();
    words.join(" ")
}
