//! Holds the numbers that the C header names to the Rust's and document 01's.

use std::collections::BTreeMap;
use std::fs;

use oracle::limits::{MAX_BYTES_LITERAL_LENGTH, MAX_MESSAGE_SIZE};
use oracle::records::{RECORD, REPORT};
use oracle::suggestion::{ENTRY, LONGEST, NUMBERS_A_BYTE};
use oracle::token::TokenKind;

/// A record's numbers, in document 01's order.
#[rustfmt::skip]
const RECORD_NAMES: [&str; RECORD] = [
    "KIND", "REASON", "DETAIL", "START", "END", "LINE", "COLUMN", "VALUE", "VALUE_LENGTH",
    "PRECISION", "PRECISION_LENGTH", "NANOSECONDS",
];

/// A report's numbers, likewise.
const REPORT_NAMES: [&str; REPORT] = ["REASON", "DETAIL", "OFFSET", "LINE", "COLUMN"];

/// A suggestion's numbers, in change request #102's order.
const SUGGESTION_NAMES: [&str; ENTRY] = ["NANOSECONDS", "OFFSET", "BYTE"];

#[test]
fn the_kinds_are_the_rusts() {
    use TokenKind::*;
    let kinds = [
        Eof,
        Illegal,
        Newline,
        Comment,
        Ident,
        String,
        Int,
        Float,
        Bool,
        Null,
        Bytes,
        Timestamp,
        Duration,
        LBrace,
        RBrace,
        LBracket,
        RBracket,
        LParen,
        RParen,
        Equals,
        Colon,
        Comma,
        AtType,
        AtDirective,
        AtDataset,
        AtProto,
    ];
    let named = kinds.map(|kind| (macro_name(kind), kind as usize));
    assert_eq!(group("KIND_"), BTreeMap::from(named));
}

#[test]
fn each_reason_and_each_refusal_has_one_name() {
    for (prefix, last) in [("REASON_", 21), ("REFUSED_", 12)] {
        let mut numbers: Vec<usize> = group(prefix).into_values().collect();
        numbers.sort();
        assert!(numbers.iter().copied().eq(1..=last), "{prefix} {numbers:?}");
    }
}

#[test]
fn the_numbers_of_a_record_a_report_and_a_suggestion_stand_in_order() {
    for (prefix, names) in [
        ("TOKEN_", &RECORD_NAMES[..]),
        ("REPORT_", &REPORT_NAMES),
        ("SUGGESTION_", &SUGGESTION_NAMES),
    ] {
        let mut expected: BTreeMap<String, usize> =
            names.iter().map(|name| name.to_string()).zip(0..).collect();
        expected.insert("WIDTH".to_string(), names.len());
        assert_eq!(group(prefix), expected);
    }
}

#[test]
fn the_kinds_of_a_byte_are_1_2_4_and_8() {
    let kinds = [("DIGIT", 1), ("LETTER", 2), ("NAME", 4), ("UNIT", 8)];
    let named = kinds.map(|(name, number)| (name.to_string(), number));
    assert_eq!(group("BYTE_"), BTreeMap::from(named));
}

#[test]
fn the_limits_are_the_rusts_and_those_of_suggestions() {
    let limits = [
        ("MESSAGE_SIZE".to_string(), MAX_MESSAGE_SIZE),
        ("BYTES_LITERAL_LENGTH".to_string(), MAX_BYTES_LITERAL_LENGTH),
        ("MISTYPED_RUN".to_string(), LONGEST),
        ("SUGGESTION_NUMBERS".to_string(), NUMBERS_A_BYTE * LONGEST),
    ];
    assert_eq!(group("MAX_"), BTreeMap::from(limits));
}

#[test]
fn the_modes_are_0_and_1() {
    let defined = defined();
    assert_eq!(defined.get("STRICT"), Some(&0));
    assert_eq!(defined.get("TOLERANT"), Some(&1));
}

/// `AtType` as `AT_TYPE`, `LBrace` as `LBRACE`.
fn macro_name(kind: TokenKind) -> String {
    let mut name = String::new();
    let mut after_small = false;
    for c in format!("{kind:?}").chars() {
        if after_small && c.is_ascii_uppercase() {
            name.push('_');
        }
        after_small = c.is_ascii_lowercase();
        name.push(c.to_ascii_uppercase());
    }
    name
}

/// What is defined with this prefix, without it.
fn group(prefix: &str) -> BTreeMap<String, usize> {
    let rest = |name: &str| name.strip_prefix(prefix).map(str::to_string);
    let all = defined().into_iter();
    all.filter_map(|(name, number)| Some((rest(&name)?, number)))
        .collect()
}

/// Each `#define PXF_NAME NUMBER` of the header, without `PXF_`.
fn defined() -> BTreeMap<String, usize> {
    let file = concat!(env!("CARGO_MANIFEST_DIR"), "/../include/pxf.h");
    let mut defined = BTreeMap::new();
    for line in fs::read_to_string(file).unwrap().lines() {
        let Some(words) = line.strip_prefix("#define PXF_") else {
            continue;
        };
        let mut words = words.split_whitespace();
        // The guard is a name without a number.
        if let (Some(name), Some(number)) = (words.next(), words.next()) {
            let number = number.parse().expect(name);
            let before = defined.insert(name.to_string(), number);
            assert_eq!(before, None, "{name} is there twice");
        }
    }
    defined
}
