//! Document 01's miniature cases, each with all its numbers.

use crate::limits::MAX_BYTES_LITERAL_LENGTH;
use crate::records::{Mode, Record, Report};

pub struct Case {
    pub text: &'static str,
    pub mode: Mode,
    pub limit: u64,
    pub records: &'static [Record],
    pub strings: &'static str,
    pub reports: &'static [Report],
}

/// The bytes limit where a case names none.
pub const DEFAULT_LIMIT: u64 = MAX_BYTES_LITERAL_LENGTH as u64;

/// A case that gives no strings and no reports.
const fn strict(text: &'static str, records: &'static [Record]) -> Case {
    Case {
        text,
        mode: Mode::Strict,
        limit: DEFAULT_LIMIT,
        records,
        strings: "",
        reports: &[],
    }
}

const fn limited(text: &'static str, limit: u64, records: &'static [Record]) -> Case {
    Case {
        limit,
        ..strict(text, records)
    }
}

const fn tolerant(
    text: &'static str,
    records: &'static [Record],
    strings: &'static str,
    reports: &'static [Report],
) -> Case {
    Case {
        mode: Mode::Tolerant,
        strings,
        reports,
        ..strict(text, records)
    }
}

/// The cases of 'Boats in miniature'.
#[rustfmt::skip]
pub const MINIATURE: &[Case] = &[
    strict("", &[
        [0, 0, 0, 0, 0, 1, 1, 0, 0, 0, 0, 0],
    ]),
    strict("1.ms", &[
        [7, 0, 0, 0, 2, 1, 1, 0, 2, 0, 0, 0],
        [4, 0, 0, 2, 4, 1, 3, 2, 2, 0, 0, 0],
        [0, 0, 0, 4, 4, 1, 5, 4, 0, 0, 0, 0],
    ]),
    strict("1.5ms", &[
        [12, 0, 0, 0, 5, 1, 1, 0, 5, 0, 0, 1_500_000],
        [0, 0, 0, 5, 5, 1, 6, 5, 0, 0, 0, 0],
    ]),
    strict("/* a", &[
        [1, 2, 0, 0, 3, 1, 1, 3, 0, 0, 0, 0],
        [4, 0, 0, 3, 4, 1, 4, 3, 1, 0, 0, 0],
        [0, 0, 0, 4, 4, 1, 5, 4, 0, 0, 0, 0],
    ]),
    tolerant("/* a", &[
        [3, 0, 0, 0, 4, 1, 1, 0, 4, 0, 0, 0],
        [0, 0, 0, 4, 4, 1, 5, 4, 0, 0, 0, 0],
    ], "", &[
        [2, 0, 0, 1, 1],
    ]),
    strict("\"\\é\"", &[
        [1, 9, 195, 0, 4, 1, 1, 4, 0, 0, 0, 0],
        [1, 10, 0, 4, 5, 1, 5, 5, 0, 0, 0, 0],
        [0, 0, 0, 5, 5, 1, 6, 5, 0, 0, 0, 0],
    ]),
    tolerant("\"\\u12zz\"", &[
        [5, 0, 0, 0, 8, 1, 1, 0, 4, 0, 0, 0],
        [0, 0, 0, 8, 8, 1, 9, 8, 0, 0, 0, 0],
    ], "\\uzz", &[
        [7, 0, 2, 1, 3],
    ]),
    strict("-9223372036854775808ns", &[
        [12, 0, 0, 0, 22, 1, 1, 0, 22, 0, 0, i64::MIN],
        [0, 0, 0, 22, 22, 1, 23, 22, 0, 0, 0, 0],
    ]),
    strict("9223372036854775808ns", &[
        [1, 18, 0, 0, 21, 1, 1, 21, 0, 0, 0, 0],
        [0, 0, 0, 21, 21, 1, 22, 21, 0, 0, 0, 0],
    ]),
    strict("9223372036854775808ns9223372036854775808ns", &[
        [1, 18, 0, 0, 42, 1, 1, 42, 0, 0, 0, 0],
        [0, 0, 0, 42, 42, 1, 43, 42, 0, 0, 0, 0],
    ]),
    limited("b\"AAAA\"", 3, &[
        [10, 0, 0, 0, 7, 1, 1, 2, 4, 0, 0, 0],
        [0, 0, 0, 7, 7, 1, 8, 7, 0, 0, 0, 0],
    ]),
    limited("b\"AAAA\"", 2, &[
        [1, 13, 0, 0, 6, 1, 1, 6, 0, 0, 0, 0],
        [1, 10, 0, 6, 7, 1, 7, 7, 0, 0, 0, 0],
        [0, 0, 0, 7, 7, 1, 8, 7, 0, 0, 0, 0],
    ]),
    // Document 01 has a Timestamp; change request #101 has it judged.
    strict("2024-", &[
        [1, 21, 0, 0, 5, 1, 1, 5, 0, 0, 0, 0],
        [0, 0, 0, 5, 5, 1, 6, 5, 0, 0, 0, 0],
    ]),
    strict("-2024-", &[
        [6, 0, 0, 0, 5, 1, 1, 0, 5, 0, 0, 0],
        [1, 17, 0, 5, 6, 1, 6, 6, 0, 0, 0, 0],
        [0, 0, 0, 6, 6, 1, 7, 6, 0, 0, 0, 0],
    ]),
    strict("12p3", &[
        [6, 0, 0, 0, 4, 1, 1, 0, 2, 3, 1, 0],
        [0, 0, 0, 4, 4, 1, 5, 4, 0, 0, 0, 0],
    ]),
    strict("12p", &[
        [6, 0, 0, 0, 2, 1, 1, 0, 2, 0, 0, 0],
        [4, 0, 0, 2, 3, 1, 3, 2, 1, 0, 0, 0],
        [0, 0, 0, 3, 3, 1, 4, 3, 0, 0, 0, 0],
    ]),
    strict("5\u{3bc}s", &[
        [6, 0, 0, 0, 1, 1, 1, 0, 1, 0, 0, 0],
        [1, 1, 956, 1, 3, 1, 2, 3, 0, 0, 0, 0],
        [4, 0, 0, 3, 4, 1, 4, 3, 1, 0, 0, 0],
        [0, 0, 0, 4, 4, 1, 5, 4, 0, 0, 0, 0],
    ]),
];

/// Readings of document 01's sentences on records that no miniature case shows.
#[rustfmt::skip]
pub const FURTHER: &[Case] = &[
    // "an empty value other than a String's has its place at the token's end;
    // a String's is its place in the buffer"
    tolerant("\"\\t\" \"\"\nb\"\"", &[
        [5, 0, 0, 0, 4, 1, 1, 0, 1, 0, 0, 0],
        [5, 0, 0, 5, 7, 1, 6, 1, 0, 0, 0, 0],
        [2, 0, 0, 7, 8, 1, 8, 8, 0, 0, 0, 0],
        [10, 0, 0, 8, 11, 2, 1, 11, 0, 0, 0, 0],
        [0, 0, 0, 11, 11, 2, 4, 11, 0, 0, 0, 0],
    ], "\t", &[]),
    // "An AtDirective's value omits `@`"
    strict("@type@row", &[
        [22, 0, 0, 0, 5, 1, 1, 0, 5, 0, 0, 0],
        [23, 0, 0, 5, 9, 1, 6, 6, 3, 0, 0, 0],
        [0, 0, 0, 9, 9, 1, 10, 9, 0, 0, 0, 0],
    ]),
    // A String that is Illegal with reason 11 keeps its reports and lays
    // nothing in the buffer.
    tolerant("\"\\q\\xff\"\"a", &[
        [1, 11, 0, 0, 8, 1, 1, 8, 0, 0, 0, 0],
        [5, 0, 0, 8, 10, 1, 9, 0, 1, 0, 0, 0],
        [0, 0, 0, 10, 10, 1, 11, 10, 0, 0, 0, 0],
    ], "a", &[
        [9, 113, 2, 1, 3],
        [10, 0, 8, 1, 9],
    ]),
    // "Tolerant strings leave an unescaped newline for the next token"; so do
    // bytes. No byte follows the last four, so the limit is not asked.
    Case { limit: 2, ..tolerant("b\"A\n\"é\nb\"AAAA", &[
        [10, 0, 0, 0, 3, 1, 1, 2, 1, 0, 0, 0],
        [2, 0, 0, 3, 4, 1, 4, 4, 0, 0, 0, 0],
        [5, 0, 0, 4, 7, 2, 1, 0, 2, 0, 0, 0],
        [2, 0, 0, 7, 8, 2, 4, 8, 0, 0, 0, 0],
        [10, 0, 0, 8, 14, 3, 1, 10, 4, 0, 0, 0],
        [0, 0, 0, 14, 14, 3, 7, 14, 0, 0, 0, 0],
    ], "é", &[
        [20, 0, 0, 1, 1],
        [19, 0, 4, 2, 1],
        [14, 0, 8, 3, 1],
    ]) },
    // A tolerant bytes literal over the limit gives no report.
    Case { limit: 2, ..tolerant("b\"AAAA\"", &[
        [1, 13, 0, 0, 6, 1, 1, 6, 0, 0, 0, 0],
        [5, 0, 0, 6, 7, 1, 7, 0, 0, 0, 0, 0],
        [0, 0, 0, 7, 7, 1, 8, 7, 0, 0, 0, 0],
    ], "", &[
        [10, 0, 6, 1, 7],
    ]) },
    // "Contents of ... Bytes aren't judged"
    strict("b\"!\"", &[
        [10, 0, 0, 0, 4, 1, 1, 2, 1, 0, 0, 0],
        [0, 0, 0, 4, 4, 1, 5, 4, 0, 0, 0, 0],
    ]),
    // "If the Rust stops inside a character (reasons 2, 9, 12, 13) ... ours
    // ends after that character"
    strict("/*é", &[
        [1, 2, 0, 0, 4, 1, 1, 4, 0, 0, 0, 0],
        [0, 0, 0, 4, 4, 1, 5, 4, 0, 0, 0, 0],
    ]),
    strict("\"\"\"😀", &[
        [1, 12, 0, 0, 7, 1, 1, 7, 0, 0, 0, 0],
        [0, 0, 0, 7, 7, 1, 8, 7, 0, 0, 0, 0],
    ]),
    limited("b\"AAAé\"", 2, &[
        [1, 13, 0, 0, 7, 1, 1, 7, 0, 0, 0, 0],
        [1, 10, 0, 7, 8, 1, 8, 8, 0, 0, 0, 0],
        [0, 0, 0, 8, 8, 1, 9, 8, 0, 0, 0, 0],
    ]),
];

/// The text of the program `listing`, and what it prints: start, end, line,
/// column, kind, reason, nanoseconds.
pub const LISTING_TEXT: &str = "a = 1.5s\n";
pub const LISTING: &str = "\
0 1 1 1 4 0 0
2 3 1 3 19 0 0
4 8 1 5 12 0 1500000000
8 9 1 9 2 0 0
9 9 2 1 0 0 0
";
