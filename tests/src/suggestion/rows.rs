//! The runs that change request #102 was worked out on, with what the call has
//! to give, written by hand.

use super::Entry;

const SECOND: i64 = 1_000_000_000;
const MINUTE: i64 = 60 * SECOND;
const HOUR: i64 = 60 * MINUTE;

/// Nanoseconds, offset, byte.
pub type Row = (i64, i64, u8);

/// Runs with all of their entries.
#[rustfmt::skip]
pub const LISTED: &[(&str, &[Row])] = &[
    ("4j", &[(4 * SECOND, 1, b's'), (4 * MINUTE, 1, b'm'), (4 * HOUR, 1, b'h')]),
    // least first under the sign
    ("-4j", &[(-4 * HOUR, 2, b'h'), (-4 * MINUTE, 2, b'm'), (-4 * SECOND, 2, b's')]),
    // a good duration has repairs too
    ("4h", &[
        (0, 0, b'0'), (4 * SECOND, 1, b's'), (4 * MINUTE, 1, b'm'),
        (HOUR, 0, b'1'), (2 * HOUR, 0, b'2'), (3 * HOUR, 0, b'3'), (5 * HOUR, 0, b'5'),
        (6 * HOUR, 0, b'6'), (7 * HOUR, 0, b'7'), (8 * HOUR, 0, b'8'), (9 * HOUR, 0, b'9'),
    ]),
    // the blank and the 0 give the same time: the lower byte is first
    ("x4h", &[
        (-4 * HOUR, 0, b'-'), (4 * HOUR, 0, b' '), (4 * HOUR, 0, b'0'), (14 * HOUR, 0, b'1'),
        (24 * HOUR, 0, b'2'), (34 * HOUR, 0, b'3'), (44 * HOUR, 0, b'4'), (54 * HOUR, 0, b'5'),
        (64 * HOUR, 0, b'6'), (74 * HOUR, 0, b'7'), (84 * HOUR, 0, b'8'), (94 * HOUR, 0, b'9'),
    ]),
    // six times 0: the offset is compared before the byte
    ("00 ", &[
        (0, 1, b'h'), (0, 1, b'm'), (0, 1, b's'), (0, 2, b'h'), (0, 2, b'm'), (0, 2, b's'),
    ]),
    // a newline and a comment are tokens, a blank is none
    ("4hx", &[(4 * HOUR, 2, b' ')]),
    ("4h#", &[(4 * HOUR, 2, b' ')]),
    ("4h\n", &[(4 * HOUR, 2, b' ')]),
    ("4h5", &[(4 * HOUR, 2, b' ')]),
    ("\t4j", &[(4 * SECOND, 2, b's'), (4 * MINUTE, 2, b'm'), (4 * HOUR, 2, b'h')]),
    (" 4j\r", &[(4 * SECOND, 2, b's'), (4 * MINUTE, 2, b'm'), (4 * HOUR, 2, b'h')]),
    ("4 h", &[
        (40 * HOUR, 1, b'0'), (41 * HOUR, 1, b'1'), (42 * HOUR, 1, b'2'), (43 * HOUR, 1, b'3'),
        (44 * HOUR, 1, b'4'), (45 * HOUR, 1, b'5'), (46 * HOUR, 1, b'6'), (47 * HOUR, 1, b'7'),
        (48 * HOUR, 1, b'8'), (49 * HOUR, 1, b'9'),
    ]),
    ("4xs", &[
        (4, 1, b'n'), (4_000, 1, b'u'), (4_000_000, 1, b'm'),
        (40 * SECOND, 1, b'0'), (41 * SECOND, 1, b'1'), (42 * SECOND, 1, b'2'),
        (43 * SECOND, 1, b'3'), (44 * SECOND, 1, b'4'), (45 * SECOND, 1, b'5'),
        (46 * SECOND, 1, b'6'), (47 * SECOND, 1, b'7'), (48 * SECOND, 1, b'8'),
        (49 * SECOND, 1, b'9'),
    ]),
    // no byte of a character can be changed alone
    ("4\u{b5}s", &[
        (0, 0, b'0'), (1_000, 0, b'1'), (2_000, 0, b'2'), (3_000, 0, b'3'), (5_000, 0, b'5'),
        (6_000, 0, b'6'), (7_000, 0, b'7'), (8_000, 0, b'8'), (9_000, 0, b'9'),
    ]),
    ("4\u{3bc}s", &[]),
    ("4\u{a1}s", &[]),
    ("5min", &[]),
    ("1.5", &[]),
    ("4", &[]),
    ("h", &[]),
    ("4h//", &[]),
    // a fraction of many digits is rounded for each unit by itself
    ("0.9999999999999999999x", &[
        (SECOND, 21, b's'), (MINUTE - 1, 21, b'm'), (HOUR, 21, b'h'),
    ]),
    // the least number there is
    ("-922337203685477580xns", &[
        (-9_223_372_036_854_775_808, 19, b'8'), (-9_223_372_036_854_775_807, 19, b'7'),
        (-9_223_372_036_854_775_806, 19, b'6'), (-9_223_372_036_854_775_805, 19, b'5'),
        (-9_223_372_036_854_775_804, 19, b'4'), (-9_223_372_036_854_775_803, 19, b'3'),
        (-9_223_372_036_854_775_802, 19, b'2'), (-9_223_372_036_854_775_801, 19, b'1'),
        (-9_223_372_036_854_775_800, 19, b'0'),
    ]),
];

/// Runs with the count, the first and the last of their entries. Of `1h` 32
/// times, each 1 can be another digit, each h an m or an s, and each h but the
/// last a digit or a point: 288 + 64 + 341.
pub const COUNTED: [(&str, usize, Row, Row); 2] = [
    (
        "9223372036854775808ns",
        132,
        (-223_372_036_854_775_808, 0, b'-'),
        (9_223_372_036_854_775_807, 18, b'7'),
    ),
    (LONG, 693, (31 * HOUR, 0, b'0'), (221 * HOUR, 61, b'9')),
];

/// `1h` 32 times: as long as a run may be, and the longest list that is known.
pub const LONG: &str = "1h1h1h1h1h1h1h1h1h1h1h1h1h1h1h1h1h1h1h1h1h1h1h1h1h1h1h1h1h1h1h1h";

/// Runs that are refused with number 11: no byte, 65 bytes, and no UTF-8, even
/// where the one wrong byte could be replaced.
pub const REFUSED: &[(&str, &[u8])] = &[
    ("empty", b""),
    (
        "65 bytes",
        b"1h1h1h1h1h1h1h1h1h1h1h1h1h1h1h1h1h1h1h1h1h1h1h1h1h1h1h1h1h1h1h1h ",
    ),
    ("65 bytes, no UTF-8", &[0xFF; 65]),
    ("a byte that is in no character", b"4\xFF"),
    ("a cut character at the end", b"4s\xC2"),
    ("a cut character", b"4\xC2s"),
    ("an overlong form", b"4\xC0\xB5s"),
    ("an overlong form of three bytes", b"4\xE0\x82\xB5s"),
    ("a lone tail", b"4\xB5s"),
    ("a surrogate", b"4h\xED\xA0\x80"),
];

pub fn entry((nanoseconds, offset, byte): Row) -> Entry {
    [nanoseconds, offset, i64::from(byte)]
}
