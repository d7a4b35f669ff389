//! What texts are made of: characters and pieces that decide something in the
//! lexer, and damage.

use crate::random::Random;

/// Characters of which one or another decides in every rule.
#[rustfmt::skip]
pub const TELLING: [char; 41] = [
    // strings, newlines, blanks, comments, directives, punctuation
    '"', '\\', '\n', ' ', '\t', '\r', '/', '*', '#', '@', '{',
    // bytes, numbers, signs, units, escapes
    'b', '.', '-', '+', 'e', 'p', 'x', 'u', 'U', 's', 'm', 'n', 'h', 'i', 'f', 'a', '0', '1', '8',
    // characters of several bytes, white space among them, and controls
    'é', '\u{b5}', '\u{3bc}', '€', '😀', '\u{85}', '\u{a0}', '\u{2003}', '\u{3000}', '\0', '\u{7f}',
];

/// Bytes at and beside every border of RFC 3629's table.
pub const UTF8_BORDERS: [u8; 22] = [
    0x00, 0x41, 0x7F, 0x80, 0x81, 0x8F, 0x90, 0x9F, 0xA0, 0xBF, 0xC0, 0xC1, 0xC2, 0xDF, 0xE0, 0xED,
    0xEF, 0xF0, 0xF4, 0xF5, 0xF8, 0xFF,
];

#[rustfmt::skip]
const PIECES: &[&str] = &[
    // blanks, newlines, controls
    " ", " ", "\t", "\r", "\n", "\n", "\0", "\u{7f}",
    // comments
    "#", "/", "//", "/*", "*/", "*",
    // strings and escapes
    "\"", "\"", "\"", "\"\"", "\"\"\"", "\"\"\"", "\\", "\\", "\\n", "\\x4", "\\xff",
    "\\xC3\\xA9", "\\101", "\\377", "\\08", "\\8", "\\u", "\\u00e9", "\\u12zz", "\\ud800", "\\U",
    "\\U0001F600", "\\U00110000", "\\?", "\\\n", "'",
    // bytes
    "b", "b\"", "b\"AAAA\"", "AAAA", "=", "==",
    // numbers, timestamps, durations
    "0", "1", "7", "12", "2024", "2024-", "2024-01-02T03:04:05Z", "2024-02-29T23:59:59.9+24:60",
    "2023-02-29T00:00:00Z", "-", "+", ".", "e", "E", "p", "p3", "inf", "-inf", "+inf", "ns", "us",
    "\u{b5}s", "\u{3bc}s", "ms", "s", "m", "h", "1.5s",
    "9223372036854775807", "9223372036854775808ns", "9223372036854775808ns9223372036854775808ns",
    // names, directives, punctuation
    "a", "f", "x", "Z", "_", "true", "false", "null", "@", "@type", "@dataset", "@proto", "@name",
    "{", "}", "[", "]", "(", ")", ":", ",", ";",
    // characters of two, three and four bytes, white space among them
    "é", "\u{85}", "\u{a0}", "\u{2003}", "\u{2028}", "€", "\u{ffff}", "😀", "\u{10ffff}",
];

/// A text of fewer than `most` pieces.
pub fn random_text(random: &mut Random, most: usize) -> String {
    (0..random.below(most))
        .map(|_| random.pick(PIECES))
        .collect()
}

/// Changes, inserts, drops or doubles bytes, or cuts the text off.
pub fn damage(text: &mut Vec<u8>, random: &mut Random) {
    let at = random.below(text.len() + 1);
    let byte = if random.one_in(2) {
        random.byte()
    } else {
        random.pick(&UTF8_BORDERS)
    };
    match random.below(6) {
        0 => text.insert(at, byte),
        1 => text.truncate(at),
        2 => {
            let run = text[at..].iter().take(random.below(9)).copied();
            let run: Vec<u8> = run.collect();
            text.splice(at..at, run);
        }
        _ if at == text.len() => {}
        3 => text[at] = byte,
        4 => text[at] ^= 1 << random.below(8),
        _ => drop(text.remove(at)),
    }
}
