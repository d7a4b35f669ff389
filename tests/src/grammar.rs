//! Texts grown from a grammar of all that lexer.rs knows, good and bad.

use crate::duration::UNITS;
use crate::random::Random;
use crate::timestamp::{damage, grown_run, TELLING};

/// A few tokens with what may stand between them.
pub fn grown_text(random: &mut Random) -> String {
    const BETWEEN: [&str; 12] = [
        "", "", " ", " ", " ", "\n", "\n", "\t", "\r\n", ", ", " = ", "; ",
    ];
    (0..=random.below(8))
        .map(|_| token(random) + random.pick(&BETWEEN))
        .collect()
}

/// A few timestamps, about half of them dates, and fewer other tokens. A
/// function of its own, so that the conformance list keeps its grown texts.
pub fn grown_timestamps(random: &mut Random) -> String {
    (0..=random.below(4))
        .map(|_| match random.one_in(3) {
            true => token(random),
            false => judged_timestamp(random),
        })
        .collect()
}

fn token(random: &mut Random) -> String {
    const GROWERS: [fn(&mut Random) -> String; 14] = [
        comment,
        name,
        directive,
        punctuation,
        character,
        string,
        string,
        string,
        triple_string,
        triple_string,
        bytes,
        number,
        timestamp,
        duration,
    ];
    random.pick(&GROWERS)(random)
}

/// Fewer than `most` parts, one after the other.
fn several(random: &mut Random, most: usize, part: fn(&mut Random) -> String) -> String {
    (0..random.below(most)).map(|_| part(random)).collect()
}

/// Mostly the usual, seldom one of the others.
pub(crate) fn mostly<T: Copy>(random: &mut Random, usual: T, others: &[T]) -> T {
    match random.one_in(6) {
        true => random.pick(others),
        false => usual,
    }
}

fn comment(random: &mut Random) -> String {
    let inside = several(random, 6, |random| {
        const PARTS: [&str; 14] = [
            "a", "é", "€", "😀", " ", "\"", "\\", "#", "//", "*", "/", "/*", "\n", "\r",
        ];
        random.pick(&PARTS).to_string()
    });
    match random.below(3) {
        0 => format!("#{inside}\n"),
        1 => format!("//{inside}\n"),
        _ => format!("/*{inside}{}", mostly(random, "*/", &["", "*", "/"])),
    }
}

#[rustfmt::skip]
fn name(random: &mut Random) -> String {
    const NAMES: [&str; 24] = [
        "a", "b", "_", "Z9", "hull", "boat.keel", "a.", "x_1.y", "true", "false", "null", "True",
        "nulls", "true.", "inf", "nan", "+inf", "-inf", "-infx", "+in", "+", "-", "ms", "p3",
    ];
    random.pick(&NAMES).to_string()
}

#[rustfmt::skip]
fn directive(random: &mut Random) -> String {
    const DIRECTIVES: [&str; 14] = [
        "@type", "@dataset", "@proto", "@typed", "@type.", "@Type", "@row", "@a.b", "@1", "@.",
        "@", "@ ", "@é", "@@",
    ];
    random.pick(&DIRECTIVES).to_string()
}

fn punctuation(random: &mut Random) -> String {
    random.pick(&b"{}[]()=:,".map(char::from)).to_string()
}

/// Characters that no token begins with, but for some.
fn character(random: &mut Random) -> String {
    match random.below(3) {
        0 => char::from(random.byte() % 128).to_string(),
        1 => random
            .pick(&["\u{b5}", "\u{3bc}", "é", "\u{feff}", "€", "\u{ffff}", "😀"])
            .to_string(),
        _ => {
            let number = random.below(0x11_0000) as u32;
            char::from_u32(number).unwrap_or('\u{fffd}').to_string()
        }
    }
}

fn string(random: &mut Random) -> String {
    let inside = several(random, 6, |random| match random.below(3) {
        0 => escape(random),
        _ => character_of_string(random),
    });
    let end = mostly(random, "\"", &["", "\n", "\\", "\\\n", "\"\"", "\\\""]);
    format!("\"{inside}{end}")
}

#[rustfmt::skip]
fn character_of_string(random: &mut Random) -> String {
    const CHARACTERS: [&str; 16] = [
        "a", "b", "7", " ", "é", "€", "😀", "\t", "\r", "\0", "\u{7f}", "#", "/*", "'", "\u{85}",
        "\u{10ffff}",
    ];
    random.pick(&CHARACTERS).to_string()
}

#[rustfmt::skip]
fn escape(random: &mut Random) -> String {
    const ESCAPES: [&str; 48] = [
        "\\\"", "\\\\", "\\'", "\\?", "\\a", "\\b", "\\f", "\\n", "\\r", "\\t", "\\v",
        "\\x41", "\\xC3\\xA9", "\\xff", "\\xed\\xa0\\x80", "\\xf0\\x9f\\x98\\x80", "\\x", "\\x4",
        "\\x4g", "\\xg4", "\\101", "\\303\\251", "\\377", "\\0", "\\08", "\\018", "\\400", "\\9",
        "\\u0041", "\\u00e9", "\\u20AC", "\\uffff", "\\u", "\\u12", "\\u12zz", "\\ud800", "\\uDFFF",
        "\\U0001F600", "\\U0010ffff", "\\U", "\\U0001F60", "\\U0001F60z", "\\U00110000",
        "\\UFFFFFFFF", "\\q", "\\é", "\\€", "\\😀",
    ];
    match random.one_in(8) {
        true => format!("\\{}", character(random)),
        false => random.pick(&ESCAPES).to_string(),
    }
}

fn triple_string(random: &mut Random) -> String {
    let first = mostly(random, "\n", &["", "a", " ", "\n\n", "\r\n"]);
    let lines = several(random, 5, |random| indent(random) + &line(random) + "\n");
    let last = match random.one_in(4) {
        true => line(random),
        false => String::new(),
    };
    let end = mostly(
        random,
        "\"\"\"",
        &["", "\"", "\"\"", "\"\"\"\"", "\"\"\"\"\"\""],
    );
    format!("\"\"\"{first}{lines}{}{last}{end}", indent(random))
}

fn indent(random: &mut Random) -> String {
    #[rustfmt::skip]
    const INDENTS: [&str; 20] = [
        "", "", " ", " ", "  ", "  ", "  ", "    ", "\t", "\t", " \t", "\r", "\u{b}", "\u{85}",
        "\u{a0}", "\u{2003}", "\u{2028}", "\u{3000}", "\u{200b}", "\u{1f}",
    ];
    random.pick(&INDENTS).to_string()
}

fn line(random: &mut Random) -> String {
    several(random, 3, |random| {
        const PARTS: [&str; 10] = ["a", "é", "😀", " ", "\"", "\"\"", "\\n", "\\", "#", "\r"];
        random.pick(&PARTS).to_string()
    })
}

fn bytes(random: &mut Random) -> String {
    let inside = several(random, 18, |random| {
        mostly(
            random,
            "A",
            &["=", "/", "+", "\\", "!", "é", "€", "😀", " "],
        )
        .to_string()
    });
    let end = mostly(random, "\"", &["", "\n", "\n\""]);
    format!("b\"{inside}{end}")
}

fn number(random: &mut Random) -> String {
    let length = random.below(6) + 1;
    let sign = mostly(random, "", &["-", "-", "+", "--"]);
    let mut number = sign.to_string() + &random.digits(length);
    if random.one_in(2) {
        let length = random.below(4);
        number += ".";
        number += &random.digits(length);
    }
    if random.one_in(3) {
        number += random.pick(&["e", "E", "e+", "e-", "e5", "E10", "e+3", "e-07", "ee"]);
    }
    if random.one_in(3) {
        number += random.pick(&["p", "p3", "p053", "P3", "p3p4", "p-1", "p3.5"]);
    }
    number
}

fn timestamp(random: &mut Random) -> String {
    let rest = several(random, 6, |random| {
        #[rustfmt::skip]
        const PARTS: [&str; 16] = [
            "01-02T03:04:05Z", "01-02", "T", ":30", ".5", "+01:00", "Z", "-", "/", "a", "é", "\"",
            "(", "[", "=", "{",
        ];
        random.pick(&PARTS).to_string()
    });
    let length = mostly(random, 4, &[3, 5]);
    let year = random.digits(length);
    let sign = mostly(random, "", &["-", "+"]);
    format!("{sign}{year}-{rest}{}", random.pick(&TIMESTAMP_ENDS))
}

#[rustfmt::skip]
const TIMESTAMP_ENDS: [&str; 12] = [
    "", " ", "\t", "\r", "\n", ",", "]", "}", ")", "#", "//", "/*",
];

/// One that the Rust takes, or nearly so.
fn judged_timestamp(random: &mut Random) -> String {
    let mut run = grown_run(random);
    if random.one_in(4) {
        let byte = random.pick(TELLING);
        damage(&mut run, byte, random);
    }
    let run = String::from_utf8(run).expect("all of it is ASCII");
    run + random.pick(&TIMESTAMP_ENDS)
}

fn duration(random: &mut Random) -> String {
    // The Rust's panic on a sum of 2^64 is slow to catch.
    if random.one_in(200) {
        return "9223372036854775808ns".repeat(2);
    }
    let sign = mostly(random, "", &["-", "-", "+"]);
    let parts: String = (0..=random.below(3)).map(|_| part(random)).collect();
    sign.to_string() + &parts + mostly(random, "", &[".", ".5", "5", "X", "_", "é"])
}

/// A whole number, perhaps a fraction, and a unit.
fn part(random: &mut Random) -> String {
    const BORDERS: [&str; 12] = [
        "9223372036854775807",
        "9223372036854775808",
        "9223372036854775809",
        "9223372036854775",
        "9223372036854776",
        "9223372036854",
        "9223372036855",
        "9223372036",
        "9223372037",
        "153722867",
        "2562047",
        "2562048",
    ];
    let mut part = match random.one_in(4) {
        true => random.pick(&BORDERS).to_string(),
        false => {
            let length = random.below(4) + 1;
            random.digits(length)
        }
    };
    if random.one_in(2) {
        let most = random.pick(&[3, 10, 26]);
        let length = random.below(most) + 1;
        part += ".";
        part += &random.digits(length);
    }
    let unit = random.pick(&UNITS).0;
    part + mostly(
        random,
        unit,
        &["", "n", "u", "min", "sx", "\u{b5}", "\u{b5}\u{b5}s", "d"],
    )
}
