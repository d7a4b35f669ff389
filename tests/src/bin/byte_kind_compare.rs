//! Holds the proved table of byte kinds to the Rust: every entry to the tests of
//! one byte that the standard library and lexer.rs have, then to what the lexer
//! makes of every character after a name and after a number.

use std::process::ExitCode;

use oracle::classes::{is_digit, is_duration_unit, is_ident_part, is_ident_start};
use oracle::ffi::byte_kind;
use oracle::lexer::Lexer;
use oracle::tally::Tally;
use oracle::token::{Token, TokenKind};

const DIGIT: u8 = 1;
const LETTER: u8 = 2;
const NAME: u8 = 4;
const UNIT: u8 = 8;

/// What the only unit that is not ASCII begins with.
const MICRO_SIGN: char = '\u{b5}';

fn main() -> ExitCode {
    let mut tally = Tally::default();
    every_entry(&mut tally);
    println!("passed on entries: {}", tally.passed());
    every_character(&mut tally);
    tally.finish()
}

/// Digits and letters by the standard library's tests, then by lexer.rs's,
/// whose test of a name's first byte counts `_` too.
fn every_entry(tally: &mut Tally) {
    for byte in 0..=255 {
        let name = is_ident_part(byte);
        let unit = is_duration_unit(byte) || byte == first_byte(MICRO_SIGN);
        for (digit, letter) in [
            (byte.is_ascii_digit(), byte.is_ascii_alphabetic()),
            (is_digit(byte), is_ident_start(byte) && byte != b'_'),
        ] {
            let expected = DIGIT * u8::from(digit)
                + LETTER * u8::from(letter)
                + NAME * u8::from(name)
                + UNIT * u8::from(unit);
            let entry = byte_kind(byte);
            tally.check(entry == expected, || {
                format!("byte {byte:#04x}: {entry}, expected {expected}")
            });
        }
    }
    // `at_micro_sign` is a private method, so the lexer itself is asked.
    let text = format!("1{MICRO_SIGN}s");
    let token = first_token(&text);
    tally.check(
        token.kind == TokenKind::Duration && token.value == text,
        || format!("{text}: {token:?}"),
    );
}

/// A name goes on over a character, and a unit begins with it, where its first
/// byte says so; of the characters that share theirs with the micro sign, it
/// alone begins a unit.
fn every_character(tally: &mut Tally) {
    let before = tally.passed();
    for character in '\0'..=char::MAX {
        let first = first_byte(character);
        let entry = byte_kind(first);

        let text = format!("a{character}");
        let name = if entry & NAME == 0 { "a" } else { &text };
        let token = first_token(&text);
        tally.check(
            token.kind == TokenKind::Ident && token.value == name,
            || format!("{text:?}: {token:?}, expected the name {name:?}"),
        );

        // Nothing stands after the character: `15s` is a duration by its `s`.
        let text = format!("1{character}");
        let has_unit =
            entry & UNIT != 0 && (first != first_byte(MICRO_SIGN) || character == MICRO_SIGN);
        let token = first_token(&text);
        tally.check(is_duration(&token) == has_unit, || {
            format!("{text:?}: {token:?}, a unit expected: {has_unit}")
        });
    }
    println!("passed on characters: {}", tally.passed() - before);
}

fn first_byte(character: char) -> u8 {
    character.encode_utf8(&mut [0; 4]).as_bytes()[0]
}

fn first_token(text: &str) -> Token {
    Lexer::new(text).next_token()
}

/// Whether the lexer found a unit after the number: it then has a duration,
/// good or bad, and else none.
fn is_duration(token: &Token) -> bool {
    match token.kind {
        TokenKind::Duration => true,
        TokenKind::Illegal => token.value.starts_with("invalid duration: "),
        _ => false,
    }
}
