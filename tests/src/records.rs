//! The Rust's answers as document 01's records, strings, reports, refusals.

use crate::exceptions;
use crate::lexer::{go_quote_rune, Lexer};
use crate::limits::MAX_MESSAGE_SIZE;
use crate::token::{Position, Token, TokenKind};

/// How many numbers a record has.
pub const RECORD: usize = 12;
/// Kind, reason, detail, start, end, line, column, value place, value length,
/// precision place, precision length, nanoseconds.
pub type Record = [i64; RECORD];
/// How many numbers a report has.
pub const REPORT: usize = 5;
/// Reason, detail, offset, line, column.
pub type Report = [i64; REPORT];

#[derive(Debug, Clone, Copy, PartialEq, Eq)]
pub enum Mode {
    Strict,
    Tolerant,
}

/// What an accepted call writes.
#[derive(Debug, Clone, Default, PartialEq, Eq)]
pub struct Reading {
    pub records: Vec<Record>,
    pub strings: Vec<u8>,
    pub reports: Vec<Report>,
}

/// The lengths of the lent buffers: numbers, bytes, numbers.
#[derive(Debug, Clone, Copy, PartialEq, Eq)]
pub struct Lent {
    pub tokens: usize,
    pub strings: usize,
    pub reports: usize,
}

impl Lent {
    /// Buffers that no result outgrows.
    pub const AMPLE: Lent = Lent {
        tokens: usize::MAX,
        strings: usize::MAX,
        reports: usize::MAX,
    };
    /// Buffers that suffice for any text of the length.
    pub fn for_any(len: usize, mode: Mode) -> Lent {
        let most_reports = match mode {
            Mode::Strict => 0,
            Mode::Tolerant => len,
        };
        Lent {
            tokens: RECORD * (len + 1),
            strings: len,
            reports: REPORT * most_reports,
        }
    }

    /// No buffers at all.
    pub const NONE: Lent = Lent {
        tokens: 0,
        strings: 0,
        reports: 0,
    };
}

/// A refusal's number, and the offset that number 2 gives (else 0).
#[derive(Debug, Clone, Copy, PartialEq, Eq)]
pub struct Refusal {
    pub number: u8,
    pub offset: usize,
}

impl Refusal {
    const fn of(number: u8) -> Refusal {
        Refusal { number, offset: 0 }
    }
}

/// The whole reading of a text.
pub fn read_text(text: &[u8], mode: Mode, limit: u64, lent: Lent) -> Result<Reading, Refusal> {
    let mut lexer = lexer(checked(text)?, mode, limit);
    let mut reading = Reading::default();
    while reading.add_token(&mut lexer) != TokenKind::Eof {}
    reading.fits(lent)?;
    Ok(reading)
}

/// One token from a place, and the place at its end.
pub fn read_token(
    text: &[u8],
    place: Position,
    mode: Mode,
    limit: u64,
    lent: Lent,
) -> Result<(Reading, Position), Refusal> {
    let text = checked(text)?;
    let mut lexer = lexer(text, mode, limit);
    if reposition(&mut lexer, text, place.offset)? != place {
        return Err(Refusal::of(3));
    }
    let mut reading = Reading::default();
    reading.add_token(&mut lexer);
    reading.fits(lent)?;
    Ok((reading, lexer.current_pos()))
}

/// The place of an offset.
pub fn place_of(text: &[u8], offset: usize) -> Result<Position, Refusal> {
    let text = checked(text)?;
    reposition(&mut Lexer::new(text), text, offset)
}

/// Refusals 1 and 2.
fn checked(text: &[u8]) -> Result<&str, Refusal> {
    if text.len() > MAX_MESSAGE_SIZE {
        return Err(Refusal::of(1));
    }
    std::str::from_utf8(text).map_err(|e| Refusal {
        number: 2,
        offset: e.valid_up_to(),
    })
}

/// Moves the lexer to an offset, or gives refusal 3.
fn reposition(lexer: &mut Lexer<'_>, text: &str, offset: usize) -> Result<Position, Refusal> {
    if !text.is_char_boundary(offset) {
        return Err(Refusal::of(3));
    }
    lexer.reposition_to(offset);
    Ok(lexer.current_pos())
}

/// The Rust's lexer, as document 01 names it.
pub fn lexer(text: &str, mode: Mode, limit: u64) -> Lexer<'_> {
    let mut lexer = Lexer::with_limits(text, limit as usize);
    if mode == Mode::Tolerant {
        lexer.set_tolerant();
    }
    lexer
}

impl Reading {
    /// The lengths of buffers that hold this and no more.
    pub fn exact(&self) -> Lent {
        Lent {
            tokens: self.records.as_flattened().len(),
            strings: self.strings.len(),
            reports: self.reports.as_flattened().len(),
        }
    }

    /// Refusals 4, 5 and 6.
    pub fn fits(&self, lent: Lent) -> Result<(), Refusal> {
        let exact = self.exact();
        if lent.tokens < exact.tokens {
            return Err(Refusal::of(4));
        }
        if lent.strings < exact.strings {
            return Err(Refusal::of(5));
        }
        if lent.reports < exact.reports {
            return Err(Refusal::of(6));
        }
        Ok(())
    }

    /// Takes the lexer's next token with its string and reports.
    fn add_token(&mut self, lexer: &mut Lexer<'_>) -> TokenKind {
        let token = exceptions::next_token(lexer);
        let (text, end) = (lexer.input_bytes(), lexer.input_pos());
        let record = record(text, &token, end, self.strings.len());
        self.records.push(record);
        if token.kind == TokenKind::String {
            self.strings.extend_from_slice(token.value.as_bytes());
        }
        for error in lexer.take_errs() {
            let [reason, detail] = meaning(&error.msg, &text[token.pos.offset..end]);
            let [offset, line, column] = numbers(error.pos);
            self.reports.push([reason, detail, offset, line, column]);
        }
        token.kind
    }
}

/// The record of a token that ends at `end`; a String's value goes to
/// `string_place` of the string buffer.
fn record(text: &[u8], token: &Token, end: usize, string_place: usize) -> Record {
    use TokenKind::*;
    let (start, length) = (token.pos.offset, token.value.len());
    let [reason, detail] = match token.kind {
        Illegal => meaning(&token.value, &text[start..end]),
        _ => [0, 0],
    };
    let (value_place, value_length) = match token.kind {
        String => (string_place, length),
        // An Illegal's value is the Rust's message; document 01 has none.
        Illegal => (end, 0),
        _ if length == 0 => (end, 0),
        Bytes => (start + 2, length),       // after `b"`
        AtDirective => (start + 1, length), // after `@`
        _ => (start, length),
    };
    let precision_length = token.prec.len();
    let precision_place = match precision_length {
        0 => 0,
        length => end - length,
    };
    // The extents are worked out here, so they are held to the Rust's words.
    let lies_at = |place: usize, words: &str| text[place..].starts_with(words.as_bytes());
    assert!(matches!(token.kind, String | Illegal) || lies_at(value_place, &token.value));
    assert!(lies_at(precision_place, &token.prec));
    let nanoseconds = match token.kind {
        Duration => exceptions::parse_duration(&token.value).expect("the lexer accepted it"),
        _ => 0,
    };
    let [start, line, column] = numbers(token.pos);
    [
        token.kind as i64,
        reason,
        detail,
        start,
        end as i64,
        line,
        column,
        value_place as i64,
        value_length as i64,
        precision_place as i64,
        precision_length as i64,
        nanoseconds,
    ]
}

/// Document 01's reason for one of the Rust's messages.
pub(crate) fn reason_of(message: &str) -> i64 {
    match message {
        _ if message.starts_with("unexpected character ") => 1,
        "unterminated block comment" => 2,
        _ if message.starts_with("newline in string literal: ") => 3,
        "unterminated escape sequence" => 4,
        "invalid \\x escape: expected 2 hex digits" => 5,
        "invalid octal escape: expected 3 octal digits" => 6,
        "invalid \\u escape: expected 4 hex digits forming a valid codepoint" => 7,
        "invalid \\U escape: expected 8 hex digits forming a valid codepoint" => 8,
        _ if message.starts_with("unknown escape sequence \\") => 9,
        "unterminated string" => 10,
        "string contains invalid UTF-8" => 11,
        "unterminated triple-quoted string" => 12,
        _ if message.starts_with("bytes literal decodes to more than ") => 13,
        "unterminated bytes literal" => 14,
        r#""@" must be followed by a directive name"# => 15,
        r#""+" is valid only in "+inf""# => 16,
        r#""-" must be followed by a digit or "inf""# => 17,
        _ if message.starts_with("invalid duration: ") => 18,
        "unterminated string: ended at newline" => 19,
        "unterminated bytes literal: ended at newline" => 20,
        _ if message.starts_with("invalid timestamp: ") => 21,
        _ => panic!("no reason for the message {message:?}"),
    }
}

/// Reason and detail of one of the Rust's messages about a token's bytes. The
/// detail is an unexpected character's code point or an unknown escape's byte.
fn meaning(message: &str, token: &[u8]) -> [i64; 2] {
    let reason = reason_of(message);
    let detail = match reason {
        1 => {
            // The token is the character, which the message quotes.
            let character = as_str(token).chars().next().expect("a character");
            assert!(message.ends_with(&go_quote_rune(character)));
            u32::from(character)
        }
        // The message ends with the byte, as the character of that number.
        9 => message.chars().last().map_or(0, u32::from),
        _ => 0,
    };
    [reason, i64::from(detail)]
}

/// "The first place is line 1, column 1, offset 0."
pub const FIRST: Position = Position {
    line: 1,
    column: 1,
    offset: 0,
};

/// "A place stepped over one byte gives the next place"
pub fn stepped(place: Position, byte: u8) -> Position {
    let Position {
        line,
        column,
        offset,
    } = place;
    match byte {
        b'\n' => Position::with_offset(line + 1, 1, offset + 1),
        _ => Position::with_offset(line, column + 1, offset + 1),
    }
}

/// Offset, line, column.
pub fn numbers(place: Position) -> [i64; 3] {
    [place.offset, place.line, place.column].map(|number| number as i64)
}

/// The bytes that the lexer skips between tokens.
pub fn is_blank(byte: u8) -> bool {
    matches!(byte, b' ' | b'\t' | b'\r')
}

/// A part of the text that begins and ends between characters.
pub(crate) fn as_str(bytes: &[u8]) -> &str {
    std::str::from_utf8(bytes).expect("whole characters of a checked text")
}
