//! Where document 01 departs from the Rust. Every exception stands here, with
//! the sentence that makes it; all else is the Rust's own answer.

use std::any::Any;
use std::panic::{catch_unwind, resume_unwind, set_hook, take_hook, AssertUnwindSafe};
use std::sync::Once;

use crate::go_duration;
use crate::lexer::{Lexer, LexerState};
use crate::records::{as_str, is_blank, reason_of};
use crate::token::{Token, TokenKind};

/// The Rust's next token, with document 01's exceptions. The lexer is left at
/// the token's end.
pub fn next_token(lexer: &mut Lexer<'_>) -> Token {
    let before = lexer.snapshot();
    let token = without_overflow(|| lexer.next_token())
        .unwrap_or_else(|| overflowing_duration(lexer, before));
    end_after_character(lexer, &token);
    unjudged(lexer, token)
}

/// The nanoseconds that the Rust gives a run, or `None` where it refuses it.
pub fn parse_duration(run: &str) -> Option<i64> {
    without_overflow(|| go_duration::parse(run).ok()).flatten()
}

/// "If the Rust stops inside a character (reasons 2, 9, 12, 13), its next call
/// panics; ours ends after that character, and what follows is what the Rust
/// gives after `reposition_to` that place."
fn end_after_character(lexer: &mut Lexer<'_>, token: &Token) {
    let text = lexer.input_bytes();
    let stop = lexer.input_pos();
    // The bytes that go on with a character are 10xxxxxx.
    let rest = text[stop..].iter().take_while(|&byte| byte & 0xC0 == 0x80);
    let end = stop + rest.count();
    if end > stop {
        let reason = reason_of(&token.value);
        assert!(token.kind == TokenKind::Illegal && [2, 9, 12, 13].contains(&reason));
        lexer.reposition_to(end);
    }
}

/// "Contents of Timestamp and Bytes aren't judged: where Rust calls them
/// invalid, the kind is still Timestamp or Bytes, with Rust's end." Of a
/// Timestamp this holds no longer: change request #101 has it judged as the
/// Rust does.
fn unjudged(lexer: &Lexer<'_>, token: Token) -> Token {
    if token.kind != TokenKind::Illegal || token.value != "invalid base64 in bytes literal" {
        return token;
    }
    // The Rust judges a closed literal only: `b"`, the run, `"`.
    let run = token.pos.offset + 2..lexer.input_pos() - 1;
    let run = as_str(&lexer.input_bytes()[run]);
    Token::new(TokenKind::Bytes, run, token.pos)
}

/// "Any product or sum above 2^63 is refused. So is a sum of 2^64, where Rust
/// panics or, built without overflow checks, wraps; this is an exception to
/// it." The token that the Rust gives for any other sum above 2^63; the lexer
/// panicked at the end of the run, and stands there.
fn overflowing_duration(lexer: &mut Lexer<'_>, before: LexerState) -> Token {
    let text = lexer.input_bytes();
    let end = lexer.input_pos();
    let start = (before.pos..end)
        .find(|&at| !is_blank(text[at]))
        .expect("a duration's run");
    lexer.restore(before);
    lexer.reposition_to(start);
    let place = lexer.current_pos();
    lexer.reposition_to(end);
    let run = as_str(&text[start..end]);
    Token::new(
        TokenKind::Illegal,
        format!("invalid duration: {run}"),
        place,
    )
}

/// What `call` gives, or `None` where a sum overflows in it.
fn without_overflow<T>(call: impl FnOnce() -> T) -> Option<T> {
    static SILENCE: Once = Once::new();
    SILENCE.call_once(|| {
        let usual = take_hook();
        set_hook(Box::new(move |info| {
            let file = info.location().map_or("", |at| at.file());
            if !(file.contains("go_duration.rs") && is_overflow(info.payload())) {
                usual(info);
            }
        }));
    });
    match catch_unwind(AssertUnwindSafe(call)) {
        Ok(given) => Some(given),
        Err(payload) if is_overflow(&*payload) => None,
        Err(payload) => resume_unwind(payload),
    }
}

fn is_overflow(payload: &(dyn Any + Send)) -> bool {
    payload.downcast_ref() == Some(&"attempt to add with overflow")
}
