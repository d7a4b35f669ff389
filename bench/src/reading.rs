//! A text, read by the proved library into lent buffers, or by the Rust.

use std::str::from_utf8;

use oracle::cases::DEFAULT_LIMIT;
use oracle::ffi::{self, Buffers};
use oracle::records::{lexer, Lent, Mode, RECORD, REPORT};
use oracle::token::{Token, TokenKind};

use crate::texts::Text;

/// A text that is read in one mode or the other.
pub struct Reading {
    pub text: Vec<u8>,
    mode: Mode,
    pub tokens: usize,
    buffers: Buffers,
}

impl Reading {
    pub fn new(text: &Text, size: usize) -> Reading {
        let mode = text.mode;
        let text = (text.make)(size);
        assert!(text.len() <= size);
        let mut lexer = lexer(from_utf8(&text).expect("UTF-8"), mode, DEFAULT_LIMIT);
        let mut tokens = 1;
        while lexer.next_token().kind != TokenKind::Eof {
            tokens += 1;
        }
        Reading {
            text,
            mode,
            tokens,
            buffers: Buffers::untouched(Lent::NONE),
        }
    }

    /// Buffers that suffice for any text of the length.
    pub fn lend_enough(&mut self) {
        self.lend(Lent::for_any(self.text.len(), self.mode));
    }

    /// Just the token slice that the text needs.
    pub fn lend_exactly(&mut self) {
        // A report takes two bytes of text or more, but for one.
        let most_reports = match self.mode {
            Mode::Strict => 0,
            Mode::Tolerant => self.text.len() / 2 + 1,
        };
        self.lend(Lent {
            tokens: RECORD * self.tokens,
            strings: self.text.len(),
            reports: REPORT * most_reports,
        });
    }

    fn lend(&mut self, lent: Lent) {
        // The old ones are freed before the new ones are made.
        self.buffers = Buffers::untouched(Lent::NONE);
        self.buffers = Buffers::untouched(lent);
    }

    /// One call of the proved library.
    pub fn proved(&mut self) {
        let (text, mode) = (&self.text, self.mode as u8);
        let mut answer = [0; 6];
        let number = ffi::read_text(text, mode, DEFAULT_LIMIT, &mut self.buffers, &mut answer);
        assert_eq!((number, answer[0]), (0, self.tokens as i64));
    }

    /// The Rust's tokens.
    pub fn rust(&self) -> Vec<Token> {
        let text = from_utf8(&self.text).expect("UTF-8");
        let tokens = lexer(text, self.mode, DEFAULT_LIMIT).collect_tokens();
        assert_eq!(tokens.len(), self.tokens);
        tokens
    }
}
