//! The Rust tokenizer, built unchanged, answering in document 01's numbers.

// errors.rs names types of a crate `protowire_check`, which is absent; with
// this line it finds the stand-ins here.
extern crate self as protowire_check;
pub use stand_ins::{BoxError, Error, KeyedError};

// The Rust modules: lexer, token, go_duration and those they lean on; and
// classes, the lexer's tests of one byte.
include!(concat!(env!("OUT_DIR"), "/rust.rs"));

#[cfg(feature = "pxf")]
pub mod calls;
pub mod cases;
pub mod conformance;
pub mod duration;
pub mod exceptions;
#[cfg(any(feature = "exports", feature = "pxf"))]
pub mod ffi;
pub mod grammar;
pub mod notation;
pub mod random;
pub mod records;
pub mod shrink;
mod stand_ins;
pub mod suggestion;
pub mod tally;
pub mod texts;
pub mod timestamp;
pub mod timing;
pub mod token_file;
