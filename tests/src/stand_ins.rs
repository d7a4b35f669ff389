//! Stand-ins for the types of absent crates and modules that errors.rs names.
//! The lexer's errors carry none of them, so a type without values serves.

use std::fmt;

#[derive(Debug)]
pub enum Absent {}

impl fmt::Display for Absent {
    fn fmt(&self, _: &mut fmt::Formatter<'_>) -> fmt::Result {
        match *self {}
    }
}

impl std::error::Error for Absent {}

/// `protowire_check::Error`.
pub type Error = Absent;
/// `protowire_check::BoxError`.
pub type BoxError = Box<dyn std::error::Error + Send + Sync>;
/// `crate::KeyedError`.
pub type KeyedError = Absent;
