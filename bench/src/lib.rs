//! What the programs here share: the texts, and how one is read.

pub mod reading;
pub mod texts;
