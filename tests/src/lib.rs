//! Tests of the proved code from Rust, most of them against `reference`, an implementation of docs/RULES.md of its own.

pub mod decks;
pub mod entry;
pub mod generate;
pub mod layout;
pub mod lent;
pub mod program;
pub mod records;
pub mod reference;
pub mod trial;
pub mod vectors;

/// A job's bytes for the message of a test that fails.
pub fn text(bytes: &[u8]) -> String {
    String::from_utf8_lossy(bytes).into_owned()
}
