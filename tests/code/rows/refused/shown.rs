//! How a value is told from another, without memory.
use haya_numbers::Numeric;
use haya_text::{ChunkedString, FormatString};
use haya_values::MaybeTyped;
use std::fmt;
use std::fmt::Write;

// Takes the wanted text piece by piece, and fails at any other.
#[derive(Drop)]
pub(crate) struct Wanted<'a>(&'a str);

impl fmt::Write for Wanted<'_> {
    fn write_str(&mut self, text: &str) -> fmt::Result {
        match self.0.strip_prefix(text) {
            Some(rest) => {
                self.0 = rest;
                Ok(())
            }
            None => Err(fmt::Error),
        }
    }
}

impl<'a> Wanted<'a> {
    pub(crate) fn new(text: &'a str) -> Wanted<'a> {
        Wanted(text)
    }

    // Whether the whole text was written.
    pub(crate) fn is_done(&self) -> bool {
        self.0.is_empty()
    }
}

/// Whether the value is shown so.
pub(crate) fn is_shown<T: fmt::Display>(value: &T, wanted: &str) -> bool {
    let mut left = Wanted(wanted);
    write!(left, "{value}").is_ok() && left.0.is_empty()
}

/// A value that is told by a text.
pub(crate) trait Told {
    fn is_told(&self, wanted: &str) -> bool;
}

impl Told for ChunkedString {
    // As it is serialized.
    fn is_told(&self, wanted: &str) -> bool {
        let mut left = Wanted(wanted);
        self.fmt_serialized(&mut left).is_ok() && left.0.is_empty()
    }
}

impl Told for FormatString {
    fn is_told(&self, wanted: &str) -> bool {
        self.short.is_none() && self.value.is_told(wanted)
    }
}

impl Told for Numeric {
    fn is_told(&self, wanted: &str) -> bool {
        is_shown(self, wanted)
    }
}

impl<T: Told> Told for MaybeTyped<T> {
    // A typed value stands behind `typed `.
    fn is_told(&self, wanted: &str) -> bool {
        match (self, wanted.strip_prefix("typed ")) {
            (MaybeTyped::Typed(value), Some(wanted)) => value.is_told(wanted),
            (MaybeTyped::String(text), None) => text.as_str() == wanted,
            _ => false,
        }
    }
}
