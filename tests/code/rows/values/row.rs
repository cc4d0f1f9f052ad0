//! A row's words, and its columns.
use haya_text::{OutOfMemory, ReadFault, ReadText, TryClone};
use std::alloc::{AllocError, AllocFailed, Global};
use std::fmt;

/// Why a row has no columns.
#[derive(Clone, Copy, Debug, PartialEq, Eq)]
pub enum RowError {
    OutOfMemory,
    /// It lacks a word, or one is none of those that its kind takes.
    Malformed,
}

impl From<OutOfMemory> for RowError {
    fn from(_error: OutOfMemory) -> RowError {
        RowError::OutOfMemory
    }
}

impl From<AllocError> for RowError {
    fn from(_error: AllocError) -> RowError {
        RowError::OutOfMemory
    }
}

impl<T: Drop> From<AllocFailed<T>> for RowError {
    fn from(_error: AllocFailed<T>) -> RowError {
        RowError::OutOfMemory
    }
}

/// A kind, and its words.
#[derive(Drop)]
pub struct Row(Vec<String>);

impl Row {
    /// The words of a line, between tabs. `\t`, `\n`, `\r` and `\u{..}` are characters, and `\\` is
    /// a backslash.
    pub fn of_line(alloc: Global, line: &str) -> Result<Row, RowError> {
        let mut words = Vec::new(alloc);
        for word in line.split('\t') {
            words.push(unescaped(alloc, word)?)?;
        }
        Ok(Row(words))
    }

    pub fn word(&self, place: usize) -> Result<&str, RowError> {
        match self.0.get(place) {
            Some(word) => Ok(word.as_str()),
            None => Err(RowError::Malformed),
        }
    }

    /// The word at this place, if it isn't `-`.
    pub fn maybe(&self, place: usize) -> Result<Option<&str>, RowError> {
        match self.word(place)? {
            "-" => Ok(None),
            word => Ok(Some(word)),
        }
    }

    /// Whether the word is `yes`; otherwise it is `no`.
    pub fn is_yes(&self, place: usize) -> Result<bool, RowError> {
        match self.word(place)? {
            "yes" => Ok(true),
            "no" => Ok(false),
            _ => Err(RowError::Malformed),
        }
    }

    /// The words from this place on.
    pub fn from(&self, place: usize) -> &[String] {
        self.0.get(place..).unwrap_or(&[])
    }
}

fn unescaped(alloc: Global, word: &str) -> Result<String, RowError> {
    let mut text = String::new(alloc);
    let mut is_plain = true;
    for piece in word.split('\\') {
        if is_plain {
            text.push_str(piece)?;
            is_plain = false;
        } else if piece.is_empty() {
            text.push('\\')?;
            is_plain = true;
        } else {
            push_escape(&mut text, piece)?;
        }
    }
    Ok(text)
}

// What stands behind a backslash.
fn push_escape(text: &mut String, piece: &str) -> Result<(), RowError> {
    let (c, rest) = if let Some(rest) = piece.strip_prefix("t") {
        ('\t', rest)
    } else if let Some(rest) = piece.strip_prefix("n") {
        ('\n', rest)
    } else if let Some(rest) = piece.strip_prefix("r") {
        ('\r', rest)
    } else {
        coded(piece)?
    };
    text.push(c)?;
    text.push_str(rest)?;
    Ok(())
}

fn coded(piece: &str) -> Result<(char, &str), RowError> {
    let braced = piece.strip_prefix("u{").ok_or(RowError::Malformed)?;
    let (digits, rest) = braced.split_once('}').ok_or(RowError::Malformed)?;
    let code = u32::from_str_radix(digits, 16).map_err(|_| RowError::Malformed)?;
    let c = char::from_u32(code).ok_or(RowError::Malformed)?;
    Ok((c, rest))
}

/// Puts a column behind the others, on the same line.
pub fn put(out: &mut String, column: &str) -> Result<(), RowError> {
    out.push('\t')?;
    for c in column.chars() {
        match c {
            '\\' => out.push_str("\\\\")?,
            '\t' => out.push_str("\\t")?,
            '\n' => out.push_str("\\n")?,
            '\r' => out.push_str("\\r")?,
            c if c != ' ' && c.is_whitespace() => write!(out, "\\u{{{:x}}}", u32::from(c))?,
            c => out.push(c)?,
        }
    }
    Ok(())
}

pub fn put_shown<T: fmt::Display>(
    alloc: Global,
    out: &mut String,
    value: &T,
) -> Result<(), RowError> {
    let text = format!(in alloc; "{value}")?;
    put(out, text.as_str())
}

pub fn put_debugged<T: fmt::Debug>(
    alloc: Global,
    out: &mut String,
    value: &T,
) -> Result<(), RowError> {
    let text = format!(in alloc; "{value:?}")?;
    put(out, text.as_str())
}

pub fn put_yes(out: &mut String, holds: bool) -> Result<(), RowError> {
    put(out, if holds { "yes" } else { "no" })
}

pub fn put_maybe(out: &mut String, text: Option<&str>) -> Result<(), RowError> {
    put(out, text.unwrap_or("-"))
}

/// A fault's name, and what it says.
pub fn put_fault<T: fmt::Debug + fmt::Display>(
    alloc: Global,
    out: &mut String,
    fault: &T,
) -> Result<(), RowError> {
    put_debugged(alloc, out, fault)?;
    put_shown(alloc, out, fault)
}

/// What a text reads as. Where it reads as none, the fault is put.
pub fn read<T: ReadText>(alloc: Global, text: &str, out: &mut String) -> Result<Option<T>, RowError>
where
    T::Fault: fmt::Debug + fmt::Display,
{
    match T::from_str(alloc, text) {
        Ok(value) => Ok(Some(value)),
        Err(fault) if fault.is_out_of_memory() => Err(RowError::OutOfMemory),
        Err(fault) => {
            put_fault(alloc, out, &fault)?;
            Ok(None)
        }
    }
}

/// A copy, which is to be equal, and of which all is told from then on.
pub fn copied<T: TryClone + PartialEq + Drop>(alloc: Global, value: T) -> Result<T, RowError> {
    let copy = value.try_clone(alloc)?;
    let is_equal = copy == value;
    drop(value);
    if is_equal {
        Ok(copy)
    } else {
        Err(RowError::Malformed)
    }
}

/// The value that the text of a row reads as, and its print.
pub fn put_read<T: ReadText + TryClone + PartialEq + fmt::Debug + fmt::Display + Drop>(
    alloc: Global,
    row: &Row,
    out: &mut String,
) -> Result<(), RowError>
where
    T::Fault: fmt::Debug + fmt::Display,
{
    let Some(value) = read::<T>(alloc, row.word(1)?, out)? else {
        return Ok(());
    };
    let value = copied(alloc, value)?;
    put_debugged(alloc, out, &value)?;
    put_shown(alloc, out, &value)
}
