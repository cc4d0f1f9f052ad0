//! The entries of a text.
use haya_bibtex_text::{Bibliography, Entry, ReadError, read_bibliography};
use std::alloc::{AllocError, Global};
use std::fmt::Write;

/// How many entries a text has, each of them, and what is passed over; or the name of its fault with
/// the line and the column.
pub fn line_of(alloc: Global, text: &str) -> Result<String, AllocError> {
    match read_bibliography(alloc, text) {
        Ok(bibliography) => shown(alloc, &bibliography),
        Err(ReadError::Refused(fault)) => {
            let name = fault.kind.name();
            Ok(format!(in alloc; "{name} {}:{}", fault.line, fault.column)?)
        }
        Err(ReadError::OutOfMemory) => Err(AllocError),
    }
}

// How many entries there are, each of them, and what is passed over.
fn shown(alloc: Global, bibliography: &Bibliography) -> Result<String, AllocError> {
    let count = bibliography.entries.len();
    let mut line = format!(in alloc; "{count}")?;
    for entry in &bibliography.entries {
        push_entry(&mut line, entry)?;
    }
    for passed in &bibliography.passed_over {
        write!(line, "; passed over {passed}")?;
    }
    Ok(line)
}

// Adds an entry: its type, its key, and each field with its text.
fn push_entry(line: &mut String, entry: &Entry) -> Result<(), AllocError> {
    let kind = entry.kind.as_str();
    let key = entry.key.as_str();
    write!(line, "; {kind} {key:?}")?;
    for field in &entry.fields {
        let name = field.name.as_str();
        let text = field.text.as_str();
        write!(line, " {name}={text:?}")?;
    }
    Ok(())
}
