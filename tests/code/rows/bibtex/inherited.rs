//! The entries of a text's library.
use haya_bibtex_inherited::{EntryRef, LibraryEntries, library_entries};
use haya_bibtex_text::{ReadError, read_bibliography};
use std::alloc::{AllocError, Global};
use std::fmt::Write;

/// How many entries the library of a text has, each of them with its own and inherited fields, and
/// the references that are passed over; or `fault`.
pub fn line_of(alloc: Global, text: &str) -> Result<String, AllocError> {
    match read_bibliography(alloc, text) {
        Ok(bibliography) => {
            let library = library_entries(alloc, bibliography.entries.as_slice())?;
            shown(alloc, &library)
        }
        Err(ReadError::Refused(_)) => Ok(String::from_str(alloc, "fault")?),
        Err(ReadError::OutOfMemory) => Err(AllocError),
    }
}

// How many entries there are, each of them, and what is passed over.
fn shown(alloc: Global, library: &LibraryEntries<'_>) -> Result<String, AllocError> {
    let count = library.entries.len();
    let mut line = format!(in alloc; "{count}")?;
    for entry in &library.entries {
        push_entry(&mut line, entry)?;
    }
    for reference in &library.passed_over {
        let link = reference.link;
        let key = reference.key;
        write!(line, "; passed over {link} {key:?}")?;
    }
    Ok(line)
}

// Adds an entry: its type, its key, and each field with its text.
fn push_entry(line: &mut String, entry: &EntryRef<'_>) -> Result<(), AllocError> {
    let kind = entry.kind;
    let key = entry.key;
    write!(line, "; {kind} {key:?}")?;
    for field in &entry.fields {
        let name = field.name;
        let text = field.text;
        write!(line, " {name}={text:?}")?;
    }
    Ok(())
}
