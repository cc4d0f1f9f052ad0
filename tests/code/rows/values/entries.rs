//! Types, names of fields, entries and libraries of lines.
use crate::values::fields::put_fields;
use crate::values::row::{Row, RowError, put as put_column, put_debugged, put_fault, put_maybe};
use haya_entry::{Entry, EntryType, FieldName};
use haya_line_library::{InputError, read_library};
use haya_lines::{LineError, read_line};
use hayagriva::{HashKeys, Library};
use std::alloc::Global;
use std::str::FromStr;

pub fn put(alloc: Global, row: &Row, out: &mut String) -> Result<(), RowError> {
    match row.word(0)? {
        "type" => put_type(alloc, row.word(1)?, out),
        "field" => match FieldName::from_str(row.word(1)?) {
            Ok(field) => {
                put_debugged(alloc, out, &field)?;
                put_column(out, field.as_str())
            }
            Err(fault) => put_fault(alloc, out, &fault),
        },
        "line" => put_line(alloc, row.word(1)?, out),
        "lookups" => {
            let library = library(alloc, row.word(1)?)?;
            let put = put_lookups(&library, out);
            drop(library);
            put
        }
        "above" => {
            let kind = EntryType::from_str(row.word(1)?).map_err(|_| RowError::Malformed)?;
            let library = library(alloc, row.word(2)?)?;
            let put = put_above(&library, kind, out);
            drop(library);
            put
        }
        "library" => put_library(alloc, row.word(1)?, out),
        _ => Err(RowError::Malformed),
    }
}

// The type, what the parents of such an entry are by default, and its name.
fn put_type(alloc: Global, name: &str, out: &mut String) -> Result<(), RowError> {
    match EntryType::from_str(name) {
        Ok(kind) => {
            put_debugged(alloc, out, &kind)?;
            put_debugged(alloc, out, &kind.default_parent())?;
            put_column(out, kind.lower_name())
        }
        Err(fault) => put_fault(alloc, out, &fault),
    }
}

// The fields of a line's entry.
fn put_line(alloc: Global, line: &str, out: &mut String) -> Result<(), RowError> {
    match read_line(alloc, line, 0) {
        Ok((_, entry)) => {
            let put = put_copy(alloc, &entry, out);
            drop(entry);
            put
        }
        Err(LineError::OutOfMemory) => Err(RowError::OutOfMemory),
        Err(fault) => put_fault(alloc, out, &fault),
    }
}

fn put_copy(alloc: Global, entry: &Entry, out: &mut String) -> Result<(), RowError> {
    let copy = entry.try_clone(alloc)?;
    let is_equal = copy == *entry;
    let mut shown = String::new(alloc);
    let put = put_fields(&mut shown, &copy);
    drop(copy);
    put?;
    put_column(out, if is_equal { shown.as_str() } else { "unlike" })
}

/// The library of these lines.
pub fn library(alloc: Global, lines: &str) -> Result<Library, RowError> {
    match read_library(alloc, HashKeys::new(1, 2), lines) {
        Ok(library) => Ok(library),
        Err(InputError::OutOfMemory) => Err(RowError::OutOfMemory),
        Err(InputError::Line(_, _)) => Err(RowError::Malformed),
    }
}

// The container of the first entry, its collection, its original and its full work, by their keys.
fn put_lookups(library: &Library, out: &mut String) -> Result<(), RowError> {
    let entry = library.nth(0).ok_or(RowError::Malformed)?;
    put_maybe(out, entry.get_container().map(Entry::key))?;
    put_maybe(out, entry.get_collection().map(Entry::key))?;
    put_maybe(out, entry.get_original().map(Entry::key))?;
    put_column(out, entry.get_full().key())
}

fn put_above(library: &Library, kind: EntryType, out: &mut String) -> Result<(), RowError> {
    let entry = library.nth(0).ok_or(RowError::Malformed)?;
    put_maybe(out, entry.dfs_parent(kind).map(Entry::key))
}

// The keys of a library's entries, which are those of a copy of it, and of one that is made of these
// entries one by one.
fn put_library(alloc: Global, lines: &str, out: &mut String) -> Result<(), RowError> {
    let library = library(alloc, lines)?;
    let copied = is_copied(alloc, &library);
    let put = put_keys(&library, out);
    drop(library);
    put?;
    if copied? {
        Ok(())
    } else {
        put_column(out, "unlike")
    }
}

fn put_keys(library: &Library, out: &mut String) -> Result<(), RowError> {
    for key in library.keys() {
        put_column(out, key)?;
    }
    Ok(())
}

fn is_copied(alloc: Global, library: &Library) -> Result<bool, RowError> {
    let copy = library.try_clone(alloc)?;
    let made = Library::from_entries(alloc, copy.into_iter())?;
    let mut pushed = Library::new(alloc);
    let end = push_all(&mut pushed, library);
    let are_equal = made == *library && pushed == *library;
    drop(made);
    drop(pushed);
    end?;
    Ok(are_equal)
}

fn push_all(pushed: &mut Library, library: &Library) -> Result<(), RowError> {
    for entry in library {
        pushed.push(entry)?;
    }
    Ok(())
}
