//! The fields of an entry, each as `name=value;`.
use crate::values::row::RowError;
use haya_entry::Entry;
use haya_people::Person;
use haya_values::{MaybeTyped, Publisher};
use std::fmt;

fn put<D: fmt::Display>(out: &mut String, name: &str, value: Option<&D>) -> Result<(), RowError> {
    if let Some(value) = value {
        write!(out, "{name}={value};")?;
    }
    Ok(())
}

// A typed value is shown in brackets.
fn put_typed<D: fmt::Display>(
    out: &mut String,
    name: &str,
    value: Option<&MaybeTyped<D>>,
) -> Result<(), RowError> {
    match value {
        Some(MaybeTyped::Typed(value)) => write!(out, "{name}=[{value}];")?,
        Some(MaybeTyped::String(text)) => write!(out, "{name}={text};")?,
        None => {}
    }
    Ok(())
}

// A person's parts, each behind a sign of its own.
fn put_person(out: &mut String, name: &str, person: &Person) -> Result<(), RowError> {
    write!(out, "{name}={}", person.name)?;
    if let Some(given_name) = &person.given_name {
        write!(out, ", {given_name}")?;
    }
    if let Some(prefix) = &person.prefix {
        write!(out, " < {prefix}")?;
    }
    if let Some(suffix) = &person.suffix {
        write!(out, " > {suffix}")?;
    }
    out.push(';')?;
    Ok(())
}

fn put_persons(out: &mut String, name: &str, persons: Option<&[Person]>) -> Result<(), RowError> {
    for person in persons.unwrap_or(&[]) {
        put_person(out, name, person)?;
    }
    Ok(())
}

fn put_texts(out: &mut String, entry: &Entry) -> Result<(), RowError> {
    put(out, "title", entry.title())?;
    put(out, "location", entry.location())?;
    put(out, "organization", entry.organization())?;
    put(out, "archive", entry.archive())?;
    put(out, "archive-location", entry.archive_location())?;
    put(out, "call-number", entry.call_number())?;
    put(out, "note", entry.note())?;
    put(out, "abstract", entry.abstract_())?;
    put(out, "genre", entry.genre())
}

fn put_people(out: &mut String, entry: &Entry) -> Result<(), RowError> {
    put_persons(out, "author", entry.authors())?;
    put_persons(out, "editor", entry.editors())?;
    for list in entry.affiliated().unwrap_or(&[]) {
        put_persons(out, list.role.name(), Some(list.names.as_slice()))?;
    }
    Ok(())
}

fn put_numbers(out: &mut String, entry: &Entry) -> Result<(), RowError> {
    put_typed(out, "issue", entry.issue())?;
    put_typed(out, "chapter", entry.chapter())?;
    put_typed(out, "volume", entry.volume())?;
    put_typed(out, "edition", entry.edition())?;
    put(out, "volume-total", entry.volume_total())?;
    put(out, "page-total", entry.page_total())?;
    put_typed(out, "page-range", entry.page_range())?;
    put_typed(out, "time-range", entry.time_range())?;
    put_typed(out, "runtime", entry.runtime())
}

fn put_publisher(out: &mut String, publisher: Option<&Publisher>) -> Result<(), RowError> {
    if let Some(publisher) = publisher {
        put(out, "publisher", publisher.name())?;
        put(out, "at", publisher.location())?;
    }
    Ok(())
}

fn put_serials(out: &mut String, entry: &Entry) -> Result<(), RowError> {
    for key in ["serial", "doi", "isbn", "issn", "pmid", "pmcid", "arxiv"] {
        put(out, key, entry.keyed_serial_number(key).as_ref())?;
    }
    Ok(())
}

/// Each field that is set, as it is shown.
pub fn put_fields(out: &mut String, entry: &Entry) -> Result<(), RowError> {
    put_texts(out, entry)?;
    put_people(out, entry)?;
    put(out, "date", entry.date())?;
    put_publisher(out, entry.publisher())?;
    put(out, "url", entry.url())?;
    put_numbers(out, entry)?;
    put(out, "language", entry.language().as_ref())?;
    put_serials(out, entry)
}
