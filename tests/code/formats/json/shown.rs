//! Libraries as the rows show them.
use haya_entry::{Entry, SerialNumber};
use haya_people::{Person, PersonRole, PersonsWithRoles};
use haya_text::FormatString;
use haya_time::{Date, Season};
use haya_values::{MaybeTyped, Publisher, QualifiedUrl};
use hayagriva::Library;
use std::alloc::AllocError;
use std::fmt;

// A text with its marks, and its short form behind a bar.
fn put_text(out: &mut String, name: &str, text: Option<&FormatString>) -> Result<(), AllocError> {
    let Some(text) = text else {
        return Ok(());
    };
    write!(out, "{name}=")?;
    if text.value.fmt_serialized(out).is_err() {
        return Err(AllocError);
    }
    if let Some(short) = &text.short {
        out.push_str("|")?;
        if short.fmt_serialized(out).is_err() {
            return Err(AllocError);
        }
    }
    out.push_str(";")
}

fn put<D: fmt::Display>(out: &mut String, name: &str, value: Option<&D>) -> Result<(), AllocError> {
    match value {
        Some(value) => write!(out, "{name}={value};"),
        None => Ok(()),
    }
}

// A typed value is shown in brackets.
fn put_typed<D: fmt::Display>(
    out: &mut String,
    name: &str,
    value: Option<&MaybeTyped<D>>,
) -> Result<(), AllocError> {
    match value {
        Some(MaybeTyped::Typed(value)) => write!(out, "{name}=[{value}];"),
        Some(MaybeTyped::String(text)) => write!(out, "{name}={text};"),
        None => Ok(()),
    }
}

fn put_part(out: &mut String, sign: &str, part: &Option<String>) -> Result<(), AllocError> {
    match part {
        Some(part) => write!(out, "{sign}{part}"),
        None => Ok(()),
    }
}

// The name, and behind a sign each other part that is there.
fn put_person(out: &mut String, person: &Person) -> Result<(), AllocError> {
    out.push_str(person.name.as_str())?;
    put_part(out, "<", &person.prefix)?;
    put_part(out, ">", &person.given_name)?;
    put_part(out, "+", &person.suffix)?;
    if person.comma_suffix {
        out.push_str(",")?;
    }
    put_part(out, "@", &person.alias)
}

fn put_persons(out: &mut String, name: &str, persons: Option<&[Person]>) -> Result<(), AllocError> {
    let Some(persons) = persons else {
        return Ok(());
    };
    write!(out, "{name}=")?;
    for person in persons {
        put_person(out, person)?;
        out.push_str("&")?;
    }
    out.push_str(";")
}

fn put_affiliated(out: &mut String, lists: Option<&[PersonsWithRoles]>) -> Result<(), AllocError> {
    for list in lists.unwrap_or(&[]) {
        let role = match list.role {
            PersonRole::Translator => "translator",
            PersonRole::CastMember => "cast-member",
            _ => "other",
        };
        put_persons(out, role, Some(list.names.as_slice()))?;
    }
    Ok(())
}

// A date as it is printed, and its season by its first letter.
fn put_date(out: &mut String, name: &str, date: Option<&Date>) -> Result<(), AllocError> {
    put(out, name, date)?;
    let Some(date) = date else {
        return Ok(());
    };
    match date.season {
        Some(Season::Spring) => out.push_str("Sp;"),
        Some(Season::Summer) => out.push_str("Su;"),
        Some(Season::Autumn) => out.push_str("Au;"),
        Some(Season::Winter) => out.push_str("Wi;"),
        None => Ok(()),
    }
}

fn put_publisher(out: &mut String, publisher: Option<&Publisher>) -> Result<(), AllocError> {
    let Some(publisher) = publisher else {
        return Ok(());
    };
    out.push_str("publisher;")?;
    put_text(out, "name", publisher.name())?;
    put_text(out, "at", publisher.location())
}

fn put_url(out: &mut String, url: Option<&QualifiedUrl>) -> Result<(), AllocError> {
    let Some(url) = url else {
        return Ok(());
    };
    put(out, "url", Some(&url.value))?;
    put_date(out, "visit", url.visit_date.as_ref())
}

fn put_serials(out: &mut String, serials: Option<&SerialNumber>) -> Result<(), AllocError> {
    let Some(serials) = serials else {
        return Ok(());
    };
    out.push_str("serial-number;")?;
    if let Some((key, number)) = serials.only() {
        write!(out, "{key}:{number};")?;
    }
    for (key, number) in serials.several().iter() {
        write!(out, "{key}:{number};")?;
    }
    Ok(())
}

fn put_texts(out: &mut String, entry: &Entry) -> Result<(), AllocError> {
    put_text(out, "title", entry.title())?;
    put_text(out, "location", entry.location())?;
    put_text(out, "organization", entry.organization())?;
    put_text(out, "archive", entry.archive())?;
    put_text(out, "archive-location", entry.archive_location())?;
    put_text(out, "call-number", entry.call_number())?;
    put_text(out, "note", entry.note())?;
    put_text(out, "abstract", entry.abstract_())?;
    put_text(out, "genre", entry.genre())
}

fn put_numbers(out: &mut String, entry: &Entry) -> Result<(), AllocError> {
    put_typed(out, "issue", entry.issue())?;
    put_typed(out, "chapter", entry.chapter())?;
    put_typed(out, "volume", entry.volume())?;
    put_typed(out, "edition", entry.edition())?;
    put(out, "volume-total", entry.volume_total())?;
    put(out, "page-total", entry.page_total())?;
    put_typed(out, "page-range", entry.page_range())?;
    put_typed(out, "time-range", entry.time_range())?;
    put_typed(out, "runtime", entry.runtime())
}

// An entry without its parents: its key, its type, and each field that is set.
fn put_own(out: &mut String, entry: &Entry) -> Result<(), AllocError> {
    write!(out, "{} {:?} ", entry.key(), entry.entry_type())?;
    put_texts(out, entry)?;
    put_persons(out, "author", entry.authors())?;
    put_persons(out, "editor", entry.editors())?;
    put_affiliated(out, entry.affiliated())?;
    put_date(out, "date", entry.date())?;
    put_publisher(out, entry.publisher())?;
    put_url(out, entry.url())?;
    put_numbers(out, entry)?;
    put_serials(out, entry.serial_number())?;
    put(out, "language", entry.language().as_ref())
}

// A parent, and its own parents in brackets.
fn put_parent(out: &mut String, parent: &Entry) -> Result<(), AllocError> {
    put_own(out, parent)?;
    for entry in parent.parents() {
        out.push_str("(")?;
        put_own(out, entry)?;
        out.push_str(")")?;
    }
    Ok(())
}

// An entry, and its parents in brackets, two levels of them.
fn put_entry(out: &mut String, entry: &Entry) -> Result<(), AllocError> {
    put_own(out, entry)?;
    for parent in entry.parents() {
        out.push_str("(")?;
        put_parent(out, parent)?;
        out.push_str(")")?;
    }
    Ok(())
}

/// The entries in order, each in a line.
pub(super) fn put_library(out: &mut String, library: &Library) -> Result<(), AllocError> {
    for entry in library.iter() {
        put_entry(out, entry)?;
        out.push_str("\n")?;
    }
    Ok(())
}
