//! Persons and roles.
use crate::values::row::{
    Row, RowError, copied, put as put_column, put_debugged, put_fault, put_maybe, put_yes, read,
};
use haya_people::{Person, PersonRole, is_sorted_table};
use haya_text::LongShortForm;
use std::alloc::Global;
use std::str::FromStr;

pub fn put(alloc: Global, row: &Row, out: &mut String) -> Result<(), RowError> {
    match row.word(0)? {
        "person" => put_person(alloc, row, out),
        "initials" => put_initials(alloc, row, out),
        "first-name" => put_first_name(alloc, row, out),
        "name-first" => {
            let (initials, prefixed) = (row.is_yes(5)?, row.is_yes(6)?);
            let name = person(alloc, row, 1)?.name_first(alloc, initials, prefixed)?;
            put_column(out, name.as_str())
        }
        "given-first" => {
            let initials = row.is_yes(5)?;
            let name = person(alloc, row, 1)?.given_first(alloc, initials)?;
            put_column(out, name.as_str())
        }
        "name" => {
            let person = person(alloc, row, 1)?;
            put_yes(out, person.is_institutional())?;
            put_yes(out, person.is_cjk(is_ideograph))
        }
        "particles" => put_particles(alloc, row, out),
        "article" => put_article(alloc, row, out),
        "sorted" => put_yes(out, is_sorted_table(&words(alloc, row, 1)?)),
        "persons" => put_persons(alloc, row, out),
        "role" => put_role(alloc, row, out),
        _ => Err(RowError::Malformed),
    }
}

fn string(alloc: Global, text: &str) -> Result<String, RowError> {
    Ok(String::from_str(alloc, text)?)
}

fn maybe(alloc: Global, row: &Row, place: usize) -> Result<Option<String>, RowError> {
    match row.maybe(place)? {
        Some(text) => Ok(Some(string(alloc, text)?)),
        None => Ok(None),
    }
}

// A person by the name, the given name, the prefix and the suffix.
fn person(alloc: Global, row: &Row, place: usize) -> Result<Person, RowError> {
    Ok(Person {
        name: string(alloc, row.word(place)?)?,
        given_name: maybe(alloc, row, place.saturating_add(1))?,
        prefix: maybe(alloc, row, place.saturating_add(2))?,
        suffix: maybe(alloc, row, place.saturating_add(3))?,
        comma_suffix: false,
        alias: None,
    })
}

// The value, and its text.
fn put_person(alloc: Global, row: &Row, out: &mut String) -> Result<(), RowError> {
    let Some(person) = read::<Person>(alloc, row.word(1)?, out)? else {
        return Ok(());
    };
    let person = copied(alloc, person)?;
    put_debugged(alloc, out, &person)?;
    let text = person.to_serialized(alloc)?;
    put_column(out, text.as_str())
}

fn given(alloc: Global, row: &Row) -> Result<Person, RowError> {
    Ok(Person {
        name: string(alloc, "Doe")?,
        given_name: maybe(alloc, row, 1)?,
        prefix: None,
        suffix: None,
        comma_suffix: false,
        alias: None,
    })
}

fn put_initials(alloc: Global, row: &Row, out: &mut String) -> Result<(), RowError> {
    let (delimiter, with_hyphen) = (row.maybe(2)?, row.is_yes(3)?);
    let mut text = String::new(alloc);
    given(alloc, row)?
        .initials(&mut text, delimiter, with_hyphen)
        .map_err(|_| RowError::OutOfMemory)?;
    put_column(out, text.as_str())
}

fn put_first_name(alloc: Global, row: &Row, out: &mut String) -> Result<(), RowError> {
    let delimiter = row.maybe(2)?;
    let mut text = String::new(alloc);
    given(alloc, row)?
        .first_name_with_delimiter(&mut text, delimiter)
        .map_err(|_| RowError::OutOfMemory)?;
    put_column(out, text.as_str())
}

// The words from this place on, as a table.
fn words<'a>(alloc: Global, row: &'a Row, place: usize) -> Result<Vec<&'a str>, RowError> {
    let mut table = Vec::new(alloc);
    for word in row.from(place) {
        table.push(word.as_str())?;
    }
    Ok(table)
}

// The particle, what stands behind it, and the particle with the prefix.
fn put_particles(alloc: Global, row: &Row, out: &mut String) -> Result<(), RowError> {
    let table = words(alloc, row, 3)?;
    let person = Person {
        name: string(alloc, row.word(1)?)?,
        given_name: None,
        prefix: maybe(alloc, row, 2)?,
        suffix: None,
        comma_suffix: false,
        alias: None,
    };
    put_parted(alloc, &person, &table, out)
}

fn put_parted(
    alloc: Global,
    person: &Person,
    table: &[&str],
    out: &mut String,
) -> Result<(), RowError> {
    if !is_sorted_table(table) {
        return Err(RowError::Malformed);
    }
    put_maybe(out, person.name_particle(alloc, table)?)?;
    put_column(out, person.name_without_particle(alloc, table)?)?;
    let all = person.name_particles(alloc, table)?;
    put_maybe(out, all.as_deref())
}

fn put_article(alloc: Global, row: &Row, out: &mut String) -> Result<(), RowError> {
    let table = words(alloc, row, 2)?;
    let name = string(alloc, row.word(1)?)?;
    if !is_sorted_table(&table) {
        return Err(RowError::Malformed);
    }
    let person = Person {
        name,
        given_name: None,
        prefix: None,
        suffix: None,
        comma_suffix: false,
        alias: None,
    };
    put_column(out, person.name_without_article(&table))
}

const PARTICLES: &[&str] = &["al", "de", "de la", "von"];

fn is_ideograph(c: char) -> bool {
    c >= '\u{4e00}' && c <= '\u{9fff}'
}

// The order of two persons in the list of a style, and that of the second to the first.
fn put_persons(alloc: Global, row: &Row, out: &mut String) -> Result<(), RowError> {
    let form = match row.word(1)? {
        "long" => LongShortForm::Long,
        "short" => LongShortForm::Short,
        _ => return Err(RowError::Malformed),
    };
    let is_demoted = row.is_yes(2)?;
    if !is_sorted_table(PARTICLES) {
        return Err(RowError::Malformed);
    }
    let (a, b) = (person(alloc, row, 3)?, person(alloc, row, 7)?);
    let there = a.csl_cmp(alloc, &b, form, is_demoted, PARTICLES, is_ideograph)?;
    let back = b.csl_cmp(alloc, &a, form, is_demoted, PARTICLES, is_ideograph)?;
    put_debugged(alloc, out, &there)?;
    put_debugged(alloc, out, &back)
}

fn put_role(alloc: Global, row: &Row, out: &mut String) -> Result<(), RowError> {
    match PersonRole::from_str(row.word(1)?) {
        Ok(role) => put_debugged(alloc, out, &copied(alloc, role)?),
        Err(fault) => put_fault(alloc, out, &fault),
    }
}
