//! The persons of a list of names.
use haya_bibtex_names::{Persons, read_persons};
use haya_people::Person;
use std::alloc::{AllocError, Global};

/// The persons of a list of names, each in brackets as prefix, name, given name and suffix with a bar
/// between two, then the words that name no part, each behind `=`, and the commands that aren't
/// known, each behind a backslash.
pub fn line_of(alloc: Global, text: &str) -> Result<String, AllocError> {
    let said: Persons = read_persons(alloc, text)?;
    let mut line = String::new(alloc);
    for person in &said.persons {
        push_person(&mut line, person)?;
    }
    for word in &said.odd_words {
        line.push_str(" =")?;
        line.push_str(word.as_str())?;
    }
    for name in &said.unknown {
        line.push_str(" \\")?;
        line.push_str(name.as_str())?;
    }
    Ok(line)
}

fn push_person(line: &mut String, person: &Person) -> Result<(), AllocError> {
    line.push('[')?;
    push_part(line, &person.prefix)?;
    line.push('|')?;
    line.push_str(person.name.as_str())?;
    line.push('|')?;
    push_part(line, &person.given_name)?;
    line.push('|')?;
    push_part(line, &person.suffix)?;
    line.push(']')?;
    Ok(())
}

// Writes a part, if there is one.
fn push_part(line: &mut String, part: &Option<String>) -> Result<(), AllocError> {
    if let Some(part) = part {
        line.push_str(part.as_str())?;
    }
    Ok(())
}
