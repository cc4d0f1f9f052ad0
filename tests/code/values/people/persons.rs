//! A list of no parts, and what becomes of a writer's fault. A failed allocation ends a test.
use super::particles::{maybe, string};
use crate::shown::Short;
use haya_people::*;
use haya_text::ReadFault;
use std::process::Abort;

// The name, the given name, the prefix and the suffix of a person.
type Parts = (
    &'static str,
    Option<&'static str>,
    Option<&'static str>,
    Option<&'static str>,
);

fn person(rt: &(impl Abort + AllocGlobal), parts: Parts) -> Person {
    Person {
        name: string(rt, parts.0),
        given_name: maybe(rt, parts.1),
        prefix: maybe(rt, parts.2),
        suffix: maybe(rt, parts.3),
        comma_suffix: false,
        alias: None,
    }
}

// Why no person is read, if none is.
fn fault_of(read: Result<Person, PersonError>) -> Option<PersonError> {
    match read {
        Ok(person) => {
            drop(person);
            None
        }
        Err(fault) => Some(fault),
    }
}

#[test]
fn no_parts_are_no_person(rt: HostRuntime) {
    let none = fault_of(Person::from_strings(rt.alloc(), Vec::new(rt.alloc())));
    assert!(rt; none == Some(PersonError::Empty));
    assert!(rt; !PersonError::Empty.is_out_of_memory());
    assert!(rt; PersonError::OutOfMemory.is_out_of_memory());
}

// How many texts of the initials are handed over where the writer with so much room fails.
fn initials_at_fault(person: &Person, room: usize) -> Option<usize> {
    let mut out = Short { room, handed: 0 };
    match person.initials(&mut out, Some("."), true) {
        Ok(()) => None,
        Err(_) => Some(out.handed),
    }
}

// The same of the first name.
fn first_name_at_fault(person: &Person, room: usize) -> Option<usize> {
    let mut out = Short { room, handed: 0 };
    match person.first_name_with_delimiter(&mut out, Some(".")) {
        Ok(()) => None,
        Err(_) => Some(out.handed),
    }
}

// Whether each of the first four texts that is refused ends the calls.
fn ends_at_faults(person: &Person) -> bool {
    for room in 0..4 {
        let wanted = Some(room + 1);
        if initials_at_fault(person, room) != wanted
            || first_name_at_fault(person, room) != wanted
        {
            return false;
        }
    }
    true
}

#[test]
fn a_writers_fault_ends_the_call(rt: HostRuntime) {
    let person = person(&rt, ("Doe", Some("Hans J"), None, None));
    let ends = ends_at_faults(&person);
    let mut out = Short { room: 4, handed: 0 };
    let are_written = person.initials(&mut out, Some("."), true).is_ok();
    let is_refused = person
        .first_name_with_delimiter(&mut out, Some("."))
        .is_err();
    drop(person);
    assert!(rt; ends);
    assert!(rt; are_written && is_refused);
}
