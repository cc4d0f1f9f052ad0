//! What an entry is asked of its people.
use super::calls::asks;
use super::entries::entry;
use super::marks::Memory::{NotTaken, Optional};
use super::marks::{Memory, Row};
use haya_entry::Entry;
use haya_people::PersonRole;
use haya_text::OutOfMemory;
use std::alloc::Global;
use std::io::Print;
use std::process::Abort;

// What it is about, a role, whether memory is taken, and how many persons have the role.
const ROLES: &[(&str, &str, Memory, usize)] = &[
    ("five translators", "translator", Optional, 5),
    ("a director", "director", Optional, 1),
    ("no narrator", "narrator", NotTaken, 0),
];

fn role_of(text: &str) -> PersonRole {
    text.parse().unwrap_or(PersonRole::Foreword)
}

fn are_affiliated(
    alloc: Global,
    work: &Entry,
    role: &str,
    number: usize,
) -> Result<bool, OutOfMemory> {
    let found = work.affiliated_with_role(alloc, role_of(role))?;
    Ok(found.len() == number)
}

pub(crate) fn affiliated(rt: &(impl Abort + AllocGlobal + Print)) {
    let line = "0\tk\tbook\taffiliated=translator:Kwan, Kevin\taffiliated=director:A\t\
        affiliated=translator:B\taffiliated=translator:C\taffiliated=translator:D\t\
        affiliated=translator:E";
    let work = entry(rt, line);
    for (about, role, memory, number) in ROLES {
        let row = Row("Entry::affiliated_with_role", *about, *memory);
        asks!(rt, row, are_affiliated(rt.alloc(), &work, *role, *number));
    }
    drop(work);
}
