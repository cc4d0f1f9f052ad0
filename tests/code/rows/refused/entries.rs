//! Entries, and lines that are read as entries.
use super::calls::{Change, changes, handed_back};
use super::marks::Memory::Taken;
use super::marks::Row;
use super::people::person;
use super::texts::string;
use haya_entry::Entry;
use haya_lines::read_line;
use haya_people::{Person, PersonRole};
use haya_text::OutOfMemory;
use std::alloc::Global;
use std::io::Print;
use std::process::Abort;

// The entry of a line of depth 0.
pub(crate) fn entry(rt: &(impl Abort + AllocGlobal), line: &str) -> Entry {
    let (_, entry) = read_line(rt.alloc(), line, 0).expect(rt, "an entry");
    entry
}

/// The entry with one parent more.
pub(crate) fn below(rt: &(impl Abort + AllocGlobal), mut child: Entry, parent: Entry) -> Entry {
    child.parents.push(parent).expect(rt, "memory");
    child
}

fn to_become(rt: &(impl Abort + AllocGlobal), from: &str, to: &str) -> Change<Entry> {
    Change {
        value: entry(rt, from),
        before: entry(rt, from),
        after: entry(rt, to),
    }
}

fn sets(entry: &mut Entry, key: &str, number: String) -> Result<bool, OutOfMemory> {
    match key {
        "doi" => entry.set_doi(number)?,
        "isbn" => entry.set_isbn(number)?,
        "issn" => entry.set_issn(number)?,
        "pmid" => entry.set_pmid(number)?,
        "pmcid" => entry.set_pmcid(number)?,
        _ => entry.set_arxiv(number)?,
    }
    Ok(true)
}

// The call, its key, and an entry that has this number.
const NAMED: &[(&str, &str, &str)] = &[
    ("Entry::set_doi", "doi", "0\tk\tbook\turl=x\tdoi=10.1/a"),
    ("Entry::set_isbn", "isbn", "0\tk\tbook\turl=x\tisbn=10.1/a"),
    ("Entry::set_issn", "issn", "0\tk\tbook\turl=x\tissn=10.1/a"),
    ("Entry::set_pmid", "pmid", "0\tk\tbook\turl=x\tpmid=10.1/a"),
    (
        "Entry::set_pmcid",
        "pmcid",
        "0\tk\tbook\turl=x\tpmcid=10.1/a",
    ),
    (
        "Entry::set_arxiv",
        "arxiv",
        "0\tk\tbook\turl=x\tarxiv=10.1/a",
    ),
];

pub(crate) fn named_serial_numbers(rt: &(impl Abort + AllocGlobal + Print)) {
    for (call, key, to) in NAMED {
        let mut given = to_become(rt, "0\tk\tbook\turl=x", *to);
        let first = string(rt, "10.1/a");
        changes!(
            rt,
            Row(*call, *key, Taken),
            given,
            sets(&mut given.value, *key, first),
            sets(&mut given.value, *key, string(rt, "10.1/a"))
        );
    }
}

fn parent(rt: &(impl Abort + AllocGlobal)) -> Entry {
    entry(rt, "0\tp\tblog\ttitle=A title")
}

fn with_parents(rt: &(impl Abort + AllocGlobal), count: usize) -> Entry {
    let mut child = entry(rt, "0\tk\tbook");
    for _ in 0..count {
        child = below(rt, child, parent(rt));
    }
    child
}

/// Adds a parent. Where it is refused, the parent comes back.
pub(crate) fn adds_parent(
    child: &mut Entry,
    parent: Entry,
    original: &Entry,
) -> Result<bool, OutOfMemory> {
    match child.add_parent(parent) {
        Ok(()) => Ok(true),
        Err(back) => handed_back(back, original),
    }
}

const COUNTS: &[usize] = &[0, 4];

pub(crate) fn add_parent(rt: &(impl Abort + AllocGlobal + Print)) {
    let original = parent(rt);
    for count in COUNTS {
        let mut given = Change {
            value: with_parents(rt, *count),
            before: with_parents(rt, *count),
            after: with_parents(rt, count.saturating_add(1)),
        };
        let row = Row("Entry::add_parent", "behind none or four", Taken);
        let first = parent(rt);
        changes!(
            rt,
            row,
            given,
            adds_parent(&mut given.value, first, &original),
            adds_parent(&mut given.value, parent(rt), &original)
        );
    }
    drop(original);
}

type Affiliated = (Vec<Person>, PersonRole);

fn affiliated(rt: &(impl Abort + AllocGlobal)) -> Affiliated {
    let names = vec![in rt.alloc(); person(rt, "Kwan, Kevin")].expect(rt, "memory");
    (names, PersonRole::Translator)
}

// Where it is refused, the persons and the role come back.
fn adds_affiliated(
    entry: &mut Entry,
    persons: Affiliated,
    original: &Affiliated,
) -> Result<bool, OutOfMemory> {
    match entry.add_affiliated_persons(persons) {
        Ok(()) => Ok(true),
        Err(back) => handed_back(back, original),
    }
}

// An entry before a translator is added, and after it.
const AFFILIATED: &[(&str, &str)] = &[
    (
        "0\tk\tbook",
        "0\tk\tbook\taffiliated=translator:Kwan, Kevin",
    ),
    (
        "0\tk\tbook\taffiliated=director:A\taffiliated=director:B\taffiliated=director:C\t\
            affiliated=director:D",
        "0\tk\tbook\taffiliated=director:A\taffiliated=director:B\taffiliated=director:C\t\
            affiliated=director:D\taffiliated=translator:Kwan, Kevin",
    ),
];

pub(crate) fn add_affiliated_persons(rt: &(impl Abort + AllocGlobal + Print)) {
    let original = affiliated(rt);
    for (from, to) in AFFILIATED {
        let row = Row(
            "Entry::add_affiliated_persons",
            "behind none or four",
            Taken,
        );
        let mut given = to_become(rt, *from, *to);
        let first = affiliated(rt);
        changes!(
            rt,
            row,
            given,
            adds_affiliated(&mut given.value, first, &original),
            adds_affiliated(&mut given.value, affiliated(rt), &original)
        );
    }
    drop(original);
}

/// Whether an entry is copied: `Entry` has a call for that, and no `TryClone`.
pub(crate) fn is_copied(alloc: Global, original: &Entry) -> Result<bool, OutOfMemory> {
    let copy = original.try_clone(alloc)?;
    let is_equal = copy == *original;
    drop(copy);
    Ok(is_equal)
}
