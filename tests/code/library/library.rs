//! Libraries at worked rows. What loops holds a library by reference alone.
use crate::works;
use hayagriva::types::EntryType;
use hayagriva::types::EntryType::{Blog, Book, Web};
use hayagriva::{Entry, HashKeys, Library};
use std::io;
use std::process::Abort;
use std::random::RandomSource;

type Row<'a> = (&'a str, EntryType);

fn push_entry(rt: &(impl Abort + AllocGlobal), library: &mut Library, row: Row) {
    let entry = works::entry(rt, row.0, row.1);
    library.push(&entry).expect(rt, "memory");
    drop(entry);
}

fn push_rows(rt: &(impl Abort + AllocGlobal), library: &mut Library, rows: &[Row]) {
    for row in rows {
        push_entry(rt, library, *row);
    }
}

fn library_of(rt: &(impl Abort + AllocGlobal), rows: &[Row]) -> Library {
    let mut library = Library::new(rt.alloc());
    push_rows(rt, &mut library, rows);
    library
}

fn row(entry: Option<&Entry>) -> Option<Row> {
    match entry {
        Some(entry) => Some((entry.key.as_str(), entry.entry_type)),
        None => None,
    }
}

// Whether the keys are these, one after the other.
fn has_keys(library: &Library, wanted: &[Option<&str>]) -> bool {
    let mut keys = library.keys();
    for key in wanted {
        if keys.next() != *key {
            return false;
        }
    }
    true
}

// Whether the entries are these, one after the other.
fn has_entries(library: &Library, wanted: &[Option<Row>]) -> bool {
    let mut entries = library.into_iter();
    for found in wanted {
        if row(entries.next()) != *found {
            return false;
        }
    }
    true
}

// A place, a key, and what stands there and has that key.
const FOUND: &[(usize, &str, Option<Row>)] = &[
    (0, "a", Some(("a", Book))),
    (1, "b", Some(("b", Web))),
    (2, "c", None),
];

fn finds_all(library: &Library) -> bool {
    for (place, key, found) in FOUND {
        if row(library.nth(*place)) != *found || row(library.get(*key)) != *found {
            return false;
        }
    }
    true
}

#[test]
fn a_known_key_keeps_its_place(rt: HostRuntime) {
    let library = library_of(&rt, &[("a", Blog), ("b", Web), ("a", Book)]);
    assert_eq!(rt; library.len(), 2);
    assert!(rt; has_keys(&library, &[Some("a"), Some("b"), None, None]));
    assert!(rt; finds_all(&library));
    drop(library);
}

// Whether what is removed is this.
fn removes(library: &mut Library, key: &str, found: Option<Row>) -> bool {
    let removed = library.remove(key);
    let is_found = row(removed.as_ref()) == found;
    drop(removed);
    is_found
}

#[test]
fn a_removal_closes_up(rt: HostRuntime) {
    let mut library = library_of(&rt, &[("a", Book), ("b", Web)]);
    assert!(rt; removes(&mut library, "a", Some(("a", Book))));
    assert!(rt; row(library.nth(0)) == Some(("b", Web)));
    assert!(rt; removes(&mut library, "a", None));
    assert!(rt; row(library.nth(0)) == Some(("b", Web)));
    drop(library);
}

#[test]
fn iterators_go_in_order_and_end(rt: HostRuntime) {
    let given = library_of(&rt, &[("b", Web), ("a", Blog)]);
    let library = Library::from_entries(rt.alloc(), given.into_iter()).expect(&rt, "memory");
    let order = [Some(("b", Web)), Some(("a", Blog)), None, None];
    assert!(rt; has_entries(&library, &order));
    drop(library);
}

fn equals_its_copy(rt: &(impl Abort + AllocGlobal), library: &Library) -> bool {
    let copy = library.try_clone(rt.alloc()).expect(rt, "memory");
    let equal = copy == *library;
    drop(copy);
    equal
}

// Rows, and whether a library of them equals that of `a` and `b`.
const OTHERS: &[(&[Row], bool)] = &[
    (&[("b", Web), ("a", Book)], true),
    (&[("b", Web), ("a", Blog)], false),
    (&[("a", Book), ("a", Book)], false),
];

// Whether `==`, from both sides, says so of the library and one of these rows.
fn compares(rt: &(impl Abort + AllocGlobal), library: &Library, rows: &[Row], equal: bool) -> bool {
    let other = library_of(rt, rows);
    let there = other == *library;
    let back = *library == other;
    drop(other);
    there == equal && back == equal
}

fn compares_with_others(rt: &(impl Abort + AllocGlobal), library: &Library) -> bool {
    for (rows, equal) in OTHERS {
        if !compares(rt, library, *rows, *equal) {
            return false;
        }
    }
    true
}

#[test]
fn libraries_are_equal_in_any_order(rt: HostRuntime) {
    let library = library_of(&rt, &[("a", Book), ("b", Web)]);
    assert!(rt; !library.is_empty());
    assert!(rt; equals_its_copy(&rt, &library));
    assert!(rt; compares_with_others(&rt, &library));
    drop(library);
}

#[test]
fn an_empty_library_has_no_entries(rt: HostRuntime) {
    let library = Library::new(rt.alloc());
    assert!(rt; library.is_empty() && library.iter().next().is_none());
    drop(library);
}

// A source that has nothing to give.
struct DrySource;

impl RandomSource for DrySource {
    fn fill_bytes(&self, _buf: &mut [u8]) -> io::Result<()> {
        Err(io::Error::from(io::ErrorKind::Other))
    }
}

// Whether a library with these keys answers as any other does.
fn answers_alike(rt: &(impl Abort + AllocGlobal), keys: HashKeys) -> bool {
    let mut library = Library::with_hash_keys(rt.alloc(), keys);
    push_rows(rt, &mut library, &[("a", Book), ("b", Web), ("a", Blog)]);
    let other = library_of(rt, &[("a", Blog), ("b", Web)]);
    let alike = has_entries(&library, &[Some(("a", Blog)), Some(("b", Web)), None])
        && row(library.get("b")) == Some(("b", Web))
        && library.get("c").is_none()
        && library == other
        && equals_its_copy(rt, &library);
    drop(other);
    drop(library);
    alike
}

#[test]
fn hash_keys_change_no_answer(rt: HostRuntime) {
    assert!(rt; answers_alike(&rt, HashKeys::new(1, 2)));
    assert!(rt; answers_alike(&rt, HashKeys::new(u64::MAX, 0)));
    let random = HashKeys::random(&rt).expect(&rt, "random bytes");
    assert!(rt; answers_alike(&rt, random));
    assert!(rt; HashKeys::random(&DrySource).is_err());
}
