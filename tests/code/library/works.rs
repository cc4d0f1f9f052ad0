//! Works of literature for tests: short ways to make entries, and selectors to ask of them. An
//! allocation that fails ends a test.
use hayagriva::types::{Date, EntryType, QualifiedUrl};
use hayagriva::{Entry, Selector};
use std::process::Abort;

pub(crate) fn string(rt: &(impl Abort + AllocGlobal), text: &str) -> String {
    String::from_str(rt.alloc(), text).expect(rt, "memory")
}

pub(crate) fn selector(rt: &(impl Abort + AllocGlobal), text: &str) -> Selector {
    Selector::parse(rt.alloc(), text).expect(rt, "a selector")
}

pub(crate) fn entry(rt: &(impl Abort + AllocGlobal), key: &str, kind: EntryType) -> Entry {
    Entry::new(rt.alloc(), key, kind).expect(rt, "memory")
}

// The same with a URL.
pub(crate) fn with_url(rt: &(impl Abort + AllocGlobal), key: &str, kind: EntryType) -> Entry {
    let mut made = entry(rt, key, kind);
    made.set_url(QualifiedUrl::new(string(rt, "https://aeon.co"), None));
    made
}

// The same with a date.
pub(crate) fn dated(rt: &(impl Abort + AllocGlobal), key: &str, kind: EntryType) -> Entry {
    let mut made = entry(rt, key, kind);
    made.set_date(Date::from_year(1961));
    made
}

// The entry with one parent more.
pub(crate) fn below(rt: &(impl Abort + AllocGlobal), mut child: Entry, parent: Entry) -> Entry {
    child.parents.push(parent).expect(rt, "memory");
    child
}
