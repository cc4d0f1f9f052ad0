//! Libraries that are read back, and some that aren't.
use haya_entry::{Entry, EntryType};
use haya_json::{read_library, reads_back};
use haya_text::{FormatString, StringChunk};
use hayagriva::Library;
use std::process::Abort;

// An entry with so many ancestors above each other.
fn deep(rt: &(impl Abort + AllocGlobal), ancestors: usize) -> Entry {
    let mut entry = Entry::new(rt.alloc(), "top", EntryType::Misc).expect(rt, "memory");
    for _ in 0..ancestors {
        let mut child = Entry::new(rt.alloc(), "a", EntryType::Misc).expect(rt, "memory");
        child.parents.push(entry).expect(rt, "memory");
        entry = child;
    }
    entry
}

// Whether a library of one entry is read back.
fn is_back(rt: &(impl Abort + AllocGlobal), entry: Entry) -> bool {
    let mut library = Library::new(rt.alloc());
    library.insert(entry).expect(rt, "memory");
    let back = reads_back(rt.alloc(), &library).expect(rt, "memory");
    drop(library);
    back
}

#[test]
fn what_nests_too_deep_is_not_read_back(rt: HostRuntime) {
    assert!(rt; is_back(&rt, deep(&rt, 126)), "128 levels");
    assert!(rt; !is_back(&rt, deep(&rt, 127)), "129 levels");
    assert!(rt; !is_back(&rt, deep(&rt, 1_000)));
}

#[test]
fn a_text_of_an_empty_chunk_is_not_read_back(rt: HostRuntime) {
    let mut entry = deep(&rt, 0);
    let chunk = StringChunk::normal(String::new(rt.alloc()));
    entry.set_title(FormatString::from_chunk(rt.alloc(), chunk).expect(&rt, "memory"));
    assert!(rt; !is_back(&rt, entry));
}

#[test]
fn what_was_read_is_read_back(rt: HostRuntime) {
    let text = r#"{"a": {"type": "book", "title": "T", "parent": {"title": "{U}"}}}"#;
    let (library, notes) = read_library(rt.alloc(), text).expect(&rt, "a library");
    drop(notes);
    let back = reads_back(rt.alloc(), &library).expect(&rt, "memory");
    drop(library);
    assert!(rt; back);
}
