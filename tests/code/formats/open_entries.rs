//! Rows: lines that are taken one after another, and the entries that they close.
use haya_line_library::OpenEntries;
use hayagriva::Entry;
use std::process::Abort;

// Lines, and the keys of what each closes: an entry's, and those of its parents.
const TAKEN: &[(&str, &str)] = &[
    ("0\ta\tbook", ""),
    ("1\tb\tweb", ""),
    ("2\tc\tblog\tlanguage=en", ""),
    ("", ""),
    ("1\td\tbook", ""),
    ("0\te\tbook", "a b d "),
    ("", ""),
    ("0\ta\tweb", "e "),
];

fn push_keys(rt: &(impl Abort + AllocGlobal), keys: &mut String, entry: &Entry) {
    keys.push_str(entry.key()).expect(rt, "memory");
    keys.push_str(" ").expect(rt, "memory");
}

fn closed_keys(rt: &(impl Abort + AllocGlobal), entries: &OpenEntries) -> String {
    let mut keys = String::new(rt.alloc());
    if let Some(entry) = entries.closed() {
        push_keys(rt, &mut keys, entry);
        for parent in entry.parents() {
            push_keys(rt, &mut keys, parent);
        }
    }
    keys
}

#[test]
fn lines_close_entries(rt: HostRuntime) {
    let mut entries = OpenEntries::new(rt.alloc());
    for (line, wanted) in TAKEN {
        entries
            .take_line(rt.alloc(), *line, 1)
            .expect(&rt, "a line");
        let keys = closed_keys(&rt, &entries);
        assert_eq!(rt; keys.as_str(), *wanted);
    }
    entries.end().expect(&rt, "memory");
    let keys = closed_keys(&rt, &entries);
    assert_eq!(rt; keys.as_str(), "a ");
    let last = entries.take_closed();
    assert!(rt; last.is_some() && entries.closed().is_none());
    drop(last);
    drop(entries);
}

// Lines behind one of depth 0, and why they are none.
const FAULTS: &[(&str, &str)] = &[
    ("2\tb\tbook", "line 7: depth"),
    ("1\tb", "line 7: shape"),
    ("1\tb\tbok", "line 7: type"),
    ("0\tb\tbook\tx=y", "line 7: field"),
    ("0\tb\tbook\tdate=x", "line 7: value"),
];

fn told(rt: &(impl Abort + AllocGlobal), line: &str) -> String {
    let mut entries = OpenEntries::new(rt.alloc());
    let first = entries.take_line(rt.alloc(), "0\ta\tbook", 1);
    let second = entries.take_line(rt.alloc(), line, 7);
    drop(entries);
    match first.and(second) {
        Ok(()) => String::new(rt.alloc()),
        Err(fault) => format!(in rt.alloc(); "{fault}").expect(rt, "memory"),
    }
}

#[test]
fn faults_have_the_number_of_their_line(rt: HostRuntime) {
    for (line, wanted) in FAULTS {
        let told = told(&rt, *line);
        assert_eq!(rt; told.as_str(), *wanted);
    }
}
