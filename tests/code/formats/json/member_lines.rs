//! The members of a library, each on a line of its own.
use super::shown::put_library;
use crate::notes::notes_shown;
use haya_json::{Notes, read_member_line};
use hayagriva::{HashKeys, Library};
use json::Scratch;
use std::process::Abort;

// A line, and the entry that it says, with what is told of it.
const ENTRIES: &[(&str, &str)] = &[
    (r#""a":{"type":"misc"}"#, "a Misc \n"),
    // white space round tokens, and an escape in the name
    (
        "\t\"a\\u0062\" :\t{\"type\": \"book\", \"title\": \"T\"} ",
        "ab Book title=T;\n",
    ),
    (r#""":{"type":"misc"}"#, " Misc \n"),
    (
        r#""b":{"type":"article","x":1,"parent":{"key":"c","x":[]}}"#,
        "b Article (c Periodical )\nx 2, ",
    ),
    (
        r#""a":{"title":"T"}"#,
        "a Misc title=T;\na/type missing: , ",
    ),
    (
        r#""a/b":{"type":"x","date":"y"}"#,
        "a/b Misc \na/b/type unknown type: \"x\", a/b/date no date: \"y\", ",
    ),
];

// A line, and what its error shows.
const REFUSED: &[(&str, &str)] = &[
    ("", "line 1, column 1: invalid JSON"),
    (r#""a""#, "line 1, column 1: invalid JSON"),
    (r#""a":"#, "line 1, column 5: invalid JSON"),
    (r#"{"a":{"type":"misc"}}"#, "line 1, column 1: invalid JSON"),
    (r#"{"type":"misc"}"#, "line 1, column 1: invalid JSON"),
    // nothing may stand behind the member, and a comma at the end marks the place of a fault
    (r#""a":{"type":"misc"},"#, "line 1, column 20: invalid JSON"),
    (",", "line 1, column 1: invalid JSON"),
    (r#""a":{"type":"misc"}}"#, "line 1, column 20: invalid JSON"),
    (
        r#""a":{"type":"misc"},"b":{"type":"misc"}"#,
        "line 1, column 21: invalid JSON",
    ),
    (
        r#""a":{"é":1,"x":[{"y":1,"\u0079":2}]}"#,
        "line 1, column 24: duplicate member",
    ),
    (r#""a":1"#, "/a: expected an object"),
    (r#""a/b":[{"type":"x"}]"#, "/a~1b: expected an object"),
];

// The entry of a line, and behind it what is told.
fn shown(rt: &(impl Abort + AllocGlobal), line: &str) -> String {
    let mut notes = Notes::with_hash_keys(rt.alloc(), HashKeys::new(1, 2));
    let entry = read_member_line(
        rt.alloc(),
        line,
        &mut Scratch::new(rt.alloc()),
        &mut notes,
    ).expect(rt, "an entry");
    let mut library = Library::new(rt.alloc());
    library.insert(entry).expect(rt, "memory");
    let mut shown = String::new(rt.alloc());
    put_library(&mut shown, &library).expect(rt, "memory");
    drop(library);
    let told = notes_shown(rt, &notes);
    shown.push_str(told.as_str()).expect(rt, "memory");
    shown
}

// What the error of a line shows, or nothing where it has none.
fn message(rt: &(impl Abort + AllocGlobal), line: &str) -> String {
    let mut notes = Notes::with_hash_keys(rt.alloc(), HashKeys::new(1, 2));
    match read_member_line(rt.alloc(), line, &mut Scratch::new(rt.alloc()), &mut notes) {
        Ok(entry) => {
            drop(entry);
            String::new(rt.alloc())
        }
        Err(error) => format!(in rt.alloc(); "{error}").expect(rt, "memory"),
    }
}

// A line of a member whose value is so many arrays, each in the next.
fn nested(rt: &(impl Abort + AllocGlobal), depth: usize) -> String {
    let mut line = String::new(rt.alloc());
    line.push_str("\"a\":").expect(rt, "memory");
    for _ in 0..depth {
        line.push_str("[").expect(rt, "memory");
    }
    for _ in 0..depth {
        line.push_str("]").expect(rt, "memory");
    }
    line
}

#[test]
fn reads_a_member_of_a_library(rt: HostRuntime) {
    for (line, wanted) in ENTRIES {
        let shown = shown(&rt, *line);
        assert!(rt; shown.as_str() == *wanted, "{line}: {shown}");
    }
}

#[test]
fn refuses_what_is_no_member_of_a_library(rt: HostRuntime) {
    for (line, wanted) in REFUSED {
        let shown = message(&rt, *line);
        assert!(rt; shown.as_str() == *wanted, "{line}: {shown}");
    }
}

// One less than a text, since the object round the member is a level of it.
#[test]
fn a_member_nests_127_deep(rt: HostRuntime) {
    let shown = message(&rt, nested(&rt, 127).as_str());
    assert!(rt; shown.as_str() == "/a: expected an object");
    let shown = message(&rt, nested(&rt, 128).as_str());
    assert!(rt; shown.as_str() == "line 1, column 132: invalid JSON");
}
