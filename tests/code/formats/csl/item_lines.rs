//! The items of a list, each on a line of its own.
use crate::notes::notes_shown;
use haya_csl::{ItemKey, read_item_line};
use haya_json::{Notes, to_json};
use hayagriva::{HashKeys, Library};
use json::Scratch;
use std::process::Abort;

// A line, and the library of the entry that it says, with what is told of it.
const ENTRIES: &[(&str, &str)] = &[
    (r#"{"id":"a"}"#, r#"{"a":{"type":"misc"}}"#),
    // white space round tokens, a number for an id, and members that are passed over
    (
        "\t{ \"y\": 1, \"id\" : 1 ,\t\"type\": \"book\", \"x\": [{}], \"title\": \"T\" } ",
        r#"{"1":{"type":"book","title":"T"}}y 1, x 1, "#,
    ),
    (
        r#"{"id":"a","type":"chapter","container-title":"B"}"#,
        r#"{"a":{"type":"chapter","parent":{"type":"book","title":"B"}}}"#,
    ),
    (
        r#"{"id":"a","type":"tale","citation-key":"b"}"#,
        r#"{"b":{"type":"misc"}}b/type unknown type: "tale", "#,
    ),
];

// A line, and what its error shows.
const REFUSED: &[(&str, &str)] = &[
    ("", "line 1, column 1: invalid JSON"),
    (r#"{"id":"a""#, "line 1, column 10: invalid JSON"),
    // nothing may stand behind the item, and a comma at the end marks the place of a fault
    (r#"{"id":"a"},"#, "line 1, column 11: invalid JSON"),
    (",", "line 1, column 1: invalid JSON"),
    (r#"{"id":"a"}]"#, "line 1, column 11: invalid JSON"),
    (
        r#"{"id":"a"},{"id":"b"}"#,
        "line 1, column 12: invalid JSON",
    ),
    (r#""a":{"id":"a"}"#, "line 1, column 1: invalid JSON"),
    (
        r#"{"id":"a","id":"b"}"#,
        "line 1, column 11: duplicate member",
    ),
    // a tab in a line takes the place of a line feed in the text
    (
        "{\"id\":\"a\",\t\t \"id\":\"b\"}",
        "line 3, column 2: duplicate member",
    ),
    ("{\"id\":\t\"a\"", "line 2, column 4: invalid JSON"),
    (
        r#"{"é":"a","x":{"y":1,"\u0079":2}}"#,
        "line 1, column 21: duplicate member",
    ),
    (r#"["a"]"#, "/2: expected an object"),
    ("{}", "/2/id: missing"),
    (r#"{"citation-key":""}"#, "/2/id: missing"),
];

// No notes.
fn none(rt: &(impl Abort + AllocGlobal)) -> Notes {
    Notes::with_hash_keys(rt.alloc(), HashKeys::new(0, 0))
}

// The library of a line's entry, and behind it what is told of it.
fn shown(rt: &(impl Abort + AllocGlobal), line: &str) -> String {
    let (key, mut notes) = (ItemKey::CitationKey, none(rt));
    let entry = read_item_line(
        rt.alloc(),
        key,
        2,
        line,
        &mut Scratch::new(rt.alloc()),
        &mut notes,
    )
    .expect(rt, "an entry");
    let mut library = Library::new(rt.alloc());
    library.insert(entry).expect(rt, "memory");
    let json = to_json(rt.alloc(), &library).expect(rt, "memory");
    drop(library);
    let mut shown = String::from_utf8(json).expect(rt, "a text");
    let told = notes_shown(rt, &notes);
    shown.push_str(told.as_str()).expect(rt, "memory");
    shown
}

// What the error of a line shows, or nothing where it has none.
fn message(rt: &(impl Abort + AllocGlobal), line: &str) -> String {
    match read_item_line(
        rt.alloc(),
        ItemKey::CitationKey,
        2,
        line,
        &mut Scratch::new(rt.alloc()),
        &mut none(rt),
    ) {
        Ok(entry) => {
            drop(entry);
            String::new(rt.alloc())
        }
        Err(error) => format!(in rt.alloc(); "{error}").expect(rt, "memory"),
    }
}

// A line of so many arrays, each in the next.
fn nested(rt: &(impl Abort + AllocGlobal), depth: usize) -> String {
    let mut line = String::new(rt.alloc());
    for _ in 0..depth {
        line.push_str("[").expect(rt, "memory");
    }
    for _ in 0..depth {
        line.push_str("]").expect(rt, "memory");
    }
    line
}

#[test]
fn reads_an_item_of_a_list(rt: HostRuntime) {
    for (line, wanted) in ENTRIES {
        let shown = shown(&rt, *line);
        assert!(rt; shown.as_str() == *wanted, "{line}: {shown}");
    }
}

#[test]
fn refuses_what_is_no_item_of_a_list(rt: HostRuntime) {
    for (line, wanted) in REFUSED {
        let shown = message(&rt, *line);
        assert!(rt; shown.as_str() == *wanted, "{line}: {shown}");
    }
}

// One less than a text, since the list round the item is a level of it.
#[test]
fn an_item_nests_127_deep(rt: HostRuntime) {
    let shown = message(&rt, nested(&rt, 127).as_str());
    assert!(rt; shown.as_str() == "/2: expected an object");
    let shown = message(&rt, nested(&rt, 128).as_str());
    assert!(rt; shown.as_str() == "line 1, column 128: invalid JSON");
}
