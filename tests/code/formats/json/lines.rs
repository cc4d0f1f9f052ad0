//! Libraries as lines of JSON.
use super::shown::put_library;
use crate::notes::notes_shown;
use haya_json::{Notes, read_entry_line, read_json_lines};
use hayagriva::HashKeys;
use json::Scratch;
use std::process::Abort;

// A text, what its library shows as, and what is told of it.
const LIBRARIES: &[(&str, &str, &str)] = &[
    ("", "", ""),
    ("\n\r\n\n", "", ""),
    // with or without a line feed at the end
    (
        r#"{"key": "a", "entry": {"type": "misc"}}"#,
        "a Misc \n",
        "",
    ),
    // as hits are printed, with bindings
    (
        "{\"key\":\"a\",\"bindings\":{},\"entry\":{\"type\":\"book\",\"title\":\"T\"}}\n{\"key\":\
        \"b\",\"bindings\":{\"p\":\"c\"},\"entry\":{\"type\":\"article\",\"parent\":{\"key\":\"c\"\
        ,\"type\":\"web\"}}}\n",
        "a Book title=T;\nb Article (c Web )\n",
        "",
    ),
    // empty lines are skipped, and a carriage return before a line feed is dropped
    (
        "\r\n{\"key\": \"b\", \"entry\": {\"type\": \"misc\"}}\r\n\n{\"entry\": {\"type\": \"web\"\
        }, \"key\": \"a\"}\n\n",
        "b Misc \na Web \n",
        "",
    ),
    // white space round tokens, and a number for a key
    (
        " { \"entry\" : { \"type\" : \"misc\" } , \"key\" : 1.50 } ",
        "1.50 Misc \n",
        "",
    ),
    // a key that comes again replaces the entry in its place
    (
        "{\"key\": \"a\", \"entry\": {\"type\": \"misc\", \"title\": \"T\"}}\n{\"key\": \"b\", \
        \"entry\": {\"type\": \"misc\"}}\n{\"key\": \"a\", \"entry\": {\"type\": \"book\"}}",
        "a Book \nb Misc \n",
        "a again, ",
    ),
    // other members of a line are passed over, and only those of its entry are counted
    (
        "{\"x\": 1, \"key\": \"a\", \"entry\": {\"type\": \"misc\", \"x\": 1, \"key\": \"b\"}}\n\
        {\"key\": \"b\", \"entry\": {\"type\": \"article\", \"parent\": {\"y\": 1, \"key\": \"c\", \
        \"x\": []}}, \"rank\": {\"y\": [2]}}",
        "a Misc \nb Article (c Periodical )\n",
        "x 2, key 1, y 1, ",
    ),
];

// A text, and what the error of its first faulty line shows.
const REFUSED: &[(&str, &str)] = &[
    (r#"{"entry": {"type": "misc"}}"#, "line 1: /key: missing"),
    (r#"{"key": "a"}"#, "line 1: /entry: missing"),
    ("{}", "line 1: /key: missing"),
    (r#"[{"key": "a", "entry": {}}]"#, "line 1: /key: missing"),
    (
        r#"{"key": null, "entry": {"type": "misc"}}"#,
        "line 1: /key: missing",
    ),
    (
        r#"{"key": ["a"], "entry": {"type": "misc"}}"#,
        "line 1: /key: expected a text",
    ),
    (r#"{"key": "a", "entry": null}"#, "line 1: /entry: missing"),
    (
        r#"{"key": "a", "entry": []}"#,
        "line 1: /entry: expected an object",
    ),
    // a library in the file format is no line
    (r#"{"a": {"type": "misc"}}"#, "line 1: /key: missing"),
    // empty lines are counted
    (
        "\n{\"key\": \"a\", \"entry\": {\"type\": \"misc\"}}\n{\"key\": \"b\", \"entry\": 1}\n",
        "line 3: /entry: expected an object",
    ),
    // the first fault of two
    (
        "{\"key\": \"a\", \"entry\": \"king\"}\n{",
        "line 1: /entry: expected an object",
    ),
    // a place in a line that is no JSON: of a token, of its end
    (
        "{\"key\": \"a\", \"entry\": {\"type\": \"misc\"}}\n\n{\"key\": \"b\",}",
        "line 3, column 13: invalid JSON",
    ),
    (
        "\r\n{\r\n\"key\": \"a\", \"entry\": {\"type\": \"misc\"}}",
        "line 2, column 2: invalid JSON",
    ),
    (
        "{\"key\":\"a\",\"entry\":{\"type\":\"misc\"}} {\"key\":\"b\",\"entry\":{\"type\":\"misc\"}}",
        "line 1, column 37: invalid JSON",
    ),
    // a name twice
    (
        "{\"key\": \"a\", \"entry\": {\"type\": \"misc\"}}\r\n{\"key\": \"b\", \"key\": \"b\", \
        \"entry\": {\"type\": \"misc\"}}",
        "line 2, column 14: duplicate member",
    ),
    (
        r#"{"é": {"x": 1, "y": 2, "\u0078": 3}}"#,
        "line 1, column 24: duplicate member",
    ),
];

// The library, and behind it what is told.
fn shown(rt: &(impl Abort + AllocGlobal), text: &str) -> String {
    let keys = HashKeys::new(1, 2);
    let (library, notes) = read_json_lines(rt.alloc(), keys, text).expect(rt, "a library");
    let mut shown = String::new(rt.alloc());
    put_library(&mut shown, &library).expect(rt, "memory");
    drop(library);
    let told = notes_shown(rt, &notes);
    shown.push_str(told.as_str()).expect(rt, "memory");
    shown
}

// What the error of a text shows, or nothing where it has none.
fn message(rt: &(impl Abort + AllocGlobal), text: &str) -> String {
    match read_json_lines(rt.alloc(), HashKeys::new(1, 2), text) {
        Ok(read) => {
            drop(read);
            String::new(rt.alloc())
        }
        Err(error) => format!(in rt.alloc(); "{error}").expect(rt, "memory"),
    }
}

#[test]
fn reads_lines_of_json(rt: HostRuntime) {
    for (text, library, told) in LIBRARIES {
        let shown = shown(&rt, *text);
        let wanted = format!(in rt.alloc(); "{library}{told}").expect(&rt, "memory");
        assert!(rt; shown == wanted, "{text}: {shown}");
    }
}

#[test]
fn refuses_what_is_no_line_of_an_entry(rt: HostRuntime) {
    for (text, wanted) in REFUSED {
        let shown = message(&rt, *text);
        assert!(rt; shown.as_str() == *wanted, "{text}: {shown}");
    }
}

#[test]
fn reads_one_line(rt: HostRuntime) {
    let mut notes = Notes::with_hash_keys(rt.alloc(), HashKeys::new(1, 2));
    let line = r#"{"key": "a", "entry": {"type": "misc", "x": 1}}"#;
    let entry = read_entry_line(rt.alloc(), line, &mut Scratch::new(rt.alloc()), &mut notes).expect(
        &rt, "an entry",
    );
    assert!(rt; entry.key() == "a");
    drop(entry);
    // at a fault nothing is told
    let faulty = r#"{"key": [], "entry": {"type": "misc", "x": 1}}"#;
    let is_refused = read_entry_line(
        rt.alloc(),
        faulty,
        &mut Scratch::new(rt.alloc()),
        &mut notes,
    )
    .is_err();
    assert!(rt; is_refused && notes.ignored().count("x") == 1);
}
