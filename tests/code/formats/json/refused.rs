//! What is refused, and how that is shown. `tests/told` tries what is told and read past.
use haya_json::read_library;
use std::process::Abort;

// A text, and what its error shows.
const REFUSED: &[(&str, &str)] = &[
    ("", "line 1, column 1: invalid JSON"),
    ("{", "line 1, column 2: invalid JSON"),
    ("{'a': 1}", "line 1, column 2: invalid JSON"),
    (r#"{"a": 1,}"#, "line 1, column 9: invalid JSON"),
    (r#"{"a" 1}"#, "line 1, column 6: invalid JSON"),
    (r#"{"a": "b": 1}"#, "line 1, column 7: invalid JSON"),
    (r#"{"a": [1}"#, "line 1, column 9: invalid JSON"),
    (r#"{"a": 1]"#, "line 1, column 8: invalid JSON"),
    (r#"["a": 1]"#, "line 1, column 2: invalid JSON"),
    (r#"{"a": }"#, "line 1, column 7: invalid JSON"),
    ("[1, 2", "line 1, column 6: invalid JSON"),
    (r#"{"a": 1} x"#, "line 1, column 10: invalid JSON"),
    ("{} {}", "line 1, column 4: invalid JSON"),
    (
        "{\n  \"a\": {\"type\": \"misc\"},\n  \"é\": 1 2}",
        "line 3, column 10: invalid JSON",
    ),
    ("{\r\n\"a\": 01}\n", "line 2, column 6: invalid JSON"),
    (
        r#"{"a": {"type": "misc"}, "a": {"type": "misc"}}"#,
        "line 1, column 25: duplicate member",
    ),
    (
        r#"{"a": {"type": "misc", "x": {"y": 1, "\u0079": 2}}}"#,
        "line 1, column 38: duplicate member",
    ),
    (
        "{\"a\": [{\"x\": 1}, {\"x\": 2}],\n \"a\": 1,\n \"a\": 2}",
        "line 2, column 2: duplicate member",
    ),
    ("[]", ": expected an object"),
    ("null", ": expected an object"),
    (r#"{"a": null}"#, "/a: expected an object"),
    (r#"{"a/b~c": 1}"#, "/a~1b~0c: expected an object"),
    (
        r#"{"a": {"type": "misc"}, "b": 1, "c": []}"#,
        "/b: expected an object",
    ),
];

// Whether the text is refused with this message.
fn refuses(rt: &(impl Abort + AllocGlobal), text: &str, wanted: &str) -> bool {
    match read_library(rt.alloc(), text) {
        Ok(read) => {
            drop(read);
            false
        }
        Err(error) => {
            let shown = format!(in rt.alloc(); "{error}").expect(rt, "memory");
            shown.as_str() == wanted
        }
    }
}

#[test]
fn refuses_what_is_no_library(rt: HostRuntime) {
    for (text, wanted) in REFUSED {
        assert!(rt; refuses(&rt, *text, *wanted), "{text}");
    }
}
