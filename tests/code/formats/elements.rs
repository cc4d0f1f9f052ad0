//! The elements of texts in JSON, each on a line of its own.
use haya_json_elements::{Brackets, ElementLines};
use std::io::Read;
use std::process::Abort;

// A text, and its lines in these brackets.
const ROWS: &[(&str, Brackets, &str)] = &[
    (
        r#"[1, {"a":[2]}, "x,]"]"#,
        Brackets::Square,
        "\n1\n\n{\"a\":[2]}\n\n\"x,]\"\n",
    ),
    (
        r#"{"a": 1,"b":"]}\""}"#,
        Brackets::Curly,
        "\n\"a\": 1\n\"b\":\"]}\\\"\"\n",
    ),
    ("[]", Brackets::Square, "\n\n"),
    (" [ ] ", Brackets::Square, "\n\n\n\n\n"),
    // white space in an element stays white space, and control characters in a string stay such
    (
        "[{\n \"a\"\r:\t1},\"a\nb\"]",
        Brackets::Square,
        "\n{\t \"a\" : 1}\n\"a\tb\"\n",
    ),
    // a comma at a line's end marks what can't stand there, and nothing comes behind it
    ("", Brackets::Square, ","),
    ("[1", Brackets::Square, "\n1,"),
    ("[\"a", Brackets::Square, "\n\"a,"),
    ("[1,]", Brackets::Square, "\n1\n,"),
    ("[,1]", Brackets::Square, "\n,\n\n"),
    ("[1}", Brackets::Square, "\n1,"),
    ("[1] 2", Brackets::Square, "\n1\n\n,"),
    ("{\"a\":1}", Brackets::Square, ",\n\n\n\n\n\n"),
    ("[1]", Brackets::Curly, ",\n\n"),
];

// The lines of a text, of which so many bytes are asked at a time.
fn lines_of(
    rt: &(impl Abort + AllocGlobal),
    text: &str,
    brackets: Brackets,
    size: usize,
) -> Vec<u8> {
    let mut lines = ElementLines::new(text.as_bytes(), brackets);
    let mut given = Vec::new(rt.alloc());
    let mut bytes = [0u8; 8];
    for _ in 0..1_000 {
        let room = bytes.get_mut(..size).expect(rt, "room");
        let count = lines.read(room).expect(rt, "bytes");
        if count == 0 {
            return given;
        }
        let read = bytes.get(..count).expect(rt, "bytes");
        given.extend_from_slice(read).expect(rt, "memory");
    }
    given
}

#[test]
fn puts_each_element_on_a_line(rt: HostRuntime) {
    for (text, brackets, wanted) in ROWS {
        for size in 1..9 {
            let given = lines_of(&rt, *text, *brackets, size);
            assert!(&rt;
                given.as_slice() == wanted.as_bytes(),
                "{text}, {size} bytes at a time"
            );
        }
    }
}
