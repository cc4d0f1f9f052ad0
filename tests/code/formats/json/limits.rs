//! Deep, wide and long texts, and texts that end early.
use haya_json::{Position, ReadError, read_library};
use std::process::Abort;

// A library whose one entry has so many parents above each other: it nests two levels deeper.
fn nested(rt: &(impl Abort + AllocGlobal), parents: usize) -> String {
    let mut text = String::new(rt.alloc());
    text.push_str(r#"{"a": {"type": "misc""#)
        .expect(rt, "memory");
    for _ in 0..parents {
        text.push_str(r#", "parent": {"title": "T""#)
            .expect(rt, "memory");
    }
    for _ in 0..parents {
        text.push_str("}").expect(rt, "memory");
    }
    text.push_str("}}").expect(rt, "memory");
    text
}

// Whether the text is read as a library. One that isn't is no JSON.
fn is_read(rt: &(impl Abort + AllocGlobal), text: &str) -> bool {
    match read_library(rt.alloc(), text) {
        Ok(read) => {
            drop(read);
            true
        }
        Err(error) => {
            assert!(rt; matches!(error, ReadError::NotJson(_)), "{error}");
            false
        }
    }
}

#[test]
fn nests_to_128(rt: HostRuntime) {
    let deepest = nested(&rt, 126);
    assert!(rt; is_read(&rt, deepest.as_str()));
    let deeper = nested(&rt, 127);
    assert!(rt; !is_read(&rt, deeper.as_str()));
}

#[test]
fn tells_where_it_nests_deeper(rt: HostRuntime) {
    let mut text = String::new(rt.alloc());
    for _ in 0..130 {
        text.push_str("[\n").expect(&rt, "memory");
    }
    let position = match read_library(rt.alloc(), text.as_str()) {
        Err(ReadError::NotJson(position)) => Some(position),
        _ => None,
    };
    let wanted = Position {
        line: 129,
        column: 1,
    };
    assert_eq!(rt; position, Some(wanted));
}

#[test]
fn reads_many_members(rt: HostRuntime) {
    let mut text = String::new(rt.alloc());
    text.push_str(r#"{"a": {"type": "misc""#)
        .expect(&rt, "memory");
    for place in 0..100_000 {
        write!(text, ", \"n{place}\": 0").expect(&rt, "memory");
    }
    text.push_str("}}").expect(&rt, "memory");
    let (library, notes) = read_library(rt.alloc(), text.as_str()).expect(&rt, "a library");
    assert!(rt; library.len() == 1);
    drop(library);
    let mut names = 0_usize;
    for (_, count) in notes.ignored() {
        assert!(rt; count == 1);
        names = names.saturating_add(1);
    }
    assert!(rt; names == 100_000);
}

#[test]
fn reads_a_key_of_a_megabyte(rt: HostRuntime) {
    let mut key = String::new(rt.alloc());
    for _ in 0..100_000 {
        key.push_str("0123456789").expect(&rt, "memory");
    }
    let text = format!(in rt.alloc(); "{{\"{key}\": {{\"type\": \"misc\"}}}}");
    let text = text.expect(&rt, "memory");
    let (library, _notes) = read_library(rt.alloc(), text.as_str()).expect(&rt, "a library");
    let found = library.get(key.as_str()).is_some();
    drop(library);
    assert!(rt; found);
}

#[test]
fn refuses_each_text_that_ends_early(rt: HostRuntime) {
    let text = r#"{"a": {"type": "misc", "date": 2014, "author": ["A", "B"], "x": [true, null]}}"#;
    for end in 0..text.len() {
        let Some(part) = text.get(..end) else {
            continue;
        };
        assert!(rt; !is_read(&rt, part), "{end}");
    }
    assert!(rt; is_read(&rt, text));
}
