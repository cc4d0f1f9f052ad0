//! What is told of a library.
use crate::notes::{first_shown, notes_shown};
use haya_csl::{ItemKey, read_csl_json};

// A library, what is told of it, and the first note of all.
const ROWS: &[(&str, &str, &str)] = &[
    ("[]", "", ""),
    (r#"[{"id":"a","type":"","x":null,"translator":[]}]"#, "", ""),
    // names are counted over all items, in the order in which they first come
    (
        r#"{"z":1,"items":[{"id":"a","x":1,"source":"S"},{"id":"b","x":{"y":1}}]}"#,
        "x 2, source 1, ",
        "a/x x",
    ),
    (
        r#"[{"id":"a","author":[{"family":"F","x":1}],"note":"n","annote":"m"}]"#,
        "author, member x 1, annote beside note 1, ",
        "a/author/0/x author, member x",
    ),
    // the other notes, in the order of the text
    (
        r#"[{"id":"a","type":"tale","x":1},{"id":"b"},{"id":"a","volume":[1, 2]}]"#,
        "x 1, a/type unknown type: \"tale\", a again, a/volume expected a text: [1,2], ",
        "a/type unknown type: \"tale\"",
    ),
    (
        concat!(
            r#"[{"id":"a"},{"id":"a"},{"id":"a"},{"id":"a"},{"id":"a"},{"id":"a"},{"id":"a"},"#,
            r#"{"id":"a"},{"id":"a"},{"id":"a"},{"id":"a"},{"id":"a"},{"id":"a"}]"#,
        ),
        concat!(
            "a again, a again, a again, a again, a again, ",
            "a again, a again, a again, a again, a again, 2 more",
        ),
        "a again",
    ),
];

#[test]
fn tells_what_is_lost(rt: HostRuntime) {
    for (text, wanted, wanted_first) in ROWS {
        let (library, notes) = read_csl_json(rt.alloc(), ItemKey::CitationKey, *text).expect(
            &rt,
            "a library",
        );
        drop(library);
        let shown = notes_shown(&rt, &notes);
        assert!(rt; shown.as_str() == *wanted, "{text}: {shown}");
        let first = first_shown(&rt, &notes);
        assert!(rt; first.as_str() == *wanted_first, "{text}: {first}");
    }
}
