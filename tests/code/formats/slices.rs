//! That a list is never taken for none, which no contract says, and that it is printed.
use haya_json_elements::Brackets;
use haya_slices::{element_slices, list_text};
use std::alloc::Global;
use std::process::Abort;

// A text, and how the elements of the list that it is are printed.
struct Row {
    brackets: Brackets,
    text: &'static str,
    printed: &'static str,
}

const ROWS: &[Row] = &[
    Row {
        brackets: Brackets::Square,
        text: "[]",
        printed: "[]\n",
    },
    Row {
        brackets: Brackets::Square,
        text: " [ \t\r\n ] \n",
        printed: "[]\n",
    },
    Row {
        brackets: Brackets::Square,
        text: "[1]",
        printed: "[\n1\n]\n",
    },
    Row {
        brackets: Brackets::Square,
        text: "\n[ 1 ,\r\n{\"a\" :\t2 }\n]",
        printed: "[\n1,\n{\"a\" :\t2 }\n]\n",
    },
    Row {
        brackets: Brackets::Square,
        text: "[\"],[\", \"\\\"\\\\\", [[],{}]]",
        printed: "[\n\"],[\",\n\"\\\"\\\\\",\n[[],{}]\n]\n",
    },
    Row {
        brackets: Brackets::Square,
        text: "[\"é😀\",\"日\" ]",
        printed: "[\n\"é😀\",\n\"日\"\n]\n",
    },
    Row {
        brackets: Brackets::Square,
        text: "[-1.5e+3,true,false,null]",
        printed: "[\n-1.5e+3,\ntrue,\nfalse,\nnull\n]\n",
    },
    Row {
        brackets: Brackets::Curly,
        text: "{}",
        printed: "{}\n",
    },
    Row {
        brackets: Brackets::Curly,
        text: "{\"a\":{\"b\":[1,2]}, \"c\" : 3 }\n",
        printed: "{\n\"a\":{\"b\":[1,2]},\n\"c\" : 3\n}\n",
    },
];

fn is_as_wanted(rt: &impl Abort, alloc: Global, row: &Row) {
    let found = element_slices(alloc, row.brackets, row.text).expect(rt, "memory is there");
    let elements = found.expect(rt, "the text is a list");
    let printed = list_text(alloc, row.brackets, elements.as_slice()).expect(rt, "memory is there");
    assert_eq!(rt; printed.as_str(), row.printed);
}

#[test]
fn lists_have_their_elements(rt: HostRuntime) {
    for row in ROWS {
        is_as_wanted(&rt, rt.alloc(), row);
    }
}

// Parts of an element, and what is as often behind each.
const PARTS: &[(&str, &str)] = &[
    ("{\"|", "|"),
    ("\\\"]}[{\\\\\":", " "),
    ("[[{}", "\n"),
    ("],-", "1"),
    (",\"é", "日"),
    ("\"]", "\t"),
    (",\"\":null}", ""),
];

// An element whose quotes and brackets are this far apart, as many bytes are looked at together.
fn element_of(rt: &impl Abort, alloc: Global, len: usize) -> String {
    let mut text = String::new(alloc);
    for (part, fill) in PARTS {
        text.push_str(part).expect(rt, "memory is there");
        for _ in 0..len {
            text.push_str(fill).expect(rt, "memory is there");
        }
    }
    text
}

#[test]
fn elements_end_wherever_their_brackets_are(rt: HostRuntime) {
    for len in 1..140 {
        let element = element_of(&rt, rt.alloc(), len);
        let mut text = String::new(rt.alloc());
        for part in ["[", element.as_str(), " ,\n", element.as_str(), "]"] {
            text.push_str(part).expect(&rt, "memory is there");
        }
        let found = element_slices(rt.alloc(), Brackets::Square, text.as_str()).expect(
            &rt,
            "memory is there",
        );
        let elements = found.expect(&rt, "the text is a list");
        assert!(rt; elements.len() == 2);
        for it in elements.as_slice() {
            assert_eq!(rt; *it, element.as_str());
        }
    }
}

#[test]
fn what_is_no_list_has_none(rt: HostRuntime) {
    for text in ["", "1", "[", "[1", "[1,", "[,]", "{}", "[1] 2", "[\"]"] {
        let found = element_slices(rt.alloc(), Brackets::Square, text).expect(
            &rt,
            "memory is there",
        );
        assert!(rt; found.is_none(), "{text}");
    }
}
