//! Selectors and entries as deep as the program's input goes and deeper, and texts past ASCII.
use crate::works::{dated, entry, selector, string};
use hayagriva::types::EntryType;
use hayagriva::{Entry, PreparedSelector, Selector, Steps};
use std::process::Abort;

const DEPTH: usize = 500;

// A text of so many equal beginnings, a middle, and as many equal ends.
fn nested(
    rt: &(impl Abort + AllocGlobal),
    begin: &str,
    middle: &str,
    end: &str,
    times: usize,
) -> String {
    let mut text = string(rt, "");
    for _ in 0..times {
        text.push_str(begin).expect(rt, "memory");
    }
    text.push_str(middle).expect(rt, "memory");
    for _ in 0..times {
        text.push_str(end).expect(rt, "memory");
    }
    text
}

// An entry with so many ancestors, each the one parent of the one before. The last has a date.
fn chain(rt: &(impl Abort + AllocGlobal), ancestors: usize) -> Entry {
    let mut chain = dated(rt, "end", EntryType::Book);
    for _ in 0..ancestors {
        let mut link = entry(rt, "link", EntryType::Book);
        link.set_parents(vec![in rt.alloc(); chain].expect(rt, "memory"));
        chain = link;
    }
    chain
}

// Whether a selector holds at the entry with so many ancestors, and the evaluator's calls.
fn asked(rt: &(impl Abort + AllocGlobal), text: String, ancestors: usize) -> (bool, u64) {
    let read = selector(rt, text.as_str());
    drop(text);
    let entry = chain(rt, ancestors);
    let mut steps = Steps::new();
    let found = read
        .apply_counted(rt.alloc(), &entry, &mut steps)
        .expect(rt, "memory");
    let holds = found.is_some();
    drop(found);
    drop(entry);
    drop(read);
    (holds, steps.seen())
}

#[test]
fn deep_selectors_at_deep_entries(rt: HostRuntime) {
    let negated = nested(&rt, "!", "book", "", DEPTH);
    assert_eq!(rt; asked(&rt, negated, 0), (true, 501));
    let joined = nested(&rt, "* > ", "*", "", DEPTH);
    assert_eq!(rt; asked(&rt, joined, 1), (true, 1001));
    let above = nested(&rt, "* > (", "*", ")", DEPTH);
    assert_eq!(rt; asked(&rt, above, 500), (true, 1500));
    let above = nested(&rt, "* > (", "*", ")", DEPTH);
    assert!(rt; !asked(&rt, above, 499).0);
}

// How often a text is repeated in a long one. Not optimized, as `./test` runs it, a longer one
// takes minutes; `tests/long` asks the program itself for as many as an argument holds.
const LONG: usize = 20_000;

// A text that many times, and a value behind it.
fn long(rt: &(impl Abort + AllocGlobal), begin: &str, value: &str) -> Selector {
    let text = nested(rt, begin, value, "", LONG);
    let read = selector(rt, text.as_str());
    drop(text);
    read
}

// Whether the text is read, copied, compared and made ready, and each of these dropped.
fn is_carried(rt: &(impl Abort + AllocGlobal), begin: &str) -> bool {
    let read = long(rt, begin, "*");
    let other = long(rt, begin, "book");
    let copy = read.try_clone(rt.alloc()).expect(rt, "memory");
    let compared = copy == read && copy != other;
    drop(copy);
    drop(other);
    let prepared = PreparedSelector::new(rt.alloc(), &read).expect(rt, "memory");
    drop(prepared);
    drop(read);
    compared
}

// Without parentheses a selector is as long as memory allows.
#[test]
fn long_texts_take_no_stack(rt: HostRuntime) {
    for begin in ["* > ", "a:* > ", "!", "*|*&"] {
        assert!(rt; is_carried(&rt, begin), "{begin}");
    }
}

// Each row: a text that is repeated, and what a form of it begins and ends with when it is printed.
const SHOWN: &[(&str, &str, &str)] = &[
    ("* > ", "Ancestrage(", ", Wildcard)"),
    ("!", "Neg(", ")"),
    ("*|*&", "Multi([Alt([", ", Wildcard]), Wildcard])"),
];

fn is_shown(rt: &(impl Abort + AllocGlobal), begin: &str, opening: &str, closing: &str) -> bool {
    let read = long(rt, begin, "*");
    let shown = format!(in rt.alloc(); "{read:?}").expect(rt, "memory");
    drop(read);
    let wanted = nested(rt, opening, "Wildcard", closing, LONG);
    shown == wanted
}

#[test]
fn long_selectors_are_printed(rt: HostRuntime) {
    for (begin, opening, closing) in SHOWN {
        assert!(rt; is_shown(&rt, *begin, *opening, *closing), "{begin}");
    }
}

// Each row: a beginning, a text that is repeated, whether the whole holds at a book with one
// parent, and the evaluator's calls.
const HELD: &[(&str, &str, (bool, u64))] = &[
    ("", "* > ", (true, 40_001)),
    ("", "a:* > ", (true, 60_001)),
    ("book > ", "* > ", (true, 40_003)),
    ("web > ", "* > ", (false, 20_002)),
    ("", "!", (true, 20_001)),
    ("* > ", "!", (true, 20_003)),
    ("* > a:", "!", (true, 20_004)),
    ("", "*|*&", (false, 1)),
    ("* > ", "*|*&", (false, 7)),
];

#[test]
fn long_selectors_are_asked(rt: HostRuntime) {
    for (begin, repeated, wanted) in HELD {
        let mut text = string(&rt, *begin);
        let behind = nested(&rt, *repeated, "*", "", LONG);
        text.push_str(behind.as_str()).expect(&rt, "memory");
        drop(behind);
        assert_eq!(rt; asked(&rt, text, 1), *wanted, "{begin}{repeated}");
    }
}

// A chain of parents takes no stack where it is let go.
#[test]
fn a_chain_of_200_000_is_let_go(rt: HostRuntime) {
    drop(chain(&rt, 200_000));
}

// Copies and comparisons take a call for each entry, and look-ups a step for each entry at each
// depth: so these chains are shorter. `./test` builds the calls with larger frames than a program's.
const CALLED: usize = 2_000;

// Whether a copy is equal to the chain, and a shorter chain isn't.
fn is_copied(rt: &(impl Abort + AllocGlobal), chain: &Entry, shorter: &Entry) -> bool {
    let copy = chain.try_clone(rt.alloc()).expect(rt, "memory");
    let compared = copy == *chain && copy != *shorter;
    drop(copy);
    compared
}

#[test]
fn long_chains_are_copied_and_compared(rt: HostRuntime) {
    let (long, shorter) = (chain(&rt, CALLED), chain(&rt, CALLED - 1));
    assert!(rt; is_copied(&rt, &long, &shorter));
    drop(long);
    drop(shorter);
}

#[test]
fn long_chains_are_asked(rt: HostRuntime) {
    let joined = string(&rt, "book > book");
    assert!(rt; asked(&rt, joined, LONG).0);
    let long = chain(&rt, CALLED);
    let year = long.date_any().map(|date| date.year);
    drop(long);
    assert_eq!(rt; year, Some(1961));
}
