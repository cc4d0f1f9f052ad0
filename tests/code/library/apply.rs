//! Selectors that no text reads as, and selectors at one entry after another. What loops holds an entry by reference alone.
use crate::works::{below, entry, selector, string, with_url};
use hayagriva::types::EntryType;
use hayagriva::{CompiledSelector, Entry, PreparedSelector, Selector, Steps};
use std::process::Abort;

#[derive(Clone, Copy)]
enum Work {
    Article,
    Blog,
    Book,
    WebWithUrl,
}

fn made(rt: &(impl Abort + AllocGlobal), work: Work) -> Entry {
    match work {
        Work::Article => entry(rt, "article", EntryType::Article),
        Work::Blog => entry(rt, "blog", EntryType::Blog),
        Work::Book => entry(rt, "book", EntryType::Book),
        Work::WebWithUrl => with_url(rt, "web", EntryType::Web),
    }
}

fn add_parents(rt: &(impl Abort + AllocGlobal), child: &mut Entry, parents: &[Work]) {
    for parent in parents {
        child.parents.push(made(rt, *parent)).expect(rt, "memory");
    }
}

fn article(rt: &(impl Abort + AllocGlobal), parents: &[Work]) -> Entry {
    let mut article = made(rt, Work::Article);
    add_parents(rt, &mut article, parents);
    article
}

// Whether the selector holds at an article without parents.
fn holds_alone(rt: &(impl Abort + AllocGlobal), selector: Selector) -> bool {
    let entry = made(rt, Work::Article);
    let holds = selector.matches(rt.alloc(), &entry).expect(rt, "memory");
    drop(entry);
    drop(selector);
    holds
}

// The selector as the right side of a `>` whose left side always holds.
fn above_any(rt: &(impl Abort + AllocGlobal), parents: Selector) -> Selector {
    let child = Box::new(rt.alloc(), Selector::Wildcard).expect(rt, "memory");
    let above = Box::new(rt.alloc(), parents).expect(rt, "memory");
    Selector::Ancestrage(child, above)
}

// No text reads as these: an `Alt` without members never holds, and a `Multi` without members
// always does on parents.
#[test]
fn lists_without_members(rt: HostRuntime) {
    assert!(rt; !holds_alone(&rt, Selector::Alt(Vec::new(rt.alloc()))));
    let above = above_any(&rt, Selector::Alt(Vec::new(rt.alloc())));
    assert!(rt; !holds_alone(&rt, above));
    let above = above_any(&rt, Selector::Multi(Vec::new(rt.alloc())));
    assert!(rt; holds_alone(&rt, above));
}

fn long_selector(rt: &(impl Abort + AllocGlobal)) -> String {
    let mut text = string(rt, "article > (book");
    for _ in 0..200 {
        text.push_str(" | misc").expect(rt, "memory");
    }
    text.push_str(" | a:web)").expect(rt, "memory");
    text
}

// The keys of what `a` and `b` are bound to, a dash where a name isn't bound, `no` where the
// selector doesn't hold.
fn keys_at<'e>(
    rt: &(impl Abort + AllocGlobal),
    selector: &mut PreparedSelector<'e>,
    entry: &'e Entry,
    steps: &mut Steps,
) -> String {
    let Some(map) = selector.apply(entry, steps).expect(rt, "memory") else {
        return string(rt, "no");
    };
    let mut keys = string(rt, "");
    for name in ["a", "b"] {
        let key = map.get(name).map_or("-", |bound| bound.key());
        keys.push_str(key).expect(rt, "memory");
    }
    keys
}

// What is bound at a web site and then at an article, and the calls in all.
fn keys_in_turn(
    rt: &(impl Abort + AllocGlobal),
    text: &str,
    web: &Entry,
    article: &Entry,
) -> (String, u64) {
    let read = selector(rt, text);
    let mut prepared = PreparedSelector::new(rt.alloc(), &read).expect(rt, "memory");
    let mut steps = Steps::new();
    let mut keys = keys_at(rt, &mut prepared, web, &mut steps);
    let next = keys_at(rt, &mut prepared, article, &mut steps);
    keys.push_str(next.as_str()).expect(rt, "memory");
    drop(prepared);
    drop(read);
    (keys, steps.seen())
}

// Each row: a selector, what is bound at each, and the calls at both.
const IN_TURN: &[(&str, &str, u64)] = &[
    ("a:web | b:article", "web--article", 3 + 5),
    ("article > a:blog", "noblog-", 2 + 5),
    ("book", "nono", 2),
];

// What a selector has bound at one entry is forgotten at the next.
#[test]
fn asked_of_one_after_another(rt: HostRuntime) {
    let web = made(&rt, Work::WebWithUrl);
    let blogs = article(&rt, &[Work::Blog; 150]);
    let article = below(&rt, blogs, made(&rt, Work::WebWithUrl));
    for (text, wanted, calls) in IN_TURN {
        let (keys, seen) = keys_in_turn(&rt, *text, &web, &article);
        assert!(rt; keys.as_str() == *wanted && seen == *calls, "{text}");
    }
    let text = long_selector(&rt);
    let (keys, _) = keys_in_turn(&rt, text.as_str(), &web, &article);
    assert_eq!(rt; keys.as_str(), "noweb-");
    drop(article);
    drop(web);
}

// What a selector answers at a new article over these parents, which is let go at once: `no`, or
// the key that `a` is bound to.
fn key_at_new(
    rt: &(impl Abort + AllocGlobal),
    compiled: &CompiledSelector,
    parents: &[Work],
    steps: &mut Steps,
) -> String {
    let entry = article(rt, parents);
    let key = match compiled.apply(&entry, steps).expect(rt, "memory") {
        Some(map) => string(rt, map.get("a").map_or("-", |bound| bound.key())),
        None => string(rt, "no"),
    };
    drop(entry);
    key
}

// Each row: the parents of an entry, what is bound at it, and the calls.
const LET_GO: &[(&[Work], &str, u64)] = &[
    (&[Work::Blog], "blog", 6),
    (&[], "no", 6),
    (&[Work::Book, Work::Blog], "blog", 7),
    (&[Work::Book], "no", 8),
];

// An entry that a compiled selector was asked of may be let go before the next one is made.
#[test]
fn asked_of_entries_that_are_let_go(rt: HostRuntime) {
    let read = selector(&rt, "article > (a:blog | web)");
    let compiled = CompiledSelector::new(rt.alloc(), &read).expect(&rt, "memory");
    drop(read);
    for (parents, wanted, calls) in LET_GO {
        let mut steps = Steps::new();
        let key = key_at_new(&rt, &compiled, *parents, &mut steps);
        assert!(rt;
            key.as_str() == *wanted && steps.seen() == *calls,
            "{wanted}"
        );
    }
    drop(compiled);
}
