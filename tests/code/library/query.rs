//! Queries whose hits come one at a time, and texts that are no selectors. What loops holds a library by reference alone.
use crate::works::{below, entry, string};
use hayagriva::types::{EntryType, QualifiedUrl};
use hayagriva::{Entry, Library, Query, SelectorError, Steps};
use std::process::Abort;

fn insert(rt: &(impl Abort + AllocGlobal), library: &mut Library, entry: Entry) {
    library.insert(entry).expect(rt, "memory");
}

// A library of two entries.
fn library_of(rt: &(impl Abort + AllocGlobal), first: Entry, second: Entry) -> Library {
    let mut library = Library::new(rt.alloc());
    insert(rt, &mut library, first);
    insert(rt, &mut library, second);
    library
}

fn with_doi(rt: &(impl Abort + AllocGlobal), key: &str, doi: &str) -> Entry {
    let doi = string(rt, doi);
    let mut article = entry(rt, key, EntryType::Article);
    article.set_doi(doi).expect(rt, "memory");
    article
}

// An article with an address, on a blog.
fn feminism(rt: &(impl Abort + AllocGlobal)) -> Entry {
    let address = QualifiedUrl::new(string(rt, "https://aeon.co"), None);
    let mut feminism = entry(rt, "feminism", EntryType::Article);
    feminism.set_url(address);
    below(rt, feminism, entry(rt, "aeon", EntryType::Blog))
}

// An article with a DOI in a periodical, and one with an address on a blog.
fn articles(rt: &(impl Abort + AllocGlobal)) -> Library {
    let toplas = entry(rt, "toplas", EntryType::Periodical);
    let dependence = with_doi(rt, "dependence", "10.1145/24039.24041");
    library_of(rt, below(rt, dependence, toplas), feminism(rt))
}

// The key of the next hit, or nothing.
fn next_key<'s>(rt: &impl Abort, query: &mut Query<'s>) -> Option<&'s str> {
    let hit = query.next()?.expect(rt, "memory");
    let key = hit.entry.key();
    drop(hit);
    Some(key)
}

// Whether the next hit is the first, for one call of the evaluator.
fn gives_the_first(rt: &impl Abort, query: &mut Query) -> bool {
    let before = query.steps().seen();
    let key = next_key(rt, query);
    before == 0 && key == Some("dependence") && query.steps().seen() == 1
}

fn takes_the_first(rt: &(impl Abort + AllocGlobal), library: &Library) -> bool {
    let mut query = library.query_iter(rt.alloc(), "*").expect(rt, "memory");
    let given = gives_the_first(rt, &mut query);
    drop(query);
    given
}

#[test]
fn takes_one_hit(rt: HostRuntime) {
    let library = articles(&rt);
    assert!(rt; takes_the_first(&rt, &library));
    drop(library);
}

// The keys of the hits of a selector in turn, and the steps up to the last hit and in all.
struct Turn {
    text: &'static str,
    keys: &'static [&'static str],
    up_to_last: u64,
    all: u64,
}

const TURNS: &[Turn] = &[
    Turn {
        text: "*",
        keys: &["dependence", "feminism"],
        up_to_last: 2,
        all: 2,
    },
    Turn {
        text: "article > blog",
        keys: &["feminism"],
        up_to_last: 8,
        all: 8,
    },
    Turn {
        text: "* > periodical",
        keys: &["dependence"],
        up_to_last: 4,
        all: 8,
    },
    Turn {
        text: "book",
        keys: &[],
        up_to_last: 0,
        all: 2,
    },
];

fn gives_in_turn(rt: &impl Abort, query: &mut Query, turn: &Turn) -> bool {
    for key in turn.keys {
        if next_key(rt, query) != Some(*key) {
            return false;
        }
    }
    let up_to_last = query.steps().seen();
    let ended = next_key(rt, query).is_none() && next_key(rt, query).is_none();
    ended && up_to_last == turn.up_to_last && query.steps().seen() == turn.all
}

fn takes_all(rt: &(impl Abort + AllocGlobal), library: &Library, turn: &Turn) -> bool {
    let mut query = library
        .query_iter(rt.alloc(), turn.text)
        .expect(rt, "memory");
    let given = gives_in_turn(rt, &mut query, turn);
    drop(query);
    given
}

fn takes_turns(rt: &(impl Abort + AllocGlobal), library: &Library) {
    for turn in TURNS {
        assert!(rt; takes_all(rt, library, turn), "{}", turn.text);
    }
}

#[test]
fn gives_nothing_after_the_end(rt: HostRuntime) {
    let library = articles(&rt);
    takes_turns(&rt, &library);
    drop(library);
}

fn refuses(rt: &(impl Abort + AllocGlobal), library: &Library) {
    let fault = library.query_iter(rt.alloc(), "book[");
    assert!(rt; matches!(fault, Err(SelectorError::MalformedAttribute)));
    drop(fault);
    let mut steps = Steps::new();
    let fault = library.query(rt.alloc(), "book[", &mut steps);
    assert!(rt; matches!(fault, Err(SelectorError::MalformedAttribute)) && steps.seen() == 0);
    drop(fault);
}

#[test]
fn refuses_a_text(rt: HostRuntime) {
    let library = articles(&rt);
    refuses(&rt, &library);
    drop(library);
}
