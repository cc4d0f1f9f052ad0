use super::lists::{none, one, put};
use haya_entry::{Entry, EntryType, Steps};
use haya_text::ReadText;
use haya_time::Date;
use haya_values::QualifiedUrl;
use std::process::Abort;

fn entry(rt: &(impl Abort + AllocGlobal), key: &str, parents: Vec<Entry>) -> Entry {
    let mut entry = Entry::new(rt.alloc(), key, EntryType::Misc).expect(rt, "memory");
    entry.set_parents(parents);
    entry
}

// An entry whose parents are a, whose parent is c, and b.
fn child(rt: &(impl Abort + AllocGlobal)) -> Entry {
    let c = entry(rt, "c", none(rt));
    let mut parents = one(rt, entry(rt, "a", one(rt, c)));
    put(rt, &mut parents, entry(rt, "b", none(rt)));
    entry(rt, "child", parents)
}

// The keys of the entries that are asked where nobody answers.
fn keys_asked(rt: &(impl Abort + AllocGlobal), child: &Entry, with_child: bool) -> String {
    let mut keys = String::new(rt.alloc());
    let ask = |asked: &Entry| -> Option<u8> {
        let _ = keys.push_str(asked.key());
        None
    };
    let answer = if with_child {
        child.map(ask)
    } else {
        child.map_parents(ask)
    };
    assert!(rt; answer.is_none());
    keys
}

// Whether these are the keys of the entries that are asked where nobody answers.
fn asks(rt: &(impl Abort + AllocGlobal), child: &Entry, with_child: bool, keys: &str) -> bool {
    keys_asked(rt, child, with_child).as_str() == keys
}

#[test]
fn asks_in_order(rt: HostRuntime) {
    let child = child(&rt);
    let asks_parents = asks(&rt, &child, false, "abc");
    let asks_all = asks(&rt, &child, true, "childabc");
    drop(child);
    assert!(rt; asks_parents && asks_all);
}

// The third that is asked answers, and nobody after it is asked.
#[test]
fn ends_at_the_answer(rt: HostRuntime) {
    let child = child(&rt);
    let mut calls = 0u8;
    let mut steps = Steps::new();
    let third = child.map_parents_counted(
        |asked: &Entry| {
            calls = calls.saturating_add(1);
            if calls == 3 { Some(asked.key()) } else { None }
        },
        &mut steps,
    );
    let is_c = third == Some("c");
    drop(child);
    assert!(rt; is_c && calls == 3);
    // The walk to the parents reaches a and b, the next one a and c.
    assert!(rt; steps.seen() == 4);
}

// The third call answers its count, and no fourth is made.
#[test]
fn makes_no_call_after_the_answer(rt: HostRuntime) {
    let child = child(&rt);
    let mut calls = 0u8;
    let count = child.map_parents(|_: &Entry| {
        calls = calls.saturating_add(1);
        if calls == 3 { Some(calls) } else { None }
    });
    drop(child);
    assert!(rt; count == Some(3) && calls == 3);
}

// A chain of 500 ancestors, of which the last alone answers.
#[test]
fn goes_to_the_end_of_a_chain(rt: HostRuntime) {
    let mut chain = entry(&rt, "end", none(&rt));
    for _ in 0..500u16 {
        chain = entry(&rt, "link", one(&rt, chain));
    }
    let found = chain.map_parents(|asked: &Entry| {
        if asked.key() == "end" {
            Some(asked.parents().len())
        } else {
            None
        }
    });
    drop(chain);
    assert!(rt; found == Some(0));
}

fn dated(mut entry: Entry, year: i32) -> Entry {
    entry.set_date(Date::from_year(year));
    entry
}

fn is_of_year(found: Option<&Date>, year: i32) -> bool {
    found == Some(&Date::from_year(year))
}

// Where neither an entry nor its parent has a date, that of the parent's parent is taken.
#[test]
fn finds_the_date_above(rt: HostRuntime) {
    let above = entry(&rt, "above", none(&rt));
    let child = entry(&rt, "child", one(&rt, above));
    let is_undated = child.date_any().is_none();
    drop(child);
    let above = dated(entry(&rt, "above", none(&rt)), 1961);
    let parent = entry(&rt, "parent", one(&rt, above));
    let child = entry(&rt, "child", one(&rt, parent));
    let is_of_above = is_of_year(child.date_any(), 1961);
    let child = dated(child, 2014);
    let is_of_child = is_of_year(child.date_any(), 2014);
    drop(child);
    assert!(rt; is_undated);
    assert!(rt; is_of_above);
    assert!(rt; is_of_child);
}

// The second parent comes before what is above the first.
#[test]
fn finds_the_nearest_date(rt: HostRuntime) {
    let above = dated(entry(&rt, "above", none(&rt)), 1900);
    let mut parents = one(&rt, entry(&rt, "first", one(&rt, above)));
    put(
        &rt,
        &mut parents,
        dated(entry(&rt, "second", none(&rt)), 2000),
    );
    let child = entry(&rt, "child", parents);
    let is_of_second = is_of_year(child.date_any(), 2000);
    drop(child);
    assert!(rt; is_of_second);
}

// A chain of 500 ancestors, of which the last alone is dated.
#[test]
fn finds_the_date_at_the_end_of_a_chain(rt: HostRuntime) {
    let mut chain = dated(entry(&rt, "end", none(&rt)), 1987);
    for _ in 0..500u16 {
        chain = entry(&rt, "link", one(&rt, chain));
    }
    let is_of_end = is_of_year(chain.date_any(), 1987);
    drop(chain);
    assert!(rt; is_of_end);
}

fn url(rt: &(impl Abort + AllocGlobal), text: &str) -> QualifiedUrl {
    let url: Result<QualifiedUrl, _> = ReadText::from_str(rt.alloc(), text);
    url.expect(rt, "memory")
}

fn is_url(found: Option<&QualifiedUrl>, text: &str) -> bool {
    match found {
        Some(url) => url.value.as_str() == text,
        None => false,
    }
}

#[test]
fn finds_the_address_above(rt: HostRuntime) {
    let mut site = entry(&rt, "site", none(&rt));
    site.set_url(url(&rt, "https://aeon.co"));
    let page = entry(&rt, "page", one(&rt, site));
    let mut child = entry(&rt, "child", one(&rt, page));
    let is_of_site = is_url(child.url_any(), "https://aeon.co");
    child.set_url(url(&rt, "https://aeon.co/essays"));
    let is_of_child = is_url(child.url_any(), "https://aeon.co/essays");
    drop(child);
    let child = entry(&rt, "child", none(&rt));
    let is_none = child.url_any().is_none();
    drop(child);
    assert!(rt; is_of_site);
    assert!(rt; is_of_child);
    assert!(rt; is_none);
}
