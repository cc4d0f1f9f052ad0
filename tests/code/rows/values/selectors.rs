//! Selectors: what is read, where it holds and what it binds there.
use crate::values::entries::library;
use crate::values::row::{
    Row, RowError, put as put_column, put_debugged, put_fault, put_maybe, put_shown,
};
use haya_hits::bindings;
use hayagriva::{
    BoundSelect, CompiledSelector, Entry, Hit, Library, PreparedSelector, Selector, SelectorError,
    Steps,
};
use std::alloc::Global;

pub fn put(alloc: Global, row: &Row, out: &mut String) -> Result<(), RowError> {
    match row.word(0)? {
        "selector" => put_selector(alloc, row.word(1)?, out),
        "apply" => {
            let selector = parsed(alloc, row.word(1)?)?;
            let put = apply(alloc, &selector, row.word(2)?, out);
            drop(selector);
            put
        }
        "query" => {
            let library = library(alloc, row.word(2)?)?;
            let put = put_query(alloc, &library, row.word(1)?, out);
            drop(library);
            put
        }
        _ => Err(RowError::Malformed),
    }
}

fn fault_of(fault: SelectorError) -> RowError {
    match fault {
        SelectorError::OutOfMemory => RowError::OutOfMemory,
        _ => RowError::Malformed,
    }
}

fn parsed(alloc: Global, text: &str) -> Result<Selector, RowError> {
    Selector::parse(alloc, text).map_err(fault_of)
}

// The selector, or why there is none, and the place of the fault.
fn put_selector(alloc: Global, text: &str, out: &mut String) -> Result<(), RowError> {
    match Selector::parse(alloc, text) {
        Ok(selector) => {
            let put = put_copy(alloc, &selector, out);
            drop(selector);
            put?;
        }
        Err(SelectorError::OutOfMemory) => return Err(RowError::OutOfMemory),
        Err(fault) => {
            let fault = fault.try_clone(alloc)?;
            put_fault(alloc, out, &fault)?;
        }
    }
    match Selector::fault_place(alloc, text)? {
        Some(place) => put_shown(alloc, out, &place),
        None => put_maybe(out, None),
    }
}

fn put_copy(alloc: Global, selector: &Selector, out: &mut String) -> Result<(), RowError> {
    let copy = selector.try_clone(alloc)?;
    let put = if copy == *selector {
        put_debugged(alloc, out, &copy)
    } else {
        put_column(out, "unlike")
    };
    drop(copy);
    put
}

// What a selector answers at the first entry of a library.
fn apply(
    alloc: Global,
    selector: &Selector,
    lines: &str,
    out: &mut String,
) -> Result<(), RowError> {
    let library = library(alloc, lines)?;
    let put = put_applied(alloc, selector, &library, out);
    drop(library);
    put
}

// How often the evaluator is called, and `no`, or `yes` and what is bound.
fn put_applied(
    alloc: Global,
    selector: &Selector,
    library: &Library,
    out: &mut String,
) -> Result<(), RowError> {
    let entry = library.nth(0).ok_or(RowError::Malformed)?;
    let mut steps = Steps::new();
    let found = selector.apply_counted(alloc, entry, &mut steps)?;
    put_shown(alloc, out, &steps.seen())?;
    let holds = found.is_some();
    let mut told = String::new(alloc);
    if let Some(bindings) = found {
        let hit = Hit { entry, bindings };
        push_bound(alloc, &mut told, &hit)?;
        ask_names(alloc, selector, &hit, &mut told)?;
    }
    if !alike(alloc, selector, entry, holds)? {
        told.push_str(" unlike")?;
    }
    put_column(out, if holds { "yes" } else { "no" })?;
    put_column(out, told.as_str())
}

// Puts each name that is bound, and the key of its entry, behind a blank each.
fn push_bound(alloc: Global, text: &mut String, hit: &Hit) -> Result<(), RowError> {
    for (name, bound) in bindings(alloc, hit)? {
        if !text.is_empty() {
            text.push(' ')?;
        }
        write!(text, "{name}={}", bound.key())?;
    }
    Ok(())
}

// The names that selectors in rows bind.
const NAMES: [&str; 4] = ["a", "b", "c", "i"];

// Says where a name is bound otherwise when it is asked for alone.
fn ask_names(
    alloc: Global,
    selector: &Selector,
    hit: &Hit,
    told: &mut String,
) -> Result<(), RowError> {
    for name in NAMES {
        let wanted = hit.bindings.get(name).map(|bound| bound.key());
        let alone = selector.bound(alloc, hit.entry, name)?;
        let selected = hit.entry.bound_select(alloc, selector, name)?;
        if alone.map(Entry::key) != wanted || selected.map(Entry::key) != wanted {
            told.push_str(" unlike")?;
        }
    }
    Ok(())
}

// Whether all other ways of asking say that it holds, or that it doesn't.
fn alike(alloc: Global, selector: &Selector, entry: &Entry, holds: bool) -> Result<bool, RowError> {
    let is_applied = selector.apply(alloc, entry)?.is_some();
    let is_matched = selector.matches(alloc, entry)?;
    let compiled = CompiledSelector::new(alloc, selector)?;
    let is_compiled = compiled.apply(entry, &mut Steps::new())?.is_some();
    drop(compiled);
    let mut prepared = PreparedSelector::new(alloc, selector)?;
    let first = prepared.apply(entry, &mut Steps::new())?.is_some();
    let second = prepared.apply(entry, &mut Steps::new())?.is_some();
    drop(prepared);
    let others = [is_applied, is_matched, is_compiled, first, second];
    Ok(others.iter().all(|other| *other == holds))
}

// How often the evaluator is called, and a column for each hit.
fn put_query(
    alloc: Global,
    library: &Library,
    text: &str,
    out: &mut String,
) -> Result<(), RowError> {
    let mut steps = Steps::new();
    let hits = library.query(alloc, text, &mut steps).map_err(fault_of)?;
    let mut told = String::new(alloc);
    for hit in hits.as_slice() {
        put_hit(alloc, &mut told, hit)?;
    }
    drop(hits);
    let mut again = String::new(alloc);
    let seen = ask_in_turn(alloc, library, text, &mut again)?;
    put_shown(alloc, out, &steps.seen())?;
    if again != told || seen != steps.seen() {
        put_column(out, "unlike")?;
    }
    out.push_str(told.as_str())?;
    Ok(())
}

fn put_hit(alloc: Global, out: &mut String, hit: &Hit) -> Result<(), RowError> {
    let mut bound = String::new(alloc);
    push_bound(alloc, &mut bound, hit)?;
    let blank = if bound.is_empty() { "" } else { " " };
    let told = format!(in alloc; "{}{blank}{bound}", hit.entry.key())?;
    put_column(out, told.as_str())
}

// The same hits one after the other.
fn ask_in_turn(
    alloc: Global,
    library: &Library,
    text: &str,
    out: &mut String,
) -> Result<u64, RowError> {
    let mut query = library.query_iter(alloc, text).map_err(fault_of)?;
    for hit in &mut query {
        put_hit(alloc, out, &hit.map_err(fault_of)?)?;
    }
    Ok(query.steps().seen())
}
