//! Copies of selectors and of their faults, compared with the original.
use crate::works::{selector, string};
use hayagriva::{Selector, SelectorError};

#[test]
fn copies_are_equal(rt: HostRuntime) {
    let original = selector(&rt, "*[date, url] > (n:blog | (!* & web))");
    let copy = original.try_clone(rt.alloc()).expect(&rt, "memory");
    assert!(rt; copy == original && copy != Selector::Wildcard);
    drop(copy);
    drop(original);
}

#[test]
fn copies_of_errors_are_equal(rt: HostRuntime) {
    let original = SelectorError::UnknownEntryType(string(&rt, "a"));
    let copy = original.try_clone(rt.alloc()).expect(&rt, "memory");
    assert!(rt; copy == original && copy != SelectorError::MissingComma);
    drop(copy);
    drop(original);
}
