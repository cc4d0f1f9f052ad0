//! Lists of parents.
use haya_entry::Entry;
use std::process::Abort;

pub(super) fn none(rt: &(impl Abort + AllocGlobal)) -> Vec<Entry> {
    Vec::new(rt.alloc())
}

pub(super) fn one(rt: &(impl Abort + AllocGlobal), parent: Entry) -> Vec<Entry> {
    let mut parents = none(rt);
    put(rt, &mut parents, parent);
    parents
}

// Puts a parent behind the others.
pub(super) fn put(rt: &(impl Abort + AllocGlobal), parents: &mut Vec<Entry>, parent: Entry) {
    parents.push(parent).expect(rt, "memory");
}
