//! Copies through the trait.
use haya_text::TryClone;
use std::process::Abort;

// A copy of the value.
pub(crate) fn copied<T: TryClone>(rt: &(impl Abort + AllocGlobal), value: &T) -> T {
    value.try_clone(rt.alloc()).expect(rt, "memory")
}

// Whether a copy is equal.
pub(crate) fn has_copy<T: TryClone + PartialEq + Drop>(
    rt: &(impl Abort + AllocGlobal),
    value: &T,
) -> bool {
    let copy = copied(rt, value);
    let same = copy == *value;
    drop(copy);
    same
}
