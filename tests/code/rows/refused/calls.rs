//! The ways in which a call is tried. What a call answers is told by `Ok(true)` for the wanted
//! value, by `Ok(false)` for any other, and by the refusal. After a refusal the call is made once
//! more, memory being there. Each way is a macro, which writes the call in both places.
use super::marks::{Row, end, normal, out_of_memory};
use haya_text::{OutOfMemory, TryClone};
use std::alloc::Global;
use std::io::Print;
use std::process::Abort;

/// Whether the call was refused. Where it was not, it has its normal answer.
pub(crate) fn is_refused(
    rt: &(impl Abort + AllocGlobal),
    heard: bool,
    answer: Result<bool, OutOfMemory>,
) -> bool {
    end(rt, heard);
    match answer {
        Ok(is_wanted) => {
            assert!(rt; is_wanted, "not the wanted answer");
            normal(rt, heard);
            false
        }
        Err(OutOfMemory) => true,
    }
}

/// The call that was refused gives its normal answer.
pub(crate) fn told(rt: &(impl Abort + AllocGlobal), heard: bool, again: Result<bool, OutOfMemory>) {
    assert!(rt;
        matches!(again, Ok(true)),
        "not the wanted answer after a refusal"
    );
    out_of_memory(rt, heard);
}

/// A call that uses up its argument, which is made before, and the same call of an equal one.
macro_rules! makes {
    ($rt:expr, $row:expr, $call:expr, $again:expr) => {{
        let heard = $crate::refused::marks::begin($rt, $row);
        let answer = $call;
        if $crate::refused::calls::is_refused($rt, heard, answer) {
            let again = $again;
            $crate::refused::calls::told($rt, heard, again);
        }
    }};
}

pub(crate) use makes;

/// A call that changes nothing.
macro_rules! asks {
    ($rt:expr, $row:expr, $call:expr) => {
        $crate::refused::calls::makes!($rt, $row, $call, $call)
    };
}

pub(crate) use asks;

/// Calls that take no memory, by their names with a blank between two, and whether they answer
/// right.
macro_rules! takes_none {
    ($rt:expr, $calls:expr, $is_right:expr) => {{
        let row = $crate::refused::marks::Row($calls, "no memory", $crate::refused::marks::Memory::NotTaken);
        let heard = $crate::refused::marks::begin($rt, row);
        let is_right = $is_right;
        $crate::refused::calls::is_refused($rt, heard, Ok(is_right));
    }};
}

pub(crate) use takes_none;

fn is_copied<T: TryClone + PartialEq + Drop>(
    alloc: Global,
    original: &T,
) -> Result<bool, OutOfMemory> {
    let copy = original.try_clone(alloc)?;
    let is_equal = copy == *original;
    drop(copy);
    Ok(is_equal)
}

/// A copy, equal to the original.
pub(crate) fn copies<R: Abort + AllocGlobal + Print, T: TryClone + PartialEq + Drop>(
    rt: &R,
    row: Row<'_>,
    original: T,
) {
    asks!(rt, row, is_copied(rt.alloc(), &original));
    drop(original);
}

/// Tells a refusal where what is handed back equals what was handed in.
pub(crate) fn handed_back<T: PartialEq + Drop>(back: T, original: &T) -> Result<bool, OutOfMemory> {
    let is_same = back == *original;
    drop(back);
    if is_same { Err(OutOfMemory) } else { Ok(false) }
}

/// What a call is to change: the value, an equal one, and what it is to become.
#[derive(Drop)]
pub(crate) struct Change<V> {
    pub(crate) value: V,
    pub(crate) before: V,
    pub(crate) after: V,
}

/// Whether the call that changes a value was refused. Where it was, the value is as before.
pub(crate) fn is_unchanged<V: PartialEq + Drop>(
    rt: &(impl Abort + AllocGlobal),
    heard: bool,
    answer: Result<bool, OutOfMemory>,
    given: &Change<V>,
) -> bool {
    end(rt, heard);
    match answer {
        Ok(is_wanted) => is_refused(rt, heard, Ok(is_wanted && given.value == given.after)),
        Err(OutOfMemory) => {
            assert!(rt; given.value == given.before, "a change at a refusal");
            true
        }
    }
}

/// Whether the call that is made once more has its effect.
pub(crate) fn is_changed<V: PartialEq + Drop>(
    again: Result<bool, OutOfMemory>,
    given: &Change<V>,
) -> Result<bool, OutOfMemory> {
    Ok(again? && given.value == given.after)
}

/// A call that changes a value by an argument, and the same call by an equal argument. Where it is
/// refused, the value is as before, and the call that is made once more has its effect.
macro_rules! changes {
    ($rt:expr, $row:expr, $given:ident, $call:expr, $again:expr) => {{
        let heard = $crate::refused::marks::begin($rt, $row);
        let answer = $call;
        if $crate::refused::calls::is_unchanged($rt, heard, answer, &$given) {
            let again = $again;
            let is_done = $crate::refused::calls::is_changed(again, &$given);
            $crate::refused::calls::told($rt, heard, is_done);
        }
        drop($given);
    }};
}

pub(crate) use changes;
