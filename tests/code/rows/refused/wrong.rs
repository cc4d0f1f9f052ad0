//! Calls that are wrong on purpose, each in a way that `refused/run` has to report. Where there is
//! memory, each but one gives its normal answer.
use super::marks::Memory::{NotTaken, Taken};
use super::marks::{Row, begin, end, normal, out_of_memory};
use super::shown::Told;
use haya_numbers::Numeric;
use haya_text::{OutOfMemory, ReadText};
use haya_values::MaybeTyped;
use std::alloc::Global;
use std::io::Print;
use std::process::Abort;

// Tells how a call was answered. Where it was wrong, that is no answer.
fn tell(rt: &impl AllocGlobal, heard: bool, answer: Result<bool, OutOfMemory>) {
    match answer {
        Ok(true) => normal(rt, heard),
        Ok(false) => {}
        Err(OutOfMemory) => out_of_memory(rt, heard),
    }
}

// Reads a number where it can, and otherwise takes the text.
fn read(alloc: Global, text: &str) -> Result<MaybeTyped<Numeric>, OutOfMemory> {
    match Numeric::from_str(alloc, text) {
        Ok(number) => Ok(MaybeTyped::Typed(number)),
        Err(_) => Ok(MaybeTyped::String(String::from_str(alloc, text)?)),
    }
}

pub(crate) fn memory_becomes_text(rt: &(impl Abort + AllocGlobal + Print)) {
    let heard = begin(rt, Row("wrong::memory_becomes_text", "01", Taken));
    let answer = read(rt.alloc(), "01");
    end(rt, heard);
    match answer {
        Ok(read) => tell(
            rt,
            heard,
            Ok(read.is_told("typed 01") || read.is_told("01")),
        ),
        Err(OutOfMemory) => tell(rt, heard, Err(OutOfMemory)),
    }
}

fn refuse(alloc: Global, text: &str) -> Result<bool, OutOfMemory> {
    drop(String::from_str(alloc, text)?);
    Err(OutOfMemory)
}

pub(crate) fn always_out_of_memory(rt: &(impl Abort + AllocGlobal + Print)) {
    let heard = begin(rt, Row("wrong::always_out_of_memory", "a", Taken));
    let answer = refuse(rt.alloc(), "a");
    end(rt, heard);
    tell(rt, heard, answer);
}

// Takes the last item away until there is room for it and one more.
fn push(list: &mut Vec<u32>, item: u32) -> Result<(), OutOfMemory> {
    let last = list.pop();
    let alloc = *list.allocator();
    drop(Vec::<u32>::with_capacity(alloc, list.len())?);
    if let Some(last) = last {
        list.push(last)?;
    }
    list.push(item)?;
    Ok(())
}

pub(crate) fn drops_before_it_grows(rt: &(impl Abort + AllocGlobal + Print)) {
    let mut list = vec![in rt.alloc(); 1u32, 2].expect(rt, "memory");
    let heard = begin(rt, Row("wrong::drops_before_it_grows", "1, 2", Taken));
    let answer = push(&mut list, 3);
    end(rt, heard);
    match answer {
        Ok(()) => tell(rt, heard, Ok(list.as_slice() == [1, 2, 3].as_slice())),
        Err(OutOfMemory) if list.as_slice() == [1, 2].as_slice() => tell(
            rt,
            heard,
            Err(OutOfMemory),
        ),
        Err(OutOfMemory) => tell(rt, heard, Ok(false)),
    }
    drop(list);
}

pub(crate) fn aborts(rt: &(impl Abort + AllocGlobal + Print)) {
    let heard = begin(rt, Row("wrong::aborts", "a", Taken));
    let text = String::from_str(rt.alloc(), "a").expect(rt, "memory");
    end(rt, heard);
    tell(rt, heard, Ok(text.as_str() == "a"));
    drop(text);
}

fn is_made(alloc: Global, text: &str) -> Result<bool, OutOfMemory> {
    drop(String::from_str(alloc, text)?);
    Ok(true)
}

// A row that says of a call what isn't so.
pub(crate) fn takes_memory_unsaid(rt: &(impl Abort + AllocGlobal + Print)) {
    let heard = begin(rt, Row("wrong::takes_memory_unsaid", "a", NotTaken));
    let answer = is_made(rt.alloc(), "a");
    end(rt, heard);
    tell(rt, heard, answer);
}

pub(crate) fn takes_none(rt: &(impl Abort + AllocGlobal + Print)) {
    let heard = begin(rt, Row("wrong::takes_none", "a", Taken));
    let is_empty = "a".is_empty();
    end(rt, heard);
    tell(rt, heard, Ok(!is_empty));
}
