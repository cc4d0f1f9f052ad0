//! What a test tells whoever refuses its requests for memory (refused/refuse.c): where a call
//! begins and ends, and how it was answered. It tells them by requests of sizes that no block has,
//! so that no other request can be taken for one. Where nobody listens it tells nothing.
use std::alloc::Global;
use std::io::Print;

/// Whether a call takes memory.
#[derive(Clone, Copy)]
pub(crate) enum Memory {
    Taken,
    NotTaken,
    // That isn't promised, as where a text is refused.
    Maybe,
    // So often that only some of the requests are refused.
    Often,
    // Some requests are for room in advance, or give room back: where one of these is refused, the
    // call goes on.
    Optional,
}

/// The call, `TYPE::CALL`, what it is called with, and whether it takes memory.
#[derive(Clone, Copy)]
pub(crate) struct Row<'a>(pub(crate) &'a str, pub(crate) &'a str, pub(crate) Memory);

// No block that a call asks for has this odd size. It is refused where somebody listens.
const LISTENS: usize = 0x7265;

// The bytes of `refused`, and one more: no block is as large.
const TAKEN: usize = 0x7265_6675_7365_6401;

const NOT_TAKEN: usize = 0x7265_6675_7365_6402;

const MAYBE: usize = 0x7265_6675_7365_6403;

const OFTEN: usize = 0x7265_6675_7365_6404;

const OPTIONAL: usize = 0x7265_6675_7365_6405;

const ENDS: usize = 0x7265_6675_7365_6406;

const NORMAL: usize = 0x7265_6675_7365_6407;

const OUT_OF_MEMORY: usize = 0x7265_6675_7365_6408;

fn is_given(alloc: Global, size: usize) -> bool {
    Vec::<u8>::with_capacity(alloc, size).is_ok()
}

// Tells whoever listens.
fn tell(alloc: Global, heard: bool, mark: usize) {
    if heard {
        is_given(alloc, mark);
    }
}

/// The call of the row begins with the next request. The answer is whether somebody listens.
pub(crate) fn begin(rt: &(impl AllocGlobal + Print), row: Row<'_>) -> bool {
    let Row(call, about, memory) = row;
    let heard = !is_given(rt.alloc(), LISTENS);
    if heard {
        let _ = println!(rt; "row {call}: {about}");
    }
    let mark = match memory {
        Memory::Taken => TAKEN,
        Memory::NotTaken => NOT_TAKEN,
        Memory::Maybe => MAYBE,
        Memory::Often => OFTEN,
        Memory::Optional => OPTIONAL,
    };
    tell(rt.alloc(), heard, mark);
    heard
}

/// The call has ended.
pub(crate) fn end(rt: &impl AllocGlobal, heard: bool) {
    tell(rt.alloc(), heard, ENDS);
}

/// The answer was the normal one.
pub(crate) fn normal(rt: &impl AllocGlobal, heard: bool) {
    tell(rt.alloc(), heard, NORMAL);
}

/// The answer was out of memory, and all else was as before.
pub(crate) fn out_of_memory(rt: &impl AllocGlobal, heard: bool) {
    tell(rt.alloc(), heard, OUT_OF_MEMORY);
}
