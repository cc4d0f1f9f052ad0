//! What each call gives back where there is memory. A failed allocation ends a test.
ghost use Rattle.std.specs.Prelude.{◌≡◌, option_map, IfOk};

use crate::shown::{ends_at_a_fault, is_shown};
use haya_text::ChunkKind::{Math, Normal, Verbatim};
use haya_text::*;
use std::alloc::Global;
use std::fmt;
use std::fmt::Write;
use std::process::Abort;

pub(super) fn string(rt: &(impl Abort + AllocGlobal), text: &str) -> String {
    String::from_str(rt.alloc(), text).expect(rt, "memory")
}

fn text_of(rt: &(impl Abort + AllocGlobal), chunks: &[(&str, ChunkKind)]) -> ChunkedString {
    let mut text = ChunkedString::new(rt.alloc());
    for (value, kind) in chunks {
        let chunk = StringChunk::new(string(rt, *value), *kind);
        text.push_chunk(chunk).expect(rt, "memory");
    }
    text
}

// Whether the text has these chunks and no others.
fn has(
    rt: &(impl Abort + AllocGlobal),
    text: &ChunkedString,
    chunks: &[(&str, ChunkKind)],
) -> bool {
    let wanted = text_of(rt, chunks);
    let same = *text == wanted;
    drop(wanted);
    same
}

pub(super) fn is_serialized(
    rt: &(impl Abort + AllocGlobal),
    text: &ChunkedString,
    wanted: &str,
) -> bool {
    text.to_serialized(rt.alloc()).expect(rt, "memory").as_str() == wanted
}

// Whether the text has no characters, and an empty chunk.
fn is_empty_verbatim(rt: &(impl Abort + AllocGlobal), text: &ChunkedString) -> bool {
    text.is_empty() && is_serialized(rt, text, "{}")
}

// Adds `ab` by two calls, and a chunk.
fn push_more(rt: &(impl Abort + AllocGlobal), text: &mut ChunkedString) {
    text.push_char('a', Normal).expect(rt, "memory");
    text.push_str("b", Normal).expect(rt, "memory");
    let chunk = StringChunk::normal(string(rt, "c"));
    text.push_chunk(chunk).expect(rt, "memory");
}

#[test]
fn chunks_are_pushed(rt: HostRuntime) {
    let mut text = ChunkedString::new(rt.alloc());
    text.push_str("", Verbatim).expect(&rt, "memory");
    assert!(rt; is_empty_verbatim(&rt, &text));
    push_more(&rt, &mut text);
    let chunks = [("", Verbatim), ("ab", Normal), ("c", Normal)];
    let same = has(&rt, &text, &chunks) && text.len() == 3 && !text.is_empty();
    drop(text);
    assert!(rt; same);
}

pub(super) fn chunked_copy(rt: &(impl Abort + AllocGlobal), text: &ChunkedString) -> ChunkedString {
    text.try_clone(rt.alloc()).expect(rt, "memory")
}

fn write(rt: &(impl Abort + AllocGlobal), text: &mut ChunkedString, more: &str) {
    text.write_str(more).expect(rt, "memory");
}

#[test]
fn a_text_is_extended(rt: HostRuntime) {
    let mut text = text_of(&rt, &[("c", Normal)]);
    let more = text_of(&rt, &[("é", Normal), ("x", Math)]);
    text.extend(more).expect(&rt, "memory");
    write(&rt, &mut text, "d");
    write(&rt, &mut text, "e");
    write(&rt, &mut text, "");
    let all = [("c", Normal), ("é", Normal), ("x", Math), ("de", Normal)];
    let is_extended = has(&rt, &text, &all);
    let copy = chunked_copy(&rt, &text);
    let is_copied = has(&rt, &copy, &all);
    drop(copy);
    drop(text);
    assert!(rt; is_extended);
    assert!(rt; is_copied);
}

// Whether the chunk has this text, in so many bytes, and is shown as it.
fn is_chunk(rt: &(impl Abort + AllocGlobal), chunk: &StringChunk, text: &str, len: usize) -> bool {
    chunk.as_str() == text && chunk.len() == len && !chunk.is_empty() && is_shown(rt, chunk, text)
}

// Whether a copy of the chunk has this text and kind.
fn has_copy(
    rt: &(impl Abort + AllocGlobal),
    chunk: &StringChunk,
    text: &str,
    kind: ChunkKind,
) -> bool {
    let copy = chunk.try_clone(rt.alloc()).expect(rt, "memory");
    let same = is_so(&copy, text, kind);
    drop(copy);
    same
}

// Whether the chunk has this text and kind.
fn is_so(chunk: &StringChunk, text: &str, kind: ChunkKind) -> bool {
    chunk.as_str() == text && chunk.kind == kind
}

#[test]
fn one_chunk(rt: HostRuntime) {
    let mut chunk = StringChunk::verbatim(string(&rt, "a"));
    chunk.write_str("{").expect(&rt, "memory");
    chunk.write_str("").expect(&rt, "memory");
    let is_written = is_chunk(&rt, &chunk, "a{", 2);
    let is_copied = has_copy(&rt, &chunk, "a{", Verbatim);
    drop(chunk);
    assert!(rt; is_written);
    assert!(rt; is_copied);
    assert!(rt; ChunkKind::default() == Normal);
    assert!(rt; FoldableKind::default() == FoldableKind::Normal);
}

// The chunk that is given back since it is math.
fn chunk_of_math(rt: &(impl Abort + AllocGlobal), text: &str) -> StringChunk {
    match FoldableStringChunk::try_from(StringChunk::math(string(rt, text))) {
        Err(math) => math,
        Ok(_) => panic!(rt; "a chunk of math is folded"),
    }
}

#[test]
fn math_is_not_folded(rt: HostRuntime) {
    let math = chunk_of_math(&rt, "x");
    let same = is_so(&math, "x", Math);
    drop(math);
    assert!(rt; same);
}

#[test]
fn kinds_are_folded(rt: HostRuntime) {
    assert!(rt; FoldableKind::try_from(Math) == Err(()));
    assert!(rt; FoldableKind::try_from(Verbatim) == Ok(FoldableKind::Verbatim));
    assert!(rt; ChunkKind::from(FoldableKind::Verbatim) == Verbatim);
}

// A text as its short form is shown.
#[derive(Drop)]
struct ShortForm<'a>(&'a FormatString);

impl fmt::Display for ShortForm<'_> {
    fn fmt<W: fmt::Write>(&self, f: &mut fmt::Formatter<W>) -> fmt::Result {
        self.0.fmt_short(f)
    }
}

// A text as it is serialized.
#[derive(Drop)]
struct Serialized<'a>(&'a ChunkedString);

impl fmt::Display for Serialized<'_> {
    fn fmt<W: fmt::Write>(&self, f: &mut fmt::Formatter<W>) -> fmt::Result {
        self.0.fmt_serialized(f)
    }
}

#[test]
fn a_writers_fault_ends_the_call(rt: HostRuntime) {
    let chunked = text_of(&rt, &[("a", Normal), ("b{", Verbatim), ("x", Math)]);
    let chunked_ends = ends_at_a_fault(&chunked) && ends_at_a_fault(&Serialized(&chunked));
    drop(chunked);
    assert!(rt; chunked_ends);
    let text = FormatString::with_value(rt.alloc(), string(&rt, "a{b}")).expect(&rt, "memory");
    let text_ends = ends_at_a_fault(&text) && ends_at_a_fault(&ShortForm(&text));
    drop(text);
    assert!(rt; text_ends);
}

// A text of math that is made of a chunk.
fn format_of_math(rt: &(impl Abort + AllocGlobal), text: &str) -> FormatString {
    let chunk = StringChunk::math(string(rt, text));
    FormatString::from_chunk(rt.alloc(), chunk).expect(rt, "memory")
}

#[test]
fn forms_of_math(rt: HostRuntime) {
    let read = FormatString::from_str(rt.alloc(), "$x$").expect(&rt, "a text");
    let made = format_of_math(&rt, "x");
    let is_math = read == made;
    drop(read);
    drop(made);
    assert!(rt; is_math);
    let none = FormatString::new(rt.alloc());
    let is_empty = none.value.is_empty();
    drop(none);
    assert!(rt; is_empty);
    let none = FoldableChunkedString::new(rt.alloc());
    let is_empty = none.0.is_empty();
    drop(none);
    assert!(rt; is_empty);
}

fn read_if_any<T: ReadText>(alloc: Global, text: &str) -> Result<Option<T>, OutOfMemory>
    ensures { IfOk result (λ read. option_map T.value read ≡ T.reads text.now) }
{
    match T::from_str(alloc, text) {
        Ok(value) => Ok(Some(value)),
        Err(fault) if fault.is_out_of_memory() => Err(OutOfMemory),
        Err(_) => Ok(None),
    }
}

#[test]
fn reads_through_the_trait(rt: HostRuntime) {
    let read: Option<ChunkedString> = read_if_any(rt.alloc(), "{a}").expect(&rt, "memory");
    let text = read.expect(&rt, "a text");
    let same = has(&rt, &text, &[("a", Verbatim)]);
    drop(text);
    let none: Option<FormatString> = read_if_any(rt.alloc(), "a}").expect(&rt, "memory");
    let is_none = none.is_none();
    drop(none);
    assert!(rt; same && is_none);
}
