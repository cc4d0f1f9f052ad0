//! Chunked and format strings: what is made, changed and handed back.
use super::calls::{Change, changes, handed_back, makes};
use super::marks::Memory::{NotTaken, Taken};
use super::marks::Row;
use super::shown::Told;
use haya_text::ChunkKind::{Math, Normal, Verbatim};
use haya_text::*;
use std::alloc::Global;
use std::fmt::Write;
use std::io::Print;
use std::process::Abort;

pub(crate) fn string(rt: &(impl Abort + AllocGlobal), text: &str) -> String {
    String::from_str(rt.alloc(), text).expect(rt, "memory")
}

// The text that is serialized so.
pub(crate) fn text_of(rt: &(impl Abort + AllocGlobal), serialized: &str) -> ChunkedString {
    ChunkedString::from_str(rt.alloc(), serialized).expect(rt, "a text")
}

fn math(rt: &(impl Abort + AllocGlobal), text: &str) -> StringChunk {
    StringChunk::math(string(rt, text))
}

fn folded(rt: &(impl Abort + AllocGlobal), serialized: &str) -> FoldableChunkedString {
    let text = text_of(rt, serialized);
    FoldableChunkedString::try_from_chunked(rt.alloc(), text).expect(rt, "no math")
}

fn to_become(rt: &(impl Abort + AllocGlobal), from: &str, to: &str) -> Change<ChunkedString> {
    Change {
        // (a copy has no more room than it needs)
        value: text_of(rt, from).try_clone(rt.alloc()).expect(rt, "memory"),
        before: text_of(rt, from),
        after: text_of(rt, to),
    }
}

const LONG: &str = "a text of more than a few bytes, for which no first block suffices";

// What a text is before it, what is pushed in which kind, and what it is after it.
const PUSHED: &[(&str, &str, ChunkKind, &str)] = &[
    (
        "a",
        LONG,
        Normal,
        "aa text of more than a few bytes, for which no first block suffices",
    ),
    ("a", "b", Verbatim, "a{b}"),
    ("", "b", Math, "$b$"),
    ("a{b}c{d}", "e", Normal, "a{b}c{d}e"),
];

fn pushes(text: &mut ChunkedString, pushed: &str, kind: ChunkKind) -> Result<bool, OutOfMemory> {
    text.push_str(pushed, kind)?;
    Ok(true)
}

pub(crate) fn push_str(rt: &(impl Abort + AllocGlobal + Print)) {
    for (from, pushed, kind, to) in PUSHED {
        let row = Row("ChunkedString::push_str", *to, Taken);
        let mut given = to_become(rt, *from, *to);
        changes!(
            rt,
            row,
            given,
            pushes(&mut given.value, *pushed, *kind),
            pushes(&mut given.value, *pushed, *kind)
        );
    }
}

// What a text is before a letter is pushed in which kind, and what it is after it.
const PUSHED_CHARS: &[(&str, ChunkKind, &str)] = &[
    ("sixteen letters.", Normal, "sixteen letters.é"),
    ("a", Verbatim, "a{é}"),
];

fn pushes_char(text: &mut ChunkedString, kind: ChunkKind) -> Result<bool, OutOfMemory> {
    text.push_char('é', kind)?;
    Ok(true)
}

pub(crate) fn push_char(rt: &(impl Abort + AllocGlobal + Print)) {
    for (from, kind, to) in PUSHED_CHARS {
        let row = Row("ChunkedString::push_char", *to, Taken);
        let mut given = to_become(rt, *from, *to);
        changes!(
            rt,
            row,
            given,
            pushes_char(&mut given.value, *kind),
            pushes_char(&mut given.value, *kind)
        );
    }
}

// What a text is before it is extended by `{b}$x$c`, and after it.
const EXTENDED: &[(&str, &str)] = &[
    ("", "{b}$x$c"),
    ("a", "a{b}$x$c"),
    ("a{b}a{b}a", "a{b}a{b}a{b}$x$c"),
];

fn extends(text: &mut ChunkedString, more: ChunkedString) -> Result<bool, OutOfMemory> {
    text.extend(more)?;
    Ok(true)
}

pub(crate) fn extend(rt: &(impl Abort + AllocGlobal + Print)) {
    for (from, to) in EXTENDED {
        let row = Row("ChunkedString::extend", *to, Taken);
        let (first, second) = (text_of(rt, "{b}$x$c"), text_of(rt, "{b}$x$c"));
        let mut given = to_become(rt, *from, *to);
        changes!(
            rt,
            row,
            given,
            extends(&mut given.value, first),
            extends(&mut given.value, second)
        );
    }
}

// What is written is pushed as Normal, and a refusal is answered by the writer's fault.
fn writes<W: Write>(text: &mut W, written: &str) -> Result<bool, OutOfMemory> {
    match text.write_str(written) {
        Ok(()) => Ok(true),
        Err(_) => Err(OutOfMemory),
    }
}

// What a text is before `x` is written to it, and after it.
const WRITTEN: &[(&str, &str)] = &[("{a}", "{a}x"), ("sixteen letters.", "sixteen letters.x")];

pub(crate) fn write_str(rt: &(impl Abort + AllocGlobal + Print)) {
    for (from, to) in WRITTEN {
        let row = Row("ChunkedString::write_str", *to, Taken);
        let mut given = to_become(rt, *from, *to);
        changes!(
            rt,
            row,
            given,
            writes::<ChunkedString>(&mut given.value, "x"),
            writes::<ChunkedString>(&mut given.value, "x")
        );
    }
    let mut given = Change {
        value: math(rt, "sixteen letters."),
        before: math(rt, "sixteen letters."),
        after: math(rt, "sixteen letters.x"),
    };
    let row = Row("StringChunk::write_str", "sixteen letters", Taken);
    changes!(
        rt,
        row,
        given,
        writes::<StringChunk>(&mut given.value, "x"),
        writes::<StringChunk>(&mut given.value, "x")
    );
}

fn row(call: &str) -> Row<'_> {
    Row(call, "a{b", Taken)
}

fn from_string(alloc: Global, text: String) -> Result<bool, OutOfMemory> {
    Ok(ChunkedString::from_string(alloc, text)?.is_told("a\\{b"))
}

fn format_from_chunk(alloc: Global, chunk: StringChunk) -> Result<bool, OutOfMemory> {
    Ok(FormatString::from_chunk(alloc, chunk)?.is_told("$a\\{b$"))
}

pub(crate) fn made_from_texts(rt: &(impl Abort + AllocGlobal + Print)) {
    let texts = (string(rt, "a{b"), string(rt, "a{b"));
    let called = row("ChunkedString::from_string");
    makes!(
        rt,
        called,
        from_string(rt.alloc(), texts.0),
        from_string(rt.alloc(), texts.1)
    );
}

pub(crate) fn made_from_chunks(rt: &(impl Abort + AllocGlobal + Print)) {
    let (first, second) = (math(rt, "a{b"), math(rt, "a{b"));
    let called = row("FormatString::from_chunk");
    makes!(
        rt,
        called,
        format_from_chunk(rt.alloc(), first),
        format_from_chunk(rt.alloc(), second)
    );
}

// What is folded, or not, and both of its forms.
#[derive(Clone, Copy)]
struct Forms<'a> {
    plain: &'a ChunkedString,
    folded: &'a FoldableChunkedString,
}

fn is_equal<T: PartialEq + Drop>(made: T, wanted: &T) -> Result<bool, OutOfMemory> {
    let is_same = made == *wanted;
    drop(made);
    Ok(is_same)
}

fn folds(alloc: Global, text: ChunkedString, forms: Forms<'_>) -> Result<bool, OutOfMemory> {
    match FoldableChunkedString::try_from_chunked(alloc, text) {
        Ok(made) => is_equal(made, forms.folded),
        Err(FoldError::OutOfMemory(back)) => handed_back(back, forms.plain),
        Err(FoldError::Math(back)) => {
            drop(back);
            Ok(false)
        }
    }
}

fn unfolds(
    alloc: Global,
    text: FoldableChunkedString,
    forms: Forms<'_>,
) -> Result<bool, OutOfMemory> {
    match ChunkedString::from_foldable(alloc, text) {
        Ok(made) => is_equal(made, forms.plain),
        Err(back) => handed_back(back, forms.folded),
    }
}

// Where it is refused, a text that is folded comes back, and is folded once there is memory.
pub(crate) fn handed_back_whole(rt: &(impl Abort + AllocGlobal + Print)) {
    let (plain, wanted) = (text_of(rt, "a{b}c"), folded(rt, "a{b}c"));
    let forms = Forms {
        plain: &plain,
        folded: &wanted,
    };
    let row = Row("FoldableChunkedString::try_from_chunked", "a{b}c", Taken);
    let (first, second) = (text_of(rt, "a{b}c"), text_of(rt, "a{b}c"));
    makes!(
        rt,
        row,
        folds(rt.alloc(), first, forms),
        folds(rt.alloc(), second, forms)
    );
    let row = Row("ChunkedString::from_foldable", "a{b}c", Taken);
    let (first, second) = (folded(rt, "a{b}c"), folded(rt, "a{b}c"));
    makes!(
        rt,
        row,
        unfolds(rt.alloc(), first, forms),
        unfolds(rt.alloc(), second, forms)
    );
    drop(plain);
    drop(wanted);
}

// Math is looked for before any memory is taken.
fn keeps_math(alloc: Global, text: ChunkedString) -> Result<bool, OutOfMemory> {
    match FoldableChunkedString::try_from_chunked(alloc, text) {
        Err(FoldError::Math(back)) => Ok(back.is_told("a$x$")),
        _ => Ok(false),
    }
}

pub(crate) fn refuses_math(rt: &(impl Abort + AllocGlobal + Print)) {
    let row = Row("FoldableChunkedString::try_from_chunked", "a$x$", NotTaken);
    let (first, second) = (text_of(rt, "a$x$"), text_of(rt, "a$x$"));
    makes!(
        rt,
        row,
        keeps_math(rt.alloc(), first),
        keeps_math(rt.alloc(), second)
    );
}
