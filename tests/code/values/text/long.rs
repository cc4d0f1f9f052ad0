//! Texts past the size from which on a call might go another way.
use super::strings::{chunked_copy, is_serialized, string};
use crate::shown::is_shown;
use haya_text::ChunkKind::{Normal, Verbatim};
use haya_text::*;
use std::fmt::Write;
use std::process::Abort;

fn folded(rt: &(impl Abort + AllocGlobal), text: ChunkedString) -> FoldableChunkedString {
    FoldableChunkedString::try_from_chunked(rt.alloc(), text).expect(rt, "a text without math")
}

// Whether a copy of the text is equal.
fn has_folded_copy(rt: &(impl Abort + AllocGlobal), text: &FoldableChunkedString) -> bool {
    let copy = text.try_clone(rt.alloc()).expect(rt, "memory");
    let same = copy == *text;
    drop(copy);
    same
}

fn unfolded(rt: &(impl Abort + AllocGlobal), text: FoldableChunkedString) -> ChunkedString {
    ChunkedString::from_foldable(rt.alloc(), text).expect(rt, "memory")
}

// Whether the text is serialized, shown, and shown alone so.
fn is_written(
    rt: &(impl Abort + AllocGlobal),
    text: &ChunkedString,
    serialized: &str,
    alone: &str,
) -> bool {
    let mut out = String::new(rt.alloc());
    text.fmt_serialized(&mut out).expect(rt, "memory");
    let found = text.to_str(rt.alloc()).expect(rt, "memory");
    let same = out.as_str() == serialized && found.as_str() == alone;
    drop(found);
    drop(out);
    same
}

// How often a piece is repeated in a long text.
const MANY: usize = 70_000;

fn repeated(rt: &(impl Abort + AllocGlobal), piece: &str) -> String {
    let mut text = String::new(rt.alloc());
    for _ in 0..MANY {
        text.push_str(piece).expect(rt, "memory");
    }
    text
}

// Many chunks, each of another kind than the one before it.
fn many_chunks(rt: &(impl Abort + AllocGlobal)) -> ChunkedString {
    let mut text = ChunkedString::new(rt.alloc());
    for _ in 0..MANY {
        text.push_str("a{", Normal).expect(rt, "memory");
        text.push_char('é', Verbatim).expect(rt, "memory");
    }
    text
}

// Whether the text is serialized as so many repetitions of the piece.
fn repeats(rt: &(impl Abort + AllocGlobal), text: &ChunkedString, piece: &str) -> bool {
    let wanted = repeated(rt, piece);
    let same = is_serialized(rt, text, wanted.as_str());
    drop(wanted);
    same
}

// Whether the text is serialized and shown as so many repetitions of these pieces, and alone as
// it is shown.
fn is_written_repeated(
    rt: &(impl Abort + AllocGlobal),
    text: &ChunkedString,
    serialized: &str,
    shown: &str,
) -> bool {
    let serialized = repeated(rt, serialized);
    let shown = repeated(rt, shown);
    let same = is_serialized(rt, text, serialized.as_str())
        && is_shown(rt, text, shown.as_str())
        && is_written(rt, text, serialized.as_str(), shown.as_str());
    drop(serialized);
    drop(shown);
    same
}

#[test]
fn texts_of_many_chunks(rt: HostRuntime) {
    let text = many_chunks(&rt);
    let has_many = text.0.len() == 2 * MANY && text.len() == 4 * MANY;
    let is_shown = is_written_repeated(&rt, &text, "a\\{{é}", "a{é");
    let folded = folded(&rt, text);
    let is_copied = has_folded_copy(&rt, &folded);
    let mut twice = unfolded(&rt, folded);
    let copy = chunked_copy(&rt, &twice);
    let is_equal = copy == twice;
    twice.extend(copy).expect(&rt, "memory");
    let is_extended = repeats(&rt, &twice, "a\\{{é}a\\{{é}");
    drop(twice);
    assert!(rt; has_many);
    assert!(rt; is_shown);
    assert!(rt; is_copied);
    assert!(rt; is_equal);
    assert!(rt; is_extended);
}

#[test]
fn long_texts_are_read(rt: HostRuntime) {
    let serialized = repeated(&rt, "a\\{{é}");
    let read = FormatString::from_str(rt.alloc(), serialized.as_str()).expect(&rt, "a text");
    drop(serialized);
    let same = repeats(&rt, &read.value, "a\\{{é}");
    drop(read);
    assert!(rt; same);
}

// A copy of a text whose long and short form are long.
fn long_forms(rt: &(impl Abort + AllocGlobal)) -> FormatString {
    let (long, short) = (repeated(rt, "é{"), repeated(rt, "$"));
    let text = FormatString::with_short(rt.alloc(), long, short).expect(rt, "memory");
    let copy = text.try_clone(rt.alloc()).expect(rt, "memory");
    let same = copy == text;
    drop(text);
    assert!(rt; same);
    copy
}

// The text with as much behind it once more.
fn grown(rt: &(impl Abort + AllocGlobal), mut text: ChunkedString) -> ChunkedString {
    let more = repeated(rt, "é{");
    text.write_str(more.as_str()).expect(rt, "memory");
    drop(more);
    text
}

// Whether a long chunk that grows by a character has a copy that is equal, and as long.
fn has_long_copy(rt: &(impl Abort + AllocGlobal)) -> bool {
    let mut chunk = StringChunk::math(repeated(rt, "x"));
    chunk.write_str("y").expect(rt, "memory");
    let copy = chunk.try_clone(rt.alloc()).expect(rt, "memory");
    let same = copy == chunk && copy.len() == MANY + 1;
    drop(copy);
    drop(chunk);
    same
}

#[test]
fn long_chunks(rt: HostRuntime) {
    let text = long_forms(&rt);
    assert!(rt; repeats(&rt, text.select(LongShortForm::Short), "\\$"));
    let grown = grown(&rt, text.value);
    let is_grown = grown.0.len() == 1 && repeats(&rt, &grown, "é\\{é\\{");
    drop(grown);
    assert!(rt; is_grown);
    assert!(rt; has_long_copy(&rt));
}
