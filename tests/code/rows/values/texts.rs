//! Texts of chunks.
use crate::values::row::{Row, RowError, copied, put as put_column, put_debugged, put_shown, read};
use haya_text::{
    ChunkKind, ChunkedString, FoldError, FoldableChunkedString, FormatString, StringChunk, TryClone,
};
use std::alloc::Global;
use std::fmt;

pub fn put(alloc: Global, row: &Row, out: &mut String) -> Result<(), RowError> {
    match row.word(0)? {
        "chunks" => match read::<ChunkedString>(alloc, row.word(1)?, out)? {
            Some(text) => put_chunks(alloc, text, out),
            None => Ok(()),
        },
        "made-chunks" => put_chunks(alloc, made(alloc, row)?, out),
        "text" => match read::<FormatString>(alloc, row.word(1)?, out)? {
            Some(text) => put_text(alloc, text, out),
            None => Ok(()),
        },
        "made-text" => put_text(alloc, made_text(alloc, row)?, out),
        _ => Err(RowError::Malformed),
    }
}

// The value, its text, its print, and the text that it gives.
fn put_chunks(alloc: Global, text: ChunkedString, out: &mut String) -> Result<(), RowError> {
    let text = copied(alloc, text)?;
    put_debugged(alloc, out, &text)?;
    let serialized = text.to_serialized(alloc)?;
    put_column(out, serialized.as_str())?;
    put_shown(alloc, out, &text)?;
    put_given(alloc, &text, out)?;
    put_folded(alloc, text, out)
}

fn put_given(alloc: Global, text: &ChunkedString, out: &mut String) -> Result<(), RowError> {
    let given = text.to_str(alloc)?;
    put_column(out, given.as_str())
}

// `folded` where it is folded and back again, and `math` where it has math.
fn put_folded(alloc: Global, text: ChunkedString, out: &mut String) -> Result<(), RowError> {
    let original = text.try_clone(alloc)?;
    let (told, back) = match FoldableChunkedString::try_from_chunked(alloc, text) {
        Ok(folded) => {
            let folded = folded.try_clone(alloc)?;
            (
                "folded",
                ChunkedString::from_foldable(alloc, folded).map_err(|_| RowError::OutOfMemory)?,
            )
        }
        Err(FoldError::Math(text)) => ("math", text),
        Err(_) => return Err(RowError::OutOfMemory),
    };
    put_column(out, if back == original { told } else { "unlike" })
}

// A chunk of `normal:text`.
fn chunk(alloc: Global, word: &str) -> Result<StringChunk, RowError> {
    let (kind, value) = word.split_once(':').ok_or(RowError::Malformed)?;
    let kind = match kind {
        "normal" => ChunkKind::Normal,
        "verbatim" => ChunkKind::Verbatim,
        "math" => ChunkKind::Math,
        _ => return Err(RowError::Malformed),
    };
    Ok(StringChunk::new(String::from_str(alloc, value)?, kind))
}

// A text of chunks.
fn made(alloc: Global, row: &Row) -> Result<ChunkedString, RowError> {
    if let [word] = row.from(1) {
        return Ok(ChunkedString::from_chunk(alloc, chunk(alloc, word.as_str())?)?);
    }
    let mut text = ChunkedString::new(alloc);
    for word in row.from(1) {
        text.push_chunk(chunk(alloc, word.as_str())?)?;
    }
    Ok(text)
}

// A text as its short form is shown.
#[derive(Drop)]
struct Short<'a>(&'a FormatString);

impl fmt::Display for Short<'_> {
    fn fmt<W: fmt::Write>(&self, f: &mut fmt::Formatter<W>) -> fmt::Result {
        self.0.fmt_short(f)
    }
}

// The value, its long and its short form.
fn put_text(alloc: Global, text: FormatString, out: &mut String) -> Result<(), RowError> {
    let text = copied(alloc, text)?;
    put_debugged(alloc, out, &text)?;
    put_shown(alloc, out, &text)?;
    put_shown(alloc, out, &Short(&text))
}

// A text that isn't read, with a short form or none.
fn made_text(alloc: Global, row: &Row) -> Result<FormatString, RowError> {
    let long = String::from_str(alloc, row.word(1)?)?;
    match row.maybe(2)? {
        Some(short) => {
            let short = String::from_str(alloc, short)?;
            Ok(FormatString::with_short(alloc, long, short)?)
        }
        None => {
            let other = FormatString::from_string(alloc, long.try_clone(alloc)?)?;
            let text = FormatString::with_value(alloc, long)?;
            if other == text {
                Ok(text)
            } else {
                Err(RowError::Malformed)
            }
        }
    }
}
