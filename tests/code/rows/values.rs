//! Answers rows of values: for each line of standard input, a kind and its words with a tab between
//! two, it prints a line of columns, which `tests/values` compares with those of `tests/rows`.

mod alone;
mod entries;
mod fields;
mod numbers;
mod people;
mod row;
mod selectors;
mod texts;
mod times;
mod values;

use haya_line_stream::{read_all, write_text};
use row::{Row, RowError};
use std::alloc::Global;
use std::io::{Read, Write};
use std::process::ExitCode;

// The columns of a row.
fn put_row(alloc: Global, row: &Row, out: &mut String) -> Result<(), RowError> {
    match row.word(0)? {
        "date" | "made-date" | "year" | "era" | "dates" => times::put(alloc, row, out),
        "duration" | "durations" | "range" | "made-duration" => times::put(alloc, row, out),
        "number" | "number-form" | "number-order" | "delimiter" => numbers::put(alloc, row, out),
        "pages" | "part" | "page" | "pieces" => numbers::put(alloc, row, out),
        "chunks" | "made-chunks" | "text" | "made-text" => texts::put(alloc, row, out),
        "person" | "initials" | "first-name" | "name-first" => people::put(alloc, row, out),
        "given-first" | "name" | "particles" | "article" => people::put(alloc, row, out),
        "sorted" | "persons" | "role" => people::put(alloc, row, out),
        "typed-number" | "typed-pages" | "typed-duration" => values::put(alloc, row, out),
        "typed-range" | "typed-order" | "publisher" | "url" => values::put(alloc, row, out),
        "type" | "field" | "lookups" | "above" | "line" | "library" => {
            entries::put(alloc, row, out)
        }
        "selector" | "apply" | "query" => selectors::put(alloc, row, out),
        "pushed-text" | "serials" | "with-role" | "variant" => alone::put(alloc, row, out),
        "title-in-json" | "title-in-formats" | "name-twice" => alone::put(alloc, row, out),
        _ => Err(RowError::Malformed),
    }
}

fn put_columns(alloc: Global, line: &str, out: &mut String) -> Result<(), RowError> {
    let row = Row::of_line(alloc, line)?;
    let put = put_row(alloc, &row, out);
    drop(row);
    put
}

// The line of a line: where the row is none it is `?`, which no row wants.
fn put_line(alloc: Global, line: &str, out: &mut String) -> Result<(), RowError> {
    match put_columns(alloc, line, out) {
        Err(RowError::Malformed) => out.push_str("\t?")?,
        other => other?,
    }
    out.push('\n')?;
    Ok(())
}

// All lines.
fn put_lines(alloc: Global, text: &str, out: &mut String) -> Result<(), RowError> {
    for line in text.lines() {
        put_line(alloc, line, out)?;
    }
    Ok(())
}

fn answer<R: Read, W: Write>(alloc: Global, input: &mut R, out: &mut W) -> Result<(), RowError> {
    let bytes = read_all(alloc, input, &mut ()).map_err(|_| RowError::OutOfMemory)?;
    let text = str::from_utf8(&bytes).map_err(|_| RowError::Malformed)?;
    let mut lines = String::new(alloc);
    put_lines(alloc, text, &mut lines)?;
    write_text(out, lines.as_str()).map_err(|_| RowError::Malformed)
}

pub fn main(rt: HostRuntime) -> ExitCode {
    let (mut input, mut out) = (rt.stdin(), rt.stdout());
    match answer(rt.alloc(), &mut input, &mut out) {
        Ok(()) => ExitCode::from(0),
        Err(RowError::Malformed) => ExitCode::from(2),
        Err(RowError::OutOfMemory) => {
            // Where this fails, the status says it all.
            let _ = rt.eprintln("out of memory");
            ExitCode::from(1)
        }
    }
}
