//! Values that are typed or a text, publishers and addresses.
use crate::values::row::{
    Row, RowError, copied, put as put_column, put_debugged, put_read, put_shown, read,
};
use haya_numbers::{Numeric, PageRanges};
use haya_text::{ReadText, TryClone};
use haya_time::{Duration, DurationRange};
use haya_values::{MaybeTyped, Publisher, QualifiedUrl};
use std::alloc::Global;
use std::borrow::CowStr;
use std::fmt;

pub fn put(alloc: Global, row: &Row, out: &mut String) -> Result<(), RowError> {
    match row.word(0)? {
        "typed-number" => put_typed::<Numeric>(alloc, row, out),
        "typed-pages" => put_typed::<PageRanges>(alloc, row, out),
        "typed-duration" => put_typed::<Duration>(alloc, row, out),
        "typed-range" => put_typed::<DurationRange>(alloc, row, out),
        "typed-order" => put_orders(alloc, row, out),
        "publisher" => match read::<Publisher>(alloc, row.word(1)?, out)? {
            Some(publisher) => put_debugged(alloc, out, &copied(alloc, publisher)?),
            None => Ok(()),
        },
        "url" => put_read::<QualifiedUrl>(alloc, row, out),
        _ => Err(RowError::Malformed),
    }
}

// Whether it is typed or a text, its print, whether the text that it gives is borrowed or made, that
// text, and the print of what is borrowed of it.
fn put_typed<T: ReadText + TryClone + PartialEq + fmt::Debug + fmt::Display + Drop>(
    alloc: Global,
    row: &Row,
    out: &mut String,
) -> Result<(), RowError>
where
    T::Fault: fmt::Debug + fmt::Display,
{
    let Some(value) = read::<MaybeTyped<T>>(alloc, row.word(1)?, out)? else {
        return Ok(());
    };
    let value = copied(alloc, value)?;
    put_column(
        out,
        if value.as_typed().is_some() {
            "typed"
        } else {
            "text"
        },
    )?;
    put_shown(alloc, out, &value)?;
    match value.to_str(alloc)? {
        CowStr::Borrowed(text) => {
            put_column(out, "borrowed")?;
            put_column(out, text)?;
        }
        CowStr::Owned(text) => {
            put_column(out, "made")?;
            put_column(out, text.as_str())?;
        }
    }
    let cow = value.to_cow(alloc)?;
    put_shown(alloc, out, &cow)
}

// The order of two texts as numbers, as what is borrowed of these, and as pages.
fn put_orders(alloc: Global, row: &Row, out: &mut String) -> Result<(), RowError> {
    let (a, b) = (row.word(1)?, row.word(2)?);
    put_numbers(alloc, a, b, out)?;
    put_pages(alloc, a, b, out)
}

fn put_numbers(alloc: Global, a: &str, b: &str, out: &mut String) -> Result<(), RowError> {
    let Some(a) = read::<MaybeTyped<Numeric>>(alloc, a, out)? else {
        return Ok(());
    };
    let Some(b) = read::<MaybeTyped<Numeric>>(alloc, b, out)? else {
        return Ok(());
    };
    put_debugged(alloc, out, &a.csl_cmp(&b))?;
    let (x, y) = (a.to_cow(alloc)?, b.to_cow(alloc)?);
    put_debugged(alloc, out, &x.csl_cmp(&y))
}

fn put_pages(alloc: Global, a: &str, b: &str, out: &mut String) -> Result<(), RowError> {
    let Some(a) = read::<MaybeTyped<PageRanges>>(alloc, a, out)? else {
        return Ok(());
    };
    let Some(b) = read::<MaybeTyped<PageRanges>>(alloc, b, out)? else {
        return Ok(());
    };
    put_debugged(alloc, out, &a.csl_cmp(&b))
}
