//! Numbers and pages.
ghost use Rattle.std.specs.Prelude.{◌≡◌, Some, None, codes, pos, if◌then◌else◌};
ghost use Rattle.std.specs.Ordering.{int_eq};

use crate::values::row::{
    Row, RowError, copied, put as put_column, put_debugged, put_fault, put_read, put_shown,
    put_yes, read,
};
use haya_numbers::{
    GrammarGender, NumberForm, Numeric, NumericDelimiter, Ordinals, PageNumberError, PageRanges,
    PageRangesPart, split_pages,
};
use std::alloc::Global;

pub fn put(alloc: Global, row: &Row, out: &mut String) -> Result<(), RowError> {
    match row.word(0)? {
        "number" => put_number(alloc, row, out),
        "number-form" => put_form(alloc, row, out),
        "number-order" => put_order(alloc, row, out),
        "delimiter" => put_delimiter(alloc, row, out),
        "pages" => put_pages(alloc, row, out),
        "part" => put_read::<PageRangesPart>(alloc, row, out),
        "page" => put_page(alloc, row, out),
        "pieces" => {
            for piece in split_pages(row.word(1)?) {
                put_column(out, piece)?;
            }
            Ok(())
        }
        _ => Err(RowError::Malformed),
    }
}

// The value, its print, its numbers as they are shown and as a machine reads them, and the text
// that it is read of again.
fn put_number(alloc: Global, row: &Row, out: &mut String) -> Result<(), RowError> {
    let Some(number) = read::<Numeric>(alloc, row.word(1)?, out)? else {
        return Ok(());
    };
    let number = copied(alloc, number)?;
    put_debugged(alloc, out, &number)?;
    put_shown(alloc, out, &number)?;
    for is_for_machines in [false, true] {
        let mut text = String::new(alloc);
        number
            .fmt_value(&mut text, is_for_machines)
            .map_err(|_| RowError::OutOfMemory)?;
        put_column(out, text.as_str())?;
    }
    let again = number.round_trip_text(alloc)?;
    put_column(out, again.as_str())
}

// English, but for the ends of ordinals.
struct English;

impl Ordinals for English {
    ghost ordinal_suffix = { λ _ _ _. Some (codes "th") };

    ghost ordinal_word = { λ _ n. if int_eq n (pos 1) then Some (codes "first") else None };

    fn lookup(&self, _n: i32, _gender: Option<GrammarGender>) -> Option<&str> {
        Some("th")
    }

    fn lookup_long(&self, n: i32) -> Option<&str> {
        if n == 1 { Some("first") } else { None }
    }
}

fn form(name: &str) -> Result<NumberForm, RowError> {
    match name {
        "numeric" => Ok(NumberForm::Numeric),
        "ordinal" => Ok(NumberForm::Ordinal),
        "long-ordinal" => Ok(NumberForm::LongOrdinal),
        "roman" => Ok(NumberForm::Roman),
        _ => Err(RowError::Malformed),
    }
}

fn put_form(alloc: Global, row: &Row, out: &mut String) -> Result<(), RowError> {
    let form = form(row.word(2)?)?;
    let Some(number) = read::<Numeric>(alloc, row.word(1)?, out)? else {
        return Ok(());
    };
    let mut written = String::new(alloc);
    number
        .with_form(&mut written, form, Some(GrammarGender::Neuter), &English)
        .map_err(|_| RowError::OutOfMemory)?;
    put_column(out, written.as_str())
}

fn put_order(alloc: Global, row: &Row, out: &mut String) -> Result<(), RowError> {
    let Some(a) = read::<Numeric>(alloc, row.word(1)?, out)? else {
        return Ok(());
    };
    let Some(b) = read::<Numeric>(alloc, row.word(2)?, out)? else {
        return Ok(());
    };
    put_debugged(alloc, out, &a.csl_cmp(&b))?;
    put_yes(out, a == b)
}

fn put_delimiter(alloc: Global, row: &Row, out: &mut String) -> Result<(), RowError> {
    match row.word(1)?.parse::<NumericDelimiter>() {
        Ok(delimiter) => {
            put_debugged(alloc, out, &delimiter)?;
            put_shown(alloc, out, &delimiter.as_char())?;
            put_shown(alloc, out, &delimiter)
        }
        Err(fault) => put_fault(alloc, out, &fault),
    }
}

// The value, its print, how many parts it has, whether it is plural, whether it reads back from its
// print, and the text that it is read of again.
fn put_pages(alloc: Global, row: &Row, out: &mut String) -> Result<(), RowError> {
    let Some(pages) = read::<PageRanges>(alloc, row.word(1)?, out)? else {
        return Ok(());
    };
    let pages = copied(alloc, pages)?;
    put_debugged(alloc, out, &pages)?;
    put_shown(alloc, out, &pages)?;
    put_shown(alloc, out, &pages.ranges.len())?;
    put_yes(out, pages.is_plural())?;
    put_yes(out, pages.reads_back())?;
    let again = pages.round_trip_text(alloc)?;
    put_column(out, again.as_str())
}

fn page_of(alloc: Global, kind: &str, digits: &str) -> Result<Option<PageRanges>, RowError> {
    let made = match kind {
        "i32" => PageRanges::from_i32(alloc, digits.parse().map_err(|_| RowError::Malformed)?),
        "u32" => PageRanges::try_from_u32(alloc, digits.parse().map_err(|_| RowError::Malformed)?),
        "i64" => PageRanges::try_from_i64(alloc, digits.parse().map_err(|_| RowError::Malformed)?),
        "u64" => PageRanges::try_from_u64(alloc, digits.parse().map_err(|_| RowError::Malformed)?),
        _ => return Err(RowError::Malformed),
    };
    match made {
        Ok(pages) => Ok(Some(pages)),
        Err(PageNumberError::OutOfRange) => Ok(None),
        Err(PageNumberError::OutOfMemory) => Err(RowError::OutOfMemory),
    }
}

fn put_page(alloc: Global, row: &Row, out: &mut String) -> Result<(), RowError> {
    match page_of(alloc, row.word(1)?, row.word(2)?)? {
        Some(pages) => put_debugged(alloc, out, &pages),
        None => put_fault(alloc, out, &PageNumberError::OutOfRange),
    }
}
