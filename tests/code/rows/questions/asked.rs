//! What is asked of the hits of a library.
use crate::questions::Question;
use crate::questions::error::RowError;
use haya_asked::{duplicate_hits, parse_places, parse_sort_keys, unique_hits};
use haya_line_library::read_library;
use haya_questions::{Place, SortKey, Table, Test, columns_text, sort_hits, values};
use hayagriva::{HashKeys, Hit, Library, Steps};
use std::alloc::Global;
use std::fmt;

/// What a place, a test or a key of a sort is read as.
pub fn push_read(alloc: Global, question: &Question, said: &mut String) -> Result<(), RowError> {
    let words = question.words;
    match question.kind {
        "place" => {
            if let Some(place) = read(Place::parse(alloc, words), said)? {
                write!(said, "{place}")?;
            }
        }
        "test" => {
            if let Some(test) = read(Test::parse(alloc, words), said)? {
                let operator = test.operator.as_str();
                write!(said, "{} {operator} {:?}", test.place, test.wanted)?;
            }
        }
        _ => {
            if let Some(key) = read(SortKey::parse(alloc, words), said)? {
                let sign = if key.is_reversed { "-" } else { "" };
                write!(said, "{sign}{}", key.place)?;
            }
        }
    }
    Ok(())
}

// What was read; where it is a fault, its name is said.
fn read<T: Drop, E: fmt::Debug + Drop>(
    read: Result<T, E>,
    said: &mut String,
) -> Result<Option<T>, RowError> {
    match read {
        Ok(value) => Ok(Some(value)),
        Err(fault) => {
            write!(said, "{fault:?}")?;
            Ok(None)
        }
    }
}

/// What is asked of the hits of a selector in a library.
pub fn push_hits(alloc: Global, question: &Question, said: &mut String) -> Result<(), RowError> {
    let library = read_library(alloc, HashKeys::new(1, 2), question.library)?;
    push_answer(alloc, &library, question, said)
}

fn push_answer(
    alloc: Global,
    library: &Library,
    question: &Question,
    said: &mut String,
) -> Result<(), RowError> {
    let hits = library.query(alloc, question.selector, &mut Steps::new())?;
    let words = question.words;
    match question.kind {
        "where" => push_where(alloc, hits.as_slice(), words, said),
        "values" => push_values(alloc, hits.as_slice(), words, said),
        "sort" => push_sorted(alloc, hits, words, said),
        "unique" => push_left(alloc, hits, words, true, said),
        "duplicates" => push_left(alloc, hits, words, false, said),
        "columns-csv" => push_table(alloc, hits.as_slice(), words, (Table::Csv, true), said),
        "columns-tsv" => push_table(alloc, hits.as_slice(), words, (Table::Tsv, true), said),
        "rows-csv" => push_table(alloc, hits.as_slice(), words, (Table::Csv, false), said),
        "rows-tsv" => push_table(alloc, hits.as_slice(), words, (Table::Tsv, false), said),
        _ => Err(RowError::Malformed),
    }
}

// The keys of the hits of which a test holds.
fn push_where(alloc: Global, hits: &[Hit], words: &str, said: &mut String) -> Result<(), RowError> {
    let Some(test) = read(Test::parse(alloc, words), said)? else {
        return Ok(());
    };
    for hit in hits {
        if test.holds(alloc, hit)? {
            push_key(hit, said)?;
        }
    }
    Ok(())
}

// Puts the key of a hit behind the others, with a blank between them.
fn push_key(hit: &Hit, said: &mut String) -> Result<(), RowError> {
    if !said.is_empty() {
        said.push(' ')?;
    }
    said.push_str(hit.entry.key())?;
    Ok(())
}

// A line for each hit: its key, and a tab before each value.
fn push_values(
    alloc: Global,
    hits: &[Hit],
    words: &str,
    said: &mut String,
) -> Result<(), RowError> {
    let Some(place) = read(Place::parse(alloc, words), said)? else {
        return Ok(());
    };
    for hit in hits {
        said.push_str(hit.entry.key())?;
        for value in values(alloc, hit, &place)? {
            write!(said, "\t{value}")?;
        }
        said.push('\n')?;
    }
    Ok(())
}

// The keys of the hits in order.
fn push_sorted(
    alloc: Global,
    hits: Vec<Hit>,
    words: &str,
    said: &mut String,
) -> Result<(), RowError> {
    let Some(keys) = read(parse_sort_keys(alloc, words), said)? else {
        return Ok(());
    };
    let sorted = sort_hits(alloc, hits, keys.as_slice())?;
    for hit in sorted.as_slice() {
        push_key(hit, said)?;
    }
    Ok(())
}

// The keys of the hits that are left of those that share values.
fn push_left(
    alloc: Global,
    hits: Vec<Hit>,
    words: &str,
    is_unique: bool,
    said: &mut String,
) -> Result<(), RowError> {
    let Some(places) = read(parse_places(alloc, words), said)? else {
        return Ok(());
    };
    let keys = HashKeys::new(3, 4);
    let left = if is_unique {
        unique_hits(alloc, keys, hits, places.as_slice())?
    } else {
        duplicate_hits(alloc, keys, hits, places.as_slice())?
    };
    for hit in left.as_slice() {
        push_key(hit, said)?;
    }
    Ok(())
}

// The table, with a header or without.
fn push_table(
    alloc: Global,
    hits: &[Hit],
    words: &str,
    form: (Table, bool),
    said: &mut String,
) -> Result<(), RowError> {
    let Some(places) = read(parse_places(alloc, words), said)? else {
        return Ok(());
    };
    let (table, has_header) = form;
    let text = columns_text(alloc, hits, places.as_slice(), table, has_header)?;
    said.push_str(text.as_str())?;
    Ok(())
}
