//! Calls that no program makes, of texts as long as one likes.
use crate::values::row::{Row, RowError, put as put_column, put_debugged, put_maybe, put_yes};
use haya_bibtex::{BibtexReadError, read_bibtex};
use haya_bibtex_fields::read_variant;
use haya_csl::{ItemKey, read_csl_json};
use haya_entry::{Entry, EntryType};
use haya_json::{ReadError, reads_back, to_json, to_json_pretty};
use haya_lines::{LineError, read_line};
use haya_people::PersonRole;
use haya_text::{ChunkKind, ChunkedString};
use haya_yaml::error::YamlError;
use haya_yaml::reader::to_json_text;
use haya_yaml_library::{YamlReadError, read_yaml};
use hayagriva::Library;
use std::alloc::Global;
use std::str::FromStr;

pub fn put(alloc: Global, row: &Row, out: &mut String) -> Result<(), RowError> {
    let text = row.word(1)?;
    match row.word(0)? {
        "pushed-text" => put_pushed(alloc, text, out),
        "serials" => put_serials(alloc, text, out),
        "with-role" => put_with_role(alloc, text, out),
        "variant" => {
            let read = read_variant(alloc, text)?;
            put_maybe(out, read.value.as_deref())
        }
        "title-in-json" => put_printed(alloc, text, out),
        "title-in-formats" => put_formats(alloc, text, out),
        "name-twice" => put_name_twice(alloc, text, out),
        _ => Err(RowError::Malformed),
    }
}

fn owned(alloc: Global, text: &str) -> Result<String, RowError> {
    Ok(String::from_str(alloc, text)?)
}

// The text, again, and a letter.
fn put_pushed(alloc: Global, text: &str, out: &mut String) -> Result<(), RowError> {
    let mut chunks = ChunkedString::from_string(alloc, owned(alloc, text)?)?;
    chunks.push_str(text, ChunkKind::Normal)?;
    chunks.push_char('é', ChunkKind::Normal)?;
    let given = chunks.to_str(alloc)?;
    put_column(out, given.as_str())
}

// The text as a number of each series.
fn put_serials(alloc: Global, text: &str, out: &mut String) -> Result<(), RowError> {
    let mut entry = Entry::new(alloc, "k", EntryType::Book)?;
    entry.set_doi(owned(alloc, text)?)?;
    entry.set_isbn(owned(alloc, text)?)?;
    entry.set_issn(owned(alloc, text)?)?;
    entry.set_pmid(owned(alloc, text)?)?;
    entry.set_pmcid(owned(alloc, text)?)?;
    entry.set_arxiv(owned(alloc, text)?)?;
    'keys: for key in ["doi", "isbn", "issn", "pmid", "pmcid", "arxiv"] {
        put_yes(out, entry.keyed_serial_number(key) == Some(text))?;
    }
    drop(entry);
    Ok(())
}

// How many translators the entry of a line has.
fn put_with_role(alloc: Global, line: &str, out: &mut String) -> Result<(), RowError> {
    let (_, entry) = read_line(alloc, line, 0).map_err(|error| match error {
        LineError::OutOfMemory => RowError::OutOfMemory,
        _ => RowError::Malformed,
    })?;
    let count = entry
        .affiliated_with_role(alloc, PersonRole::Translator)?
        .len();
    drop(entry);
    put_debugged(alloc, out, &count)
}

// Whether it is a library of the book `k` with this title. The library is let go.
fn has_title(alloc: Global, library: Library, title: &str) -> Result<bool, RowError> {
    let mut has = false;
    if let Some(entry) = library.nth(0)
        && entry.key() == "k"
        && let Some(found) = entry.title()
    {
        let given = found.value.to_str(alloc)?;
        has = library.len() == 1 && given.as_str() == title;
    }
    drop(library);
    Ok(has)
}

// Whether it is such a library, in a column.
fn put_title(
    alloc: Global,
    library: Library,
    title: &str,
    out: &mut String,
) -> Result<(), RowError> {
    put_yes(out, has_title(alloc, library, title)?)
}

// What is read of the same book in each of these formats.
fn put_formats(alloc: Global, title: &str, out: &mut String) -> Result<(), RowError> {
    let text = format!(in alloc; "[{{\"id\":\"k\",\"type\":\"book\",\"title\":\"{title}\"}}]")?;
    match read_csl_json(alloc, ItemKey::CitationKey, text.as_str()) {
        Ok((library, _)) => put_title(alloc, library, title, out)?,
        Err(ReadError::OutOfMemory) => return Err(RowError::OutOfMemory),
        Err(_) => put_column(out, "refused")?,
    }
    let text = format!(in alloc; "k:\n  type: book\n  title: {title}\n")?;
    match read_yaml(alloc, text.as_str()) {
        Ok((library, _)) => put_title(alloc, library, title, out)?,
        Err(YamlReadError::OutOfMemory) => return Err(RowError::OutOfMemory),
        Err(_) => put_column(out, "refused")?,
    }
    let text = format!(in alloc; "@book{{k, title = {{{title}}}}}")?;
    match read_bibtex(alloc, text.as_str()) {
        Ok((library, _)) => put_title(alloc, library, title, out),
        Err(BibtexReadError::OutOfMemory) => Err(RowError::OutOfMemory),
        Err(_) => put_column(out, "refused"),
    }
}

// The book printed in JSON, on a line and laid out, and whether that reads back.
fn put_printed(alloc: Global, title: &str, out: &mut String) -> Result<(), RowError> {
    let text = format!(in alloc; "[{{\"id\":\"k\",\"type\":\"book\",\"title\":\"{title}\"}}]")?;
    let Ok((library, _)) = read_csl_json(alloc, ItemKey::CitationKey, text.as_str()) else {
        return Err(RowError::OutOfMemory);
    };
    let printed = to_json(alloc, &library)?;
    let laid_out = to_json_pretty(alloc, &library)?;
    let is_back = reads_back(alloc, &library)?;
    drop(library);
    put_column(
        out,
        str::from_utf8(&printed).map_err(|_| RowError::Malformed)?,
    )?;
    put_column(
        out,
        str::from_utf8(&laid_out).map_err(|_| RowError::Malformed)?,
    )?;
    put_yes(out, is_back)
}

// The fault of a map that has this name twice, with its place.
fn put_name_twice(alloc: Global, name: &str, out: &mut String) -> Result<(), RowError> {
    let text = format!(in alloc; "\"{name}\": 1\n\"{name}\": 2\n")?;
    match to_json_text(alloc, text.as_str()) {
        Ok(json) => {
            let fault = json.name_twice(alloc)?;
            put_column(out, fault.kind.name())?;
            put_debugged(alloc, out, &fault.line)?;
            put_debugged(alloc, out, &fault.column)
        }
        Err(YamlError::OutOfMemory) => Err(RowError::OutOfMemory),
        Err(YamlError::Refused(_)) => put_column(out, "refused"),
    }
}
