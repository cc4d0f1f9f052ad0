//! The values of fields.
use haya_bibtex_fields::{
    Eprint, Reading, Serial, TitleTexts, genre_named, read_address, read_doi, read_eprint,
    read_formatted, read_genre, read_joined, read_language, read_note, read_number, read_pages,
    read_plain, read_serial, read_series, read_short_title, read_title, read_url, read_variant,
    read_whole_title,
};
use haya_numbers::{Numeric, PageRanges};
use haya_text::{ChunkedString, FormatString, OutOfMemory};
use haya_values::MaybeTyped;
use std::alloc::{AllocError, Global};

/// What a value says, then the commands that aren't known. A word and a tab say how it is read, as
/// `title`. More texts of one value are behind tabs, and `-` is none.
pub fn line_of(alloc: Global, value: &str) -> Result<String, AllocError> {
    match said_by(alloc, value) {
        Ok(line) => Ok(line),
        Err(OutOfMemory) => Err(AllocError),
    }
}

// What a value says.
fn said_by(alloc: Global, value: &str) -> Result<String, OutOfMemory> {
    let (kind, rest) = value.split_once('\t').unwrap_or((value, ""));
    let (first, others) = rest.split_once('\t').unwrap_or((rest, "-"));
    match kind {
        "whole" | "short" | "joined" | "note" | "eprint" => said_by_texts(
            alloc, kind, first, others,
        ),
        "doi" | "address" | "url" => said_as_it_stands(alloc, kind, first),
        "number" => numbers(alloc, read_number(alloc, first)?),
        "pages" => pages(alloc, read_pages(alloc, first)?),
        "serial" => serials(alloc, read_serial(alloc, first)?),
        "plain" => texts(alloc, read_plain(alloc, first)?),
        "language" => texts(alloc, read_language(alloc, first)?),
        "variant" => texts(alloc, read_variant(alloc, first)?),
        "title" => chunks(alloc, read_title(alloc, first)?),
        "formatted" => chunks(alloc, read_formatted(alloc, first)?),
        "genre" => chunks(alloc, read_genre(alloc, first)?),
        "series" => chunks(alloc, read_series(alloc, first)?),
        "named" => Ok(String::from_str(alloc, genre_named(first).unwrap_or("-"))?),
        _ => Ok(String::from_str(alloc, "?")?),
    }
}

// A text, but where it is `-`.
fn given(text: &str) -> Option<&str> {
    if text == "-" { None } else { Some(text) }
}

// What several texts say: the other ones are behind tabs.
fn said_by_texts(
    alloc: Global,
    kind: &str,
    first: &str,
    others: &str,
) -> Result<String, OutOfMemory> {
    let (second, more) = others.split_once('\t').unwrap_or((others, "-"));
    let (third, fourth) = more.split_once('\t').unwrap_or((more, "-"));
    let title = TitleTexts {
        title: given(first),
        subtitle: given(second),
        addition: given(third),
    };
    match kind {
        "whole" => forms(alloc, read_whole_title(alloc, title, given(fourth))?),
        "short" => forms(alloc, read_short_title(alloc, title, given(fourth))?),
        "joined" => chunks(alloc, read_joined(alloc, title)?),
        "note" => chunks(alloc, read_note(alloc, given(first), given(second))?),
        _ => eprints(alloc, read_eprint(alloc, first, given(second))?),
    }
}

// What a text says that is taken as it stands.
fn said_as_it_stands(alloc: Global, kind: &str, text: &str) -> Result<String, OutOfMemory> {
    let value = match kind {
        "doi" => read_doi(alloc, text)?,
        "address" => read_address(alloc, text)?,
        _ => match read_url(alloc, text, None)? {
            Some(url) => Some(format!(in alloc; "{url}")?),
            None => None,
        },
    };
    match value {
        Some(text) => Ok(text),
        None => Ok(String::from_str(alloc, "-")?),
    }
}

// A line, and the commands that aren't known.
fn with_unknown(mut line: String, unknown: &[String]) -> Result<String, OutOfMemory> {
    for command in unknown {
        line.push_str("; \\")?;
        line.push_str(command.as_str())?;
    }
    Ok(line)
}

fn none(alloc: Global) -> Result<String, OutOfMemory> {
    Ok(String::from_str(alloc, "-")?)
}

fn texts(alloc: Global, reading: Reading<String>) -> Result<String, OutOfMemory> {
    let Reading { value, unknown } = reading;
    let line = match value {
        Some(text) => text,
        None => none(alloc)?,
    };
    with_unknown(line, unknown.as_slice())
}

fn chunks(alloc: Global, reading: Reading<ChunkedString>) -> Result<String, OutOfMemory> {
    let Reading { value, unknown } = reading;
    let line = match value {
        Some(text) => text.to_serialized(alloc)?,
        None => none(alloc)?,
    };
    with_unknown(line, unknown.as_slice())
}

fn forms(alloc: Global, reading: Reading<FormatString>) -> Result<String, OutOfMemory> {
    let Reading { value, unknown } = reading;
    let mut line = match &value {
        Some(text) => text.value.to_serialized(alloc)?,
        None => none(alloc)?,
    };
    if let Some(text) = value {
        if let Some(short) = &text.short {
            let short = short.to_serialized(alloc)?;
            line.push_str(" | ")?;
            line.push_str(short.as_str())?;
        }
    }
    with_unknown(line, unknown.as_slice())
}

fn numbers(alloc: Global, reading: Reading<MaybeTyped<Numeric>>) -> Result<String, OutOfMemory> {
    let Reading { value, unknown } = reading;
    let line = match value {
        Some(MaybeTyped::Typed(number)) => format!(in alloc; "number {number}")?,
        Some(MaybeTyped::String(text)) => format!(in alloc; "text {text}")?,
        None => none(alloc)?,
    };
    with_unknown(line, unknown.as_slice())
}

fn pages(alloc: Global, reading: Reading<MaybeTyped<PageRanges>>) -> Result<String, OutOfMemory> {
    let Reading { value, unknown } = reading;
    let line = match value {
        Some(MaybeTyped::Typed(pages)) => format!(in alloc; "pages {pages}")?,
        Some(MaybeTyped::String(text)) => format!(in alloc; "text {text}")?,
        None => none(alloc)?,
    };
    with_unknown(line, unknown.as_slice())
}

fn serials(alloc: Global, reading: Reading<Serial>) -> Result<String, OutOfMemory> {
    let Reading { value, unknown } = reading;
    let line = match value {
        Some(Serial::Arxiv(number)) => format!(in alloc; "arxiv {number}")?,
        Some(Serial::Other(number)) => format!(in alloc; "serial {number}")?,
        None => none(alloc)?,
    };
    with_unknown(line, unknown.as_slice())
}

fn eprints(alloc: Global, reading: Reading<Eprint>) -> Result<String, OutOfMemory> {
    let Reading { value, unknown } = reading;
    let line = match value {
        Some(Eprint::Arxiv(number)) => format!(in alloc; "arxiv {number}")?,
        Some(Eprint::Pmid(number)) => format!(in alloc; "pmid {number}")?,
        Some(Eprint::Pmcid(number)) => format!(in alloc; "pmcid {number}")?,
        Some(Eprint::Kept(archive, number)) => {
            let archive = archive.to_serialized(alloc)?;
            format!(in alloc; "archive {archive} has {number}")?
        }
        Some(Eprint::Address(address)) => format!(in alloc; "address {address}")?,
        Some(Eprint::Unread) => String::from_str(alloc, "unread")?,
        None => none(alloc)?,
    };
    with_unknown(line, unknown.as_slice())
}
