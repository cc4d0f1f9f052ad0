//! Libraries in JSON: calls that the programs don't make.
use super::calls::asks;
use super::marks::Memory::{NotTaken, Optional};
use super::marks::Row;
use haya_csl::{ItemKey, read_csl_json};
use haya_json::{Ignored, ReadError, read_library, reads_back, to_json, to_json_pretty};
use haya_text::OutOfMemory;
use haya_yaml_library::{YamlReadError, read_yaml};
use hayagriva::Library;
use std::alloc::Global;
use std::io::Print;
use std::process::Abort;

// A library as it is printed, with values of every kind.
const PRINTED: &str = concat!(
    r#"{"k":{"type":"book","title":{"value":"A {B} of $x$","short":"B"},"#,
    r#""author":["van Berg, Jan","B"],"affiliated":{"role":"translator","names":"A"},"#,
    r#""date":"2014-05-01","publisher":{"name":"P","location":"L"},"#,
    r#""url":{"value":"u","date":2020},"issue":"2–5","chapter":"some","page-range":"17","#,
    r#""time-range":"01:00-02:00","runtime":"01:30:00","#,
    r#""serial-number":{"a":"2","b":"1"},"language":"de","#,
    r#""parent":[{"type":"misc"},{"type":"web","key":"own"}]},"l":{"type":"misc"}}"#,
);

fn is_read(alloc: Global, wanted: &Library) -> Result<bool, OutOfMemory> {
    match read_library(alloc, PRINTED) {
        Ok((read, notes)) => {
            let is_equal = read == *wanted && notes.is_empty();
            drop(read);
            drop(notes);
            Ok(is_equal)
        }
        Err(ReadError::OutOfMemory) => Err(OutOfMemory),
        Err(_) => Ok(false),
    }
}

fn is_printed(alloc: Global, library: &Library) -> Result<bool, OutOfMemory> {
    Ok(to_json(alloc, library)?.as_slice() == PRINTED.as_bytes())
}

const SMALL: &str = r#"{"l":{"type":"misc"}}"#;

const SMALL_LINES: &str = "{\n  \"l\": {\n    \"type\": \"misc\"\n  }\n}";

fn is_pretty(alloc: Global, library: &Library) -> Result<bool, OutOfMemory> {
    Ok(to_json_pretty(alloc, library)?.as_slice() == SMALL_LINES.as_bytes())
}

fn is_read_back(alloc: Global, library: &Library) -> Result<bool, OutOfMemory> {
    reads_back(alloc, library)
}

pub(crate) fn libraries(rt: &(impl Abort + AllocGlobal + Print)) {
    let (library, notes) = read_library(rt.alloc(), PRINTED).expect(rt, "a library");
    drop(notes);
    let row = Row("read_library", "values of every kind", Optional);
    asks!(rt, row, is_read(rt.alloc(), &library));
    let row = Row("to_json", "values of every kind", Optional);
    asks!(rt, row, is_printed(rt.alloc(), &library));
    let row = Row("reads_back", "values of every kind", Optional);
    asks!(rt, row, is_read_back(rt.alloc(), &library));
    drop(library);
}

pub(crate) fn laid_out(rt: &(impl Abort + AllocGlobal + Print)) {
    let (library, notes) = read_library(rt.alloc(), SMALL).expect(rt, "a library");
    drop(notes);
    let row = Row("to_json_pretty", "an entry", Optional);
    asks!(rt, row, is_pretty(rt.alloc(), &library));
    drop(library);
}

// Members of every kind, a journal, a member that has no place in an entry, values that aren't read,
// and a key that comes again.
const ITEMS: &str = concat!(
    r#"[{"id":"k","type":"article-journal","title":"A <i>b</i> {c}","title-short":"A","#,
    r#""author":[{"family":"Berg","given":"Jan","non-dropping-particle":"van"},"#,
    r#"{"literal":"B"}],"translator":[{"family":"T"}],"#,
    r#""issued":{"date-parts":[[2014,"5",1]]},"accessed":{"raw":"2020-01-02"},"#,
    r#""container-title":"J","volume":2,"issue":"1-2","page":"17","DOI":"10/1","#,
    r#""ISSN":"1","URL":"u","language":"de","publisher":"P","publisher-place":"L","#,
    r#""collection-title":"S","citation-key":"x","version":1},{"id":2,"type":"tale"},"#,
    r#"{"id":"2","type":"book","number-of-pages":"some"}]"#,
);

fn are_items_read(alloc: Global, wanted: &Library) -> Result<bool, OutOfMemory> {
    match read_csl_json(alloc, ItemKey::CitationKey, ITEMS) {
        Ok((read, notes)) => {
            let is_told = notes.ignored().count("version") == 1 && notes.lines().len() == 3;
            let is_equal = read == *wanted && is_told;
            drop(read);
            drop(notes);
            Ok(is_equal)
        }
        Err(ReadError::OutOfMemory) => Err(OutOfMemory),
        Err(_) => Ok(false),
    }
}

pub(crate) fn items(rt: &(impl Abort + AllocGlobal + Print)) {
    let (wanted, notes) = read_csl_json(rt.alloc(), ItemKey::CitationKey, ITEMS).expect(
        rt,
        "a library",
    );
    drop(notes);
    let row = Row("read_csl_json", "members of every kind", Optional);
    asks!(rt, row, are_items_read(rt.alloc(), &wanted));
    drop(wanted);
}

// A library in YAML, with values of every kind.
const YAML: &str = concat!(
    "# a library\nk:\n  type: book\n  title: {value: \"A {B} \\u00e9\", short: 'it''s'}\n",
    "  author: [\"van Berg, Jan\", B]\n  note: |2-\n    one\n     two\n",
    "  abstract: >+\n    folded\n    text\n\n    more\n\n  publisher: plain text\n    over lines\n",
    "  \"volume\": 9\n  parent:\n  - type: misc\n  -\n    type: web\nl: {type: misc}\n",
);

fn is_yaml_read(alloc: Global, wanted: &Library) -> Result<bool, OutOfMemory> {
    match read_yaml(alloc, YAML) {
        Ok((read, notes)) => {
            let is_equal = read == *wanted && notes.is_empty();
            drop(read);
            drop(notes);
            Ok(is_equal)
        }
        Err(YamlReadError::OutOfMemory) => { Err(OutOfMemory) }
        Err(_) => Ok(false),
    }
}

pub(crate) fn yaml(rt: &(impl Abort + AllocGlobal + Print)) {
    let (wanted, notes) = read_yaml(rt.alloc(), YAML).expect(rt, "a library");
    drop(notes);
    let row = Row("read_yaml", "values of every kind", Optional);
    asks!(rt, row, is_yaml_read(rt.alloc(), &wanted));
    drop(wanted);
}

fn is_new(alloc: Global) -> Result<bool, OutOfMemory> {
    let ignored = Ignored::new(alloc);
    let is_empty = ignored.is_empty();
    drop(ignored);
    Ok(is_empty)
}

pub(crate) fn none_ignored(rt: &(impl Abort + AllocGlobal + Print)) {
    asks!(
        rt,
        Row("Ignored::new", "none", NotTaken),
        is_new(rt.alloc())
    );
}
