//! Reads texts in the format of `.bib` files from standard input, with U+001E between them, and
//! prints of each two lines: its entries in lines, or as JSON where no line says them, and what is
//! passed over, or the fault; and the library in hayagriva's format. In the first of them `⏎` is the
//! end of a line, and `¦` a tab.

use haya_bibtex::{BibtexReadError, read_bibtex};
use haya_bibtex_text::Fault;
use haya_entry::Entry;
use haya_json::{Notes, to_json};
use haya_printing::{LinesError, entry_lines};
use hayagriva::Library;
use std::alloc::{AllocError, Global};
use std::fmt::Write;
use std::io;
use std::process::ExitCode;

pub fn main(rt: HostRuntime) -> ExitCode {
    match print_all(&rt) {
        Ok(()) => ExitCode::from(0),
        Err(error) => {
            let what = match error.kind() {
                io::ErrorKind::OutOfMemory => "out of memory",
                _ => "cannot read or write",
            };
            // Where this fails, the status says it all.
            let _ = rt.eprintln(what);
            ExitCode::from(1)
        }
    }
}

// Prints the lines of each text.
fn print_all(rt: &HostRuntime) -> io::Result<()> {
    let all = io::read_to_string(rt.alloc(), rt.stdin())?;
    for text in all.as_str().split('\u{1e}') {
        let lines = lines_of(rt.alloc(), text)?;
        println!(rt; "{lines}")?;
    }
    Ok(())
}

// The two lines of a text.
fn lines_of(alloc: Global, text: &str) -> Result<String, AllocError> {
    match read_bibtex(alloc, text) {
        Ok((library, notes)) => {
            let mut lines = shown(alloc, &library, &notes)?;
            lines.push('\n')?;
            push_json(alloc, &mut lines, &library)?;
            Ok(lines)
        }
        Err(BibtexReadError::NotBibtex(fault)) => fault_lines(alloc, fault),
        Err(BibtexReadError::OutOfMemory) => Err(AllocError),
    }
}

// The place and the name of a fault, and no library.
fn fault_lines(alloc: Global, fault: Fault) -> Result<String, AllocError> {
    let Fault { kind, line, column } = fault;
    let name = kind.name();
    format!(in alloc; "fault at {line}:{column}: {name}\nnull")
}

// The entries of a library, and what is passed over.
fn shown(alloc: Global, library: &Library, notes: &Notes) -> Result<String, AllocError> {
    let mut text = String::new(alloc);
    for entry in library.iter() {
        push_entry(alloc, &mut text, entry)?;
    }
    push_notes(&mut text, notes)?;
    Ok(text)
}

// Adds the lines of an entry, or its JSON.
fn push_entry(alloc: Global, text: &mut String, entry: &Entry) -> Result<(), AllocError> {
    match entry_lines(alloc, entry) {
        Ok(lines) => push_lines(text, lines.as_str()),
        Err(LinesError::OutOfMemory) => Err(AllocError),
        Err(error) => {
            drop(error);
            push_end(text)?;
            text.push_str("no line says ")?;
            text.push_str(entry.key())
        }
    }
}

// Adds lines, with signs for what ends them and for tabs.
fn push_lines(text: &mut String, lines: &str) -> Result<(), AllocError> {
    for line in lines.lines() {
        push_end(text)?;
        for c in line.chars() {
            match c {
                '\t' => text.push_str(" ¦ ")?,
                _ => text.push(c)?,
            }
        }
    }
    Ok(())
}

// Adds the end of a line, where there is one before.
fn push_end(text: &mut String) -> Result<(), AllocError> {
    if text.is_empty() {
        return Ok(());
    }
    text.push_str(" ⏎ ")
}

// Adds what is passed over, if anything is.
fn push_notes(text: &mut String, notes: &Notes) -> Result<(), AllocError> {
    if notes.is_empty() {
        return Ok(());
    }
    push_end(text)?;
    text.push_str("passed over: ")?;
    let mut is_first = true;
    for (name, count) in notes.ignored().iter() {
        if !is_first {
            text.push_str(", ")?;
        }
        push_name(text, name, count)?;
        is_first = false;
    }
    Ok(())
}

// Adds a name, and how often it comes.
fn push_name(text: &mut String, name: &str, count: u64) -> Result<(), AllocError> {
    write!(text, "{name} ({count})")
}

// Adds the library in hayagriva's format.
fn push_json(alloc: Global, text: &mut String, library: &Library) -> Result<(), AllocError> {
    let Ok(json) = to_json(alloc, library) else {
        return Err(AllocError);
    };
    match str::from_utf8(json.as_slice()) {
        Ok(json) => text.push_str(json),
        Err(_) => Ok(()),
    }
}
