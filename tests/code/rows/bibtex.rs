//! Answers rows of `.bib` files: for each record of standard input, a kind and a text with a tab
//! between them, it prints a line of what the text says. Records have U+001E between them.

use haya_bibtex_values::{as_it_stands, doi_in, is_address, single_hyphens};
use std::alloc::{AllocError, Global};
use std::io;
use std::process::ExitCode;

mod dates;
mod entries;
mod fields;
mod inherited;
mod names;
mod texts;

pub fn main(rt: HostRuntime) -> ExitCode {
    match print_all(&rt) {
        Ok(()) => ExitCode::from(0),
        Err(error) => {
            let what = match error.kind() {
                io::ErrorKind::OutOfMemory => "out of memory",
                _ => "cannot read or write",
            };
            // Where this fails, the status says it all.
            let _ = rt.eprintln(what);
            ExitCode::from(1)
        }
    }
}

// Prints a line of each record.
fn print_all(rt: &HostRuntime) -> io::Result<()> {
    let all = io::read_to_string(rt.alloc(), rt.stdin())?;
    for record in all.as_str().split('\u{1e}') {
        let line = line_of(rt.alloc(), record)?;
        println!(rt; "{line}")?;
    }
    Ok(())
}

// What a text of a kind says: the entries of a text, its library, the value of a field, the text of
// a value, a list of names, the fields of a date, a value as it stands, a DOI, pages, or whether it
// is an address.
fn line_of(alloc: Global, record: &str) -> Result<String, AllocError> {
    match record.split_once('\t') {
        Some(("entries", text)) => entries::line_of(alloc, text),
        Some(("library", text)) => inherited::line_of(alloc, text),
        Some(("field", text)) => fields::line_of(alloc, text),
        Some(("text", text)) => texts::line_of(alloc, text),
        Some(("names", text)) => names::line_of(alloc, text),
        Some(("date", text)) => dates::line_of(alloc, text),
        Some(("stands", text)) => as_it_stands(alloc, text),
        Some(("doi", text)) => doi_in(alloc, text),
        Some(("pages", text)) => single_hyphens(alloc, text),
        Some(("address", text)) => {
            String::from_str(
                alloc,
                if is_address(alloc, text)? {
                    "yes"
                } else {
                    "no"
                },
            )
        }
        _ => String::from_str(alloc, "no kind"),
    }
}
