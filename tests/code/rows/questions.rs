//! Reads questions from standard input, with U+001E between them, and prints what each is answered
//! on a line, or the name of its fault. A question is four texts with U+001F between them: what is
//! asked for, a library in lines, a selector, and a test, places, or keys of a sort.

mod asked;
mod error;

use asked::{push_hits, push_read};
use error::RowError;
use std::alloc::Global;
use std::io;
use std::process::ExitCode;

/// The four texts of a question.
#[derive(Clone, Copy)]
pub struct Question<'t> {
    /// What is asked for.
    pub kind: &'t str,
    /// A library in lines.
    pub library: &'t str,
    /// The selector of the hits.
    pub selector: &'t str,
    /// A test, places, or keys of a sort.
    pub words: &'t str,
}

fn question_of(text: &str) -> Option<Question<'_>> {
    let (kind, rest) = text.split_once('\u{1f}')?;
    let (library, rest) = rest.split_once('\u{1f}')?;
    let (selector, words) = rest.split_once('\u{1f}')?;
    Some(Question {
        kind,
        library,
        selector,
        words,
    })
}

// The line of an answer.
fn answer(alloc: Global, text: &str) -> Result<String, RowError> {
    let question = question_of(text).ok_or(RowError::Malformed)?;
    let mut said = String::new(alloc);
    match question.kind {
        "place" | "test" | "key" => push_read(alloc, &question, &mut said)?,
        _ => push_hits(alloc, &question, &mut said)?,
    }
    escaped(alloc, said.as_str())
}

// The text on one line.
fn escaped(alloc: Global, text: &str) -> Result<String, RowError> {
    let mut line = String::new(alloc);
    for c in text.chars() {
        match c {
            '\\' => line.push_str("\\\\")?,
            '\t' => line.push_str("\\t")?,
            '\n' => line.push_str("\\n")?,
            '\r' => line.push_str("\\r")?,
            c => line.push(c)?,
        }
    }
    Ok(line)
}

pub fn main(rt: HostRuntime) -> ExitCode {
    match print_all(&rt) {
        Ok(()) => ExitCode::from(0),
        Err(_) => ExitCode::from(1),
    }
}

// Prints the line of each text.
fn print_all(rt: &HostRuntime) -> io::Result<()> {
    let all = io::read_to_string(rt.alloc(), rt.stdin())?;
    for text in all.as_str().split('\u{1e}') {
        match answer(rt.alloc(), text) {
            Ok(line) => println!(rt; "{line}")?,
            Err(RowError::Malformed) => println!(rt; "no question")?,
            Err(RowError::OutOfMemory) => println!(rt; "out of memory")?,
        }
    }
    Ok(())
}
