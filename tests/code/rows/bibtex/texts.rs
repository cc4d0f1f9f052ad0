//! The text of a value in LaTeX.
use haya_latex::{Kind, Run, read_names, read_text};
use std::alloc::{AllocError, Global};

/// What a text says: its runs, each in brackets behind the first letter of its kind, then the
/// commands that aren't known, each behind a backslash. A text behind `@` is read as names. White
/// characters that are no blanks are printed by their codes, as `<a0>`.
pub fn line_of(alloc: Global, text: &str) -> Result<String, AllocError> {
    match text.strip_prefix("@") {
        Some(names) => said_by_names(alloc, names),
        None => said_by_text(alloc, text),
    }
}

// What a text says.
fn said_by_text(alloc: Global, text: &str) -> Result<String, AllocError> {
    let text = read_text(alloc, text)?;
    let mut line = String::new(alloc);
    for run in &text.runs {
        push_run(&mut line, alloc, run)?;
    }
    push_unknown(&mut line, text.unknown.as_slice())?;
    Ok(line)
}

// What names say.
fn said_by_names(alloc: Global, text: &str) -> Result<String, AllocError> {
    let names = read_names(alloc, text)?;
    let mut line = String::new(alloc);
    let mut before = None;
    for (c, kind) in &names.chars {
        if before != Some(*kind) {
            if before.is_some() {
                line.push(']')?;
            }
            line.push(letter(*kind))?;
            line.push('[')?;
        }
        push_char(&mut line, alloc, *c)?;
        before = Some(*kind);
    }
    if before.is_some() {
        line.push(']')?;
    }
    push_unknown(&mut line, names.unknown.as_slice())?;
    Ok(line)
}

fn push_run(line: &mut String, alloc: Global, run: &Run) -> Result<(), AllocError> {
    line.push(letter(run.kind))?;
    line.push('[')?;
    for c in run.text.as_str().chars() {
        push_char(line, alloc, c)?;
    }
    line.push(']')?;
    Ok(())
}

fn push_char(line: &mut String, alloc: Global, c: char) -> Result<(), AllocError> {
    if c.is_whitespace() && c != ' ' {
        line.push_str(format!(in alloc; "<{:x}>", c as u32)?.as_str())?;
    } else {
        line.push(c)?;
    }
    Ok(())
}

fn push_unknown(line: &mut String, unknown: &[String]) -> Result<(), AllocError> {
    for name in unknown {
        line.push_str(" \\")?;
        line.push_str(name.as_str())?;
    }
    Ok(())
}

// The first letter of a kind.
fn letter(kind: Kind) -> char {
    match kind {
        Kind::Normal => 'N',
        Kind::Verbatim => 'V',
        Kind::Math => 'M',
        Kind::Free => 'F',
        Kind::Special => 'S',
    }
}
