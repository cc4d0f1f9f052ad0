//! Reads texts in YAML from standard input, with U+001E between them, and prints of each its JSON
//! on a line, or the name of its fault with the line and the column.

use haya_yaml::error::YamlError;
use haya_yaml::reader::to_json;
use std::io;
use std::process::ExitCode;

pub fn main(rt: HostRuntime) -> ExitCode {
    match print_all(&rt) {
        Ok(()) => ExitCode::from(0),
        Err(_) => ExitCode::from(1),
    }
}

// Prints the line of each text.
fn print_all(rt: &HostRuntime) -> io::Result<()> {
    let all = io::read_to_string(rt.alloc(), rt.stdin())?;
    for text in all.as_str().split('\u{1e}') {
        match to_json(rt.alloc(), text) {
            Ok(bytes) => {
                let shown = std::str::from_utf8(bytes.as_slice()).unwrap_or("not UTF-8");
                println!(rt; "{shown}")?;
            }
            Err(YamlError::Refused(fault)) => {
                let name = fault.kind.name();
                println!(rt; "{name} {}:{}", fault.line, fault.column)?;
            }
            Err(YamlError::OutOfMemory) => println!(rt; "out of memory")?,
        }
    }
    Ok(())
}
