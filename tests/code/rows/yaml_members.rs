//! Reads texts in YAML from standard input, with U+001E between them, and prints on a line of each
//! its members as they are in it, each in `<` and `>`, with `\n` and `\r` for what ends their lines,
//! or `-` where it is no map over lines.

use haya_yaml_slices::member_slices;
use std::io;
use std::process::ExitCode;

pub fn main(rt: HostRuntime) -> ExitCode {
    match print_all(&rt) {
        Ok(()) => ExitCode::from(0),
        Err(_) => ExitCode::from(1),
    }
}

// Prints the line of each text.
fn print_all(rt: &HostRuntime) -> io::Result<()> {
    let all = io::read_to_string(rt.alloc(), rt.stdin())?;
    for text in all.as_str().split('\u{1e}') {
        match member_slices(rt.alloc(), text)? {
            Some(parts) => {
                for part in &parts {
                    print!(rt; "<")?;
                    print_part(rt, part)?;
                    print!(rt; ">")?;
                }
            }
            None => print!(rt; "-")?,
        }
        println!(rt; "")?;
    }
    Ok(())
}

// Prints a member on one line.
fn print_part(rt: &HostRuntime, part: &str) -> io::Result<()> {
    for sign in part.chars() {
        match sign {
            '\n' => print!(rt; "\\n")?,
            '\r' => print!(rt; "\\r")?,
            _ => print!(rt; "{sign}")?,
        }
    }
    Ok(())
}
