//! Answers rows of tests: the word says of what, and each row of standard input is answered by a line
//! or two. A row of values is a line, and any other ends before the next U+001E. `refused` makes calls
//! whose requests for memory are refused.
#![tactic(auto)]

mod bibtex;
mod bibtex_library;
mod questions;
mod refused;
mod values;
mod yaml;
mod yaml_members;

use std::env;
use std::process::ExitCode;

fn main(rt: HostRuntime) -> ExitCode {
    let Ok(mut words) = env::args(&rt) else {
        // Where this fails, the status says it all.
        let _ = rt.eprintln("out of memory");
        return ExitCode::from(1);
    };
    let word = words.nth(1);
    match word.as_ref().map_or("", |word| word.as_str()) {
        "values" => values::main(rt),
        "questions" => questions::main(rt),
        "bibtex" => bibtex::main(rt),
        "bibtex-library" => bibtex_library::main(rt),
        "yaml" => yaml::main(rt),
        "yaml-members" => yaml_members::main(rt),
        "refused" => {
            let name = words.next();
            refused::main(&rt, name.as_ref().map(|name| name.as_str()))
        }
        _ => ExitCode::from(2),
    }
}
