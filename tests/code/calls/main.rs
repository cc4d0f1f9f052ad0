//! Runs the test that the word names, or prints all names: `calls`, which `tests/try.sh` writes, has the
//! tests of the folders beside this one.
#![tactic(auto)]

mod calls;

use std::env;
use std::process::ExitCode;

fn main(rt: HostRuntime) -> ExitCode {
    let Ok(mut words) = env::args(&rt) else {
        // Where this fails, the status says it all.
        let _ = rt.eprintln("out of memory");
        return ExitCode::from(1);
    };
    let word = words.nth(1);
    calls::main(&rt, word.as_ref().map(|word| word.as_str()))
}
