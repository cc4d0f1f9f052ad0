use haya_people::Person;
use std::process::Abort;

pub fn string(rt: &(impl Abort + AllocGlobal), text: &str) -> String {
    String::from_str(rt.alloc(), text).expect(rt, "memory")
}

pub fn maybe(rt: &(impl Abort + AllocGlobal), text: Option<&str>) -> Option<String> {
    match text {
        Some(text) => Some(string(rt, text)),
        None => None,
    }
}

// A person of this name and prefix, without other parts.
pub fn named(rt: &(impl Abort + AllocGlobal), name: &str, prefix: Option<&str>) -> Person {
    Person {
        name: string(rt, name),
        given_name: None,
        prefix: maybe(rt, prefix),
        suffix: None,
        comma_suffix: false,
        alias: None,
    }
}
