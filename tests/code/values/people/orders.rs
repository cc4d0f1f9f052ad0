use super::particles::{maybe, string};
use haya_people::Person;
use std::cmp::Ordering;
use std::cmp::Ordering::Equal;
use std::process::Abort;

// Name, prefix, given name and suffix.
type Parts = (
    &'static str,
    Option<&'static str>,
    Option<&'static str>,
    Option<&'static str>,
);

fn person(rt: &(impl Abort + AllocGlobal), parts: &Parts) -> Person {
    Person {
        name: string(rt, parts.0),
        given_name: maybe(rt, parts.2),
        prefix: maybe(rt, parts.1),
        suffix: maybe(rt, parts.3),
        comma_suffix: false,
        alias: None,
    }
}

// Ascending by name, given name, suffix and prefix.
const ASCENDING: &[Parts] = &[
    ("", None, None, None),
    ("Doe", Some("z"), None, None),
    ("Doe", Some("z"), None, Some("Jr.")),
    ("Doe", None, Some("Jane"), None),
    ("Doe", None, Some("Jane"), Some("Jr.")),
    ("Doe", Some("a"), Some("Jane"), Some("Jr.")),
    ("doe", None, None, None),
];

fn put(rt: &(impl Abort + AllocGlobal), persons: &mut Vec<Person>, person: Person) {
    persons.push(person).expect(rt, "memory");
}

// The same persons, and then by alias and by the comma.
fn ascending(rt: &(impl Abort + AllocGlobal)) -> Vec<Person> {
    let mut persons = Vec::new(rt.alloc());
    for row in ASCENDING {
        put(rt, &mut persons, person(rt, row));
    }
    let mut aliased = person(rt, &("doe", None, None, None));
    aliased.alias = Some(string(rt, "z"));
    put(rt, &mut persons, aliased);
    let mut comma = person(rt, &("doe", None, None, None));
    comma.comma_suffix = true;
    put(rt, &mut persons, comma);
    persons
}

// Whether two persons stand to each other as their places do.
fn stand_as(a: &Person, b: &Person, places: Ordering) -> bool {
    a.cmp(b) == places && (a == b) == (places == Equal) && a.partial_cmp(b) == Some(places)
}

// The first two places where persons aren't in order.
fn disorder(persons: &[Person]) -> Option<(usize, usize)> {
    for (i, a) in persons.iter().enumerate() {
        for (j, b) in persons.iter().enumerate() {
            if !stand_as(a, b, i.cmp(&j)) {
                return Some((i, j));
            }
        }
    }
    None
}

#[test]
fn orders_persons_by_all_parts(rt: HostRuntime) {
    let persons = ascending(&rt);
    let found = disorder(persons.as_slice());
    drop(persons);
    assert!(rt; found.is_none(), "{found:?}");
}
