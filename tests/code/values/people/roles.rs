use super::particles::{named, string};
use haya_people::{PersonRole, PersonsWithRoles};
use std::process::Abort;

// Persons of these names, in a role that has no name.
fn persons(rt: &(impl Abort + AllocGlobal), names: &[&str], role: &str) -> PersonsWithRoles {
    let mut persons = Vec::new(rt.alloc());
    for name in names {
        persons.push(named(rt, *name, None)).expect(rt, "memory");
    }
    PersonsWithRoles::new(persons, PersonRole::Unknown(string(rt, role)))
}

// Whether a copy is equal.
fn has_copy(rt: &(impl Abort + AllocGlobal), all: &PersonsWithRoles) -> bool {
    let copy = all.try_clone(rt.alloc()).expect(rt, "memory");
    let same = copy == *all;
    drop(copy);
    same
}

// A role, the names of persons that have it, and whether these are Doe, a gaffer.
const PERSONS: &[(&str, &[&str], bool)] = &[
    ("gaffer", &["Doe"], true),
    (
        "gaffer",
        &["a", "b", "c", "d", "e", "f", "g", "h", "i", "j", "k"],
        false,
    ),
    ("best boy", &["Doe"], false),
    ("", &[], false),
];

#[test]
fn persons_with_roles_are_by_value(rt: HostRuntime) {
    let gaffer = persons(&rt, &["Doe"], "gaffer");
    for (role, names, is_gaffer) in PERSONS {
        let all = persons(&rt, *names, *role);
        let is_copied = has_copy(&rt, &all);
        let same = all == gaffer;
        drop(all);
        assert!(rt; is_copied && same == *is_gaffer, "{role}");
    }
    drop(gaffer);
}
