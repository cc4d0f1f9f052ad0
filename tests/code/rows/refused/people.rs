//! Persons, and copies of what no text reads as.
use super::calls::copies;
use super::marks::Memory::Taken;
use super::marks::Row;
use super::texts::string;
use haya_people::{Person, PersonRole, PersonsWithRoles};
use haya_text::ReadText;
use std::io::Print;
use std::process::Abort;

pub(crate) fn person(rt: &(impl Abort + AllocGlobal), text: &str) -> Person {
    Person::from_str(rt.alloc(), text).expect(rt, "a person")
}

fn row(call: &str) -> Row<'_> {
    Row(call, "a person with all parts", Taken)
}

pub(crate) fn copied(rt: &(impl Abort + AllocGlobal + Print)) {
    let read = person(rt, "van Dissmer,Jr.,Courtney Deliah");
    let known = Person {
        alias: Some(string(rt, "Dissmer the elder")),
        ..read
    };
    copies(rt, row("Person::try_clone"), known);
    let role = PersonRole::Unknown(string(rt, "reader"));
    copies(rt, row("PersonRole::try_clone"), role);
    let names = vec![in rt.alloc(); person(rt, "A, B"), person(rt, "de C, D")];
    let names = names.expect(rt, "memory");
    let role = PersonRole::Unknown(string(rt, "reader"));
    let listed = PersonsWithRoles::new(names, role);
    copies(rt, row("PersonsWithRoles::try_clone"), listed);
}
