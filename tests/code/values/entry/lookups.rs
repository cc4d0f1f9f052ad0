//! Worked rows of the look-ups.
use super::lists::none;
use haya_entry::{Entry, EntryType};
use haya_people::{Person, PersonRole, PersonsWithRoles};
use haya_text::ReadText;
use std::process::Abort;

fn entry(
    rt: &(impl Abort + AllocGlobal),
    key: &str,
    entry_type: EntryType,
    parents: Vec<Entry>,
) -> Entry {
    let mut entry = Entry::new(rt.alloc(), key, entry_type).expect(rt, "memory");
    entry.set_parents(parents);
    entry
}

// Each of these names is that of a person.
fn people(rt: &(impl Abort + AllocGlobal), names: &[&str]) -> Vec<Person> {
    let mut people = Vec::new(rt.alloc());
    for name in names {
        let person: Result<Person, _> = ReadText::from_str(rt.alloc(), *name);
        people
            .push(person.expect(rt, "a person"))
            .expect(rt, "memory");
    }
    people
}

fn add(rt: &(impl Abort + AllocGlobal), entry: &mut Entry, names: &[&str], role: PersonRole) {
    entry
        .add_affiliated_persons((people(rt, names), role))
        .expect(rt, "memory");
}

fn in_words(rt: &(impl Abort + AllocGlobal), words: &str) -> PersonRole {
    PersonRole::Unknown(String::from_str(rt.alloc(), words).expect(rt, "memory"))
}

fn put_name(rt: &(impl Abort + AllocGlobal), names: &mut String, person: &Person) {
    names.push_str(person.name.as_str()).expect(rt, "memory");
    names.push(' ').expect(rt, "memory");
}

// The names of the persons with a role, each with a blank behind it.
fn names(rt: &(impl Abort + AllocGlobal), entry: &Entry, role: PersonRole) -> String {
    let persons = entry
        .affiliated_with_role(rt.alloc(), role)
        .expect(rt, "memory");
    let mut names = String::new(rt.alloc());
    for person in &persons {
        put_name(rt, &mut names, person);
    }
    names
}

// Whether these are the names of the persons with a role.
fn has_persons(
    rt: &(impl Abort + AllocGlobal),
    entry: &Entry,
    role: PersonRole,
    wanted: &str,
) -> bool {
    names(rt, entry, role).as_str() == wanted
}

fn add_persons(rt: &(impl Abort + AllocGlobal), film: &mut Entry) {
    add(rt, film, &["Kwan", "Scheinert"], PersonRole::Director);
    add(rt, film, &["Yeoh", "Quan"], PersonRole::CastMember);
    add(rt, film, &["Hsu"], in_words(rt, "stunts"));
    add(rt, film, &[], PersonRole::Director);
    add(rt, film, &["Wang"], PersonRole::Director);
}

fn has_added_persons(rt: &(impl Abort + AllocGlobal), film: &Entry) -> bool {
    has_persons(rt, film, PersonRole::Director, "Kwan Scheinert Wang ")
        && has_persons(rt, film, PersonRole::CastMember, "Yeoh Quan ")
        && has_persons(rt, film, in_words(rt, "stunts"), "Hsu ")
        && has_persons(rt, film, in_words(rt, "food"), "")
        && has_persons(rt, film, PersonRole::Producer, "")
}

fn has_lists(entry: &Entry, count: usize) -> bool {
    matches!(entry.affiliated(), Some(lists) if lists.len() == count)
}

#[test]
fn finds_persons_with_a_role(rt: HostRuntime) {
    let mut film = entry(&rt, "film", EntryType::Video, none(&rt));
    let has_none = has_persons(&rt, &film, PersonRole::Director, "");
    add_persons(&rt, &mut film);
    let has_added = has_added_persons(&rt, &film);
    let has_five = has_lists(&film, 5);
    drop(film);
    assert!(rt; has_none);
    assert!(rt; has_added);
    assert!(rt; has_five);
}

fn set_translators(rt: &(impl Abort + AllocGlobal), entry: &mut Entry) {
    let mut lists = Vec::new(rt.alloc());
    let kwan = people(rt, &["Kwan, Kevin"]);
    lists
        .push(PersonsWithRoles::new(kwan, PersonRole::Translator))
        .expect(rt, "memory");
    entry.set_affiliated(lists);
}

#[test]
fn adds_the_first_persons(rt: HostRuntime) {
    let mut added = entry(&rt, "key", EntryType::Book, none(&rt));
    add(&rt, &mut added, &["Kwan, Kevin"], PersonRole::Translator);
    let mut set = entry(&rt, "key", EntryType::Book, none(&rt));
    set_translators(&rt, &mut set);
    let same = added == set;
    drop(added);
    drop(set);
    assert!(rt; same);
}

// Adds a narrator and a parent of this name.
fn add_both(rt: &(impl Abort + AllocGlobal), entry: &mut Entry, name: &str) {
    add(rt, entry, &[name], PersonRole::Narrator);
    let parent = self::entry(rt, name, EntryType::Web, none(rt));
    entry.add_parent(parent).expect(rt, "memory");
}

// Whether each parent's key is the name of the person at its place.
fn are_keys(parents: &[Entry], persons: &[&Person]) -> bool {
    for (parent, person) in parents.iter().zip(persons) {
        if parent.key() != person.name.as_str() {
            return false;
        }
    }
    true
}

// Whether there are a hundred narrators, each with the name of a parent.
fn has_narrators(rt: &(impl Abort + AllocGlobal), entry: &Entry) -> bool {
    let narrators = entry
        .affiliated_with_role(rt.alloc(), PersonRole::Narrator)
        .expect(rt, "memory");
    let same = narrators.len() == 100 && are_keys(entry.parents(), narrators.as_slice());
    drop(narrators);
    same && entry
        .parents()
        .last()
        .is_some_and(|last| last.key() == "99")
}

#[test]
fn adds_many_persons_and_parents(rt: HostRuntime) {
    let mut large = entry(&rt, "large", EntryType::Book, none(&rt));
    for place in 0..100u8 {
        let name = format!(in rt.alloc(); "{place}").expect(&rt, "memory");
        add_both(&rt, &mut large, name.as_str());
    }
    let has_all = has_narrators(&rt, &large);
    drop(large);
    assert!(rt; has_all);
}
