//! What each call gives back where there is memory. An allocation that fails ends a test.
use super::lists::one;
use crate::copies::has_copy;
use haya_entry::{Entry, EntryType, SerialNumber};
use haya_numbers::{Numeric, PageRanges};
use haya_people::{Person, PersonRole, PersonsWithRoles};
use haya_text::{FormatString, OutOfMemory, ReadText};
use haya_time::{Date, Duration, DurationRange};
use haya_values::{MaybeTyped, Publisher, QualifiedUrl};
use std::alloc::Global;
use std::process::Abort;

// All names that an entry may have, then texts that are no names.
const TEXTS: &[&str] = &[
    "title",
    "location",
    "organization",
    "archive",
    "archive-location",
    "call-number",
    "note",
    "abstract",
    "genre",
    "author",
    "editor",
    "affiliated",
    "date",
    "publisher",
    "url",
    "issue",
    "chapter",
    "volume",
    "edition",
    "volume-total",
    "page-total",
    "page-range",
    "time-range",
    "runtime",
    "serial-number",
    "language",
    "doi",
    "isbn",
    "issn",
    "pmid",
    "pmcid",
    "arxiv",
    "type",
    "parent",
    "serial",
    "key",
    "DOI",
    "Title",
    "abstract_",
    "archive_location",
    "serial_number",
    "page_range",
    "",
];

// The texts of the table that the entry has as names, each with a blank behind it.
fn names_had(entry: &Entry, alloc: Global) -> Result<String, OutOfMemory> {
    let mut names = String::new(alloc);
    for text in TEXTS {
        if entry.has(*text) {
            names.push_str(*text)?;
            names.push(' ')?;
        }
    }
    Ok(names)
}

// Whether these are the names that the entry has.
fn has_names(rt: &(impl Abort + AllocGlobal), entry: &Entry, names: &str) -> bool {
    names_had(entry, rt.alloc()).expect(rt, "memory").as_str() == names
}

fn string(rt: &(impl Abort + AllocGlobal), value: &str) -> String {
    String::from_str(rt.alloc(), value).expect(rt, "memory")
}

fn text(rt: &(impl Abort + AllocGlobal), value: &str) -> FormatString {
    FormatString::with_value(rt.alloc(), string(rt, value)).expect(rt, "memory")
}

fn entry(rt: &(impl Abort + AllocGlobal), key: &str, entry_type: EntryType) -> Entry {
    Entry::new(rt.alloc(), key, entry_type).expect(rt, "memory")
}

fn is(found: Option<&str>, wanted: &str) -> bool {
    found == Some(wanted)
}

fn is_text(rt: &(impl Abort + AllocGlobal), found: Option<&FormatString>, wanted: &str) -> bool {
    found == Some(&text(rt, wanted))
}

// Sets the text field of a name to this name.
fn set_text(rt: &(impl Abort + AllocGlobal), entry: &mut Entry, name: &str) {
    match name {
        "title" => entry.set_title(text(rt, name)),
        "location" => entry.set_location(text(rt, name)),
        "organization" => entry.set_organization(text(rt, name)),
        "archive" => entry.set_archive(text(rt, name)),
        "archive-location" => entry.set_archive_location(text(rt, name)),
        "call-number" => entry.set_call_number(text(rt, name)),
        "note" => entry.set_note(text(rt, name)),
        "abstract" => entry.set_abstract_(text(rt, name)),
        "genre" => entry.set_genre(text(rt, name)),
        _ => {}
    }
}

// The text field of a name.
fn text_of<'e>(entry: &'e Entry, name: &str) -> Option<&'e FormatString> {
    match name {
        "title" => entry.title(),
        "location" => entry.location(),
        "organization" => entry.organization(),
        "archive" => entry.archive(),
        "archive-location" => entry.archive_location(),
        "call-number" => entry.call_number(),
        "note" => entry.note(),
        "abstract" => entry.abstract_(),
        "genre" => entry.genre(),
        _ => None,
    }
}

// Text fields that are set one after another, each with the names that the entry then has.
const TEXTS_SET: &[(&str, &str)] = &[
    ("title", "title "),
    ("genre", "title genre "),
    ("archive-location", "title archive-location genre "),
    ("location", "title location archive-location genre "),
    (
        "abstract",
        "title location archive-location abstract genre ",
    ),
];

const OTHER_TEXTS_SET: &[(&str, &str)] = &[
    ("note", "note "),
    ("organization", "organization note "),
    ("call-number", "organization call-number note "),
    ("archive", "organization archive call-number note "),
];

// Sets a text, with which the entry has these names.
fn set_named(rt: &(impl Abort + AllocGlobal), entry: &mut Entry, name: &str, names: &str) {
    set_text(rt, entry, name);
    assert!(rt; has_names(rt, entry, names), "{name}");
}

fn set_texts(rt: &(impl Abort + AllocGlobal), texts: &[(&str, &str)]) {
    let mut entry = entry(rt, "key", EntryType::Book);
    let has_none = has_names(rt, &entry, "");
    for (name, names) in texts {
        set_named(rt, &mut entry, *name, *names);
    }
    drop(entry);
    assert!(rt; has_none);
}

#[test]
fn has_a_text_once_it_is_set(rt: HostRuntime) {
    set_texts(&rt, TEXTS_SET);
    set_texts(&rt, OTHER_TEXTS_SET);
}

#[test]
fn has_a_language_and_serial_numbers_once_they_are_set(rt: HostRuntime) {
    let mut entry = entry(&rt, "key", EntryType::Book);
    entry.set_language(string(&rt, "en"));
    let has_language = has_names(&rt, &entry, "language ");
    entry.set_serial_number(SerialNumber::new(rt.alloc()));
    let has_both = has_names(&rt, &entry, "serial-number language ");
    drop(entry);
    assert!(rt; has_language);
    assert!(rt; has_both);
}

// Keeps a serial number under this key.
fn keep(rt: &(impl Abort + AllocGlobal), entry: &mut Entry, key: &str, number: &str) {
    let number = string(rt, number);
    entry
        .set_keyed_serial_number(key, number)
        .expect(rt, "memory");
}

// Keeps a serial number under this key, with which the entry has these names.
fn keep_named(rt: &(impl Abort + AllocGlobal), entry: &mut Entry, key: &str, names: &str) {
    keep(rt, entry, key, "1");
    assert!(rt; has_names(rt, entry, names), "{key}");
}

#[test]
fn has_no_name_for_another_key(rt: HostRuntime) {
    let mut entry = entry(&rt, "key", EntryType::Book);
    for key in ["type", "parent", "serial", "key", "DOI", "title", ""] {
        keep_named(&rt, &mut entry, key, "serial-number ");
    }
    drop(entry);
}

// Keys of serial numbers that are kept one after another, each with the names that the entry then
// has.
const NUMBERS_KEPT: &[(&str, &str)] = &[
    ("pmid", "serial-number pmid "),
    ("doi", "serial-number doi pmid "),
    ("arxiv", "serial-number doi pmid arxiv "),
    ("isbn", "serial-number doi isbn pmid arxiv "),
    ("pmcid", "serial-number doi isbn pmid pmcid arxiv "),
    ("issn", "serial-number doi isbn issn pmid pmcid arxiv "),
];

#[test]
fn has_serial_numbers_by_their_names(rt: HostRuntime) {
    let mut entry = entry(&rt, "key", EntryType::Book);
    for (key, names) in NUMBERS_KEPT {
        keep_named(&rt, &mut entry, *key, *names);
    }
    drop(entry);
}

const TEXT_FIELDS: &[&str] = &[
    "title",
    "location",
    "organization",
    "archive",
    "archive-location",
    "call-number",
    "note",
    "abstract",
    "genre",
];

// An entry with a text in each text field.
fn with_texts(rt: &(impl Abort + AllocGlobal), key: &str) -> Entry {
    let mut entry = entry(rt, key, EntryType::Article);
    for name in TEXT_FIELDS {
        set_text(rt, &mut entry, *name);
    }
    entry
}

const NUMBERS: &[&str] = &["doi", "isbn", "issn", "pmid", "pmcid", "arxiv"];

// Sets each serial number that has a name to this name.
fn set_serials(rt: &(impl Abort + AllocGlobal), entry: &mut Entry) {
    entry.set_doi(string(rt, "doi")).expect(rt, "memory");
    entry.set_isbn(string(rt, "isbn")).expect(rt, "memory");
    entry.set_issn(string(rt, "issn")).expect(rt, "memory");
    entry.set_pmid(string(rt, "pmid")).expect(rt, "memory");
    entry.set_pmcid(string(rt, "pmcid")).expect(rt, "memory");
    entry.set_arxiv(string(rt, "arxiv")).expect(rt, "memory");
}

// The serial number of a name.
fn number_of<'e>(entry: &'e Entry, name: &str) -> Option<&'e str> {
    match name {
        "doi" => entry.doi(),
        "isbn" => entry.isbn(),
        "issn" => entry.issn(),
        "pmid" => entry.pmid(),
        "pmcid" => entry.pmcid(),
        "arxiv" => entry.arxiv(),
        _ => None,
    }
}

// An entry with each serial number that has a name.
fn with_serials(rt: &(impl Abort + AllocGlobal)) -> Entry {
    let mut entry = entry(rt, "key", EntryType::Article);
    set_serials(rt, &mut entry);
    entry
}

#[test]
fn gets_the_texts_that_were_set(rt: HostRuntime) {
    let entry = with_texts(&rt, "key");
    for name in TEXT_FIELDS {
        assert!(rt; is_text(&rt, text_of(&entry, *name), *name), "{name}");
    }
    drop(entry);
}

#[test]
fn gets_the_serial_numbers_that_were_set(rt: HostRuntime) {
    let entry = with_serials(&rt);
    for name in NUMBERS {
        assert!(rt; is(number_of(&entry, *name), *name), "{name}");
        assert!(rt; is(entry.keyed_serial_number(*name), *name), "{name}");
    }
    drop(entry);
}

#[test]
fn replaces_a_serial_number(rt: HostRuntime) {
    let mut entry = with_serials(&rt);
    keep(&rt, &mut entry, "doi", "10.1145/24039.24041");
    let is_replaced = is(entry.doi(), "10.1145/24039.24041");
    let is_kept = is(entry.isbn(), "isbn");
    let is_none = entry.keyed_serial_number("DOI").is_none();
    drop(entry);
    assert!(rt; is_replaced);
    assert!(rt; is_kept);
    assert!(rt; is_none);
}

#[test]
fn gets_the_other_fields(rt: HostRuntime) {
    let mut entry = entry(&rt, "tolkien", EntryType::Book);
    assert!(rt; is_new(&entry));
    set_language(&rt, &mut entry, "en");
    set_language(&rt, &mut entry, "de");
    set_serial(&rt, &mut entry);
    drop(entry);
}

fn is_new(entry: &Entry) -> bool {
    entry.key() == "tolkien"
        && entry.entry_type() == EntryType::Book
        && entry.parents().is_empty()
        && entry.serial_number().is_none()
        && entry.language().is_none()
}

fn set_language(rt: &(impl Abort + AllocGlobal), entry: &mut Entry, language: &str) {
    entry.set_language(string(rt, language));
    assert!(rt; is(entry.language(), language), "{language}");
}

fn set_serial(rt: &(impl Abort + AllocGlobal), entry: &mut Entry) {
    let serial = one_number(rt);
    entry.set_serial_number(serial.try_clone(rt.alloc()).expect(rt, "memory"));
    assert!(rt; is_serial(entry.serial_number(), &serial));
}

fn is_serial(found: Option<&SerialNumber>, wanted: &SerialNumber) -> bool {
    found == Some(wanted)
}

// A DOI alone.
fn one_number(rt: &(impl Abort + AllocGlobal)) -> SerialNumber {
    let mut numbers = SerialNumber::new(rt.alloc());
    insert(rt, &mut numbers, "doi", "10.1/a");
    numbers
}

fn insert(rt: &(impl Abort + AllocGlobal), numbers: &mut SerialNumber, key: &str, text: &str) {
    let kept: Result<_, _> = numbers.insert(string(rt, key), string(rt, text));
    kept.expect(rt, "memory");
}

#[test]
fn keeps_serial_numbers_in_the_order_of_their_keys(rt: HostRuntime) {
    let mut numbers = SerialNumber::new(rt.alloc());
    assert!(rt; numbers.only().is_none() && numbers.several().is_empty());
    insert(&rt, &mut numbers, "isbn", "1");
    insert(&rt, &mut numbers, "isbn", "5");
    assert!(rt; is(numbers.get("isbn"), "5") && numbers.several().is_empty());
    assert!(rt; numbers.only().is_some());
    insert(&rt, &mut numbers, "doi", "2");
    insert(&rt, &mut numbers, "pmid", "3");
    insert(&rt, &mut numbers, "isbn", "4");
    assert!(rt; numbers.only().is_none() && numbers.several().len() == 3);
    assert!(rt; is(numbers.get("doi"), "2") && is(numbers.get("pmid"), "3"));
    assert!(rt; is(numbers.get("isbn"), "4"));
    assert!(rt; numbers.get("ISBN").is_none());
}

#[test]
fn copies_serial_numbers(rt: HostRuntime) {
    let serial = one_number(&rt);
    let copy = serial.try_clone(rt.alloc()).expect(&rt, "memory");
    assert!(rt; copy == serial);
    assert!(rt; has_copy(&rt, &serial), "through the trait");
}

fn under(rt: &(impl Abort + AllocGlobal), mut entry: Entry, parent: Entry) -> Entry {
    entry.set_parents(one(rt, parent));
    entry
}

// An article in a journal that appears in a site.
fn article(rt: &(impl Abort + AllocGlobal), site: &str) -> Entry {
    let journal = under(rt, with_serials(rt), entry(rt, site, EntryType::Web));
    under(rt, with_texts(rt, "article"), journal)
}

// A copy, which is equal, and has equal parents.
fn copy_of(rt: &(impl Abort + AllocGlobal), entry: &Entry) -> Entry {
    let copy = entry.try_clone(rt.alloc()).expect(rt, "memory");
    assert!(rt; copy == *entry, "a copy");
    assert!(rt; copy.parents() == entry.parents(), "the parents of a copy");
    copy
}

#[test]
fn is_equal_to_its_copy_alone(rt: HostRuntime) {
    let here = article(&rt, "here");
    drop(copy_of(&rt, &here));
    differs_elsewhere(&rt, &here);
    drop(here);
}

fn differs_elsewhere(rt: &(impl Abort + AllocGlobal), here: &Entry) {
    let there = article(rt, "there");
    let differs = there != *here;
    drop(there);
    assert!(rt; differs, "the sites differ, two levels above");
}

fn people(rt: &(impl Abort + AllocGlobal), text: &str) -> Vec<Person> {
    let person: Result<Person, _> = ReadText::from_str(rt.alloc(), text);
    let mut people = Vec::new(rt.alloc());
    people
        .push(person.expect(rt, "a person"))
        .expect(rt, "memory");
    people
}

fn translators(rt: &(impl Abort + AllocGlobal), text: &str) -> Vec<PersonsWithRoles> {
    let mut lists = Vec::new(rt.alloc());
    lists
        .push(PersonsWithRoles::new(people(rt, text), PersonRole::Translator))
        .expect(rt, "memory");
    lists
}

// Sets people of three parts.
fn set_people(rt: &(impl Abort + AllocGlobal), entry: &mut Entry) {
    entry.set_authors(people(rt, "Doe, Jane"));
    entry.set_editors(people(rt, "van Dissmer, Courtney"));
    entry.set_affiliated(translators(rt, "Kwan, Kevin"));
}

fn names_person(found: Option<&[Person]>, name: &str) -> bool {
    for person in found.unwrap_or(&[]) {
        if person.name.as_str() == name {
            return true;
        }
    }
    false
}

fn has_people(rt: &(impl Abort + AllocGlobal), entry: &Entry) -> bool {
    has_names(rt, entry, "author editor affiliated ")
        && names_person(entry.authors(), "Doe")
        && names_person(entry.editors(), "Dissmer")
        && matches!(entry.affiliated(), Some(lists) if lists.len() == 1)
}

#[test]
fn gets_the_people_that_were_set(rt: HostRuntime) {
    let mut entry = entry(&rt, "key", EntryType::Book);
    set_people(&rt, &mut entry);
    let has_people = has_people(&rt, &entry);
    drop(copy_of(&rt, &entry));
    drop(entry);
    assert!(rt; has_people);
}

fn has_date_and_totals(entry: &Entry) -> bool {
    entry.date() == Some(&Date::from_year(1987))
        && entry.volume_total() == Some(&Numeric::new(3))
        && entry.page_total() == Some(&Numeric::new(500))
}

fn set_totals(rt: &(impl Abort + AllocGlobal), entry: &mut Entry) {
    entry.set_volume_total(Numeric::new(3));
    assert!(rt; has_names(rt, entry, "date volume-total "));
    entry.set_page_total(Numeric::new(500));
    assert!(rt; has_names(rt, entry, "date volume-total page-total "));
}

#[test]
fn gets_the_date_and_the_totals_that_were_set(rt: HostRuntime) {
    let mut entry = entry(&rt, "key", EntryType::Book);
    entry.set_date(Date::from_year(1987));
    set_totals(&rt, &mut entry);
    let has_all = has_date_and_totals(&entry);
    let copy = copy_of(&rt, &entry);
    entry.set_date(Date::from_year(1988));
    let differs = copy != entry;
    drop(copy);
    drop(entry);
    assert!(rt; has_all);
    assert!(rt; differs);
}

// The names of the publisher, the address and the fields that are typed or a text.
const VALUES: &[&str] = &[
    "publisher",
    "url",
    "issue",
    "chapter",
    "volume",
    "edition",
    "page-range",
    "time-range",
    "runtime",
];

fn words<T>(rt: &(impl Abort + AllocGlobal), value: &str) -> MaybeTyped<T> {
    MaybeTyped::String(string(rt, value))
}

// Sets the field of a name among these to a text.
fn set_value(rt: &(impl Abort + AllocGlobal), entry: &mut Entry, name: &str, value: &str) {
    match name {
        "publisher" => entry.set_publisher(Publisher::new(Some(text(rt, value)), None)),
        "url" => entry.set_url(QualifiedUrl::new(string(rt, value), None)),
        "issue" => entry.set_issue(words(rt, value)),
        "chapter" => entry.set_chapter(words(rt, value)),
        "volume" => entry.set_volume(words(rt, value)),
        "edition" => entry.set_edition(words(rt, value)),
        "page-range" => entry.set_page_range(words(rt, value)),
        "time-range" => entry.set_time_range(words(rt, value)),
        "runtime" => entry.set_runtime(words(rt, value)),
        _ => {}
    }
}

fn has_alone(entry: &Entry, name: &str) -> bool {
    for text in TEXTS {
        if entry.has(*text) != (*text == name) {
            return false;
        }
    }
    true
}

#[test]
fn has_a_value_once_it_is_set(rt: HostRuntime) {
    for name in VALUES {
        let mut entry = entry(&rt, "key", EntryType::Book);
        set_value(&rt, &mut entry, *name, "a few");
        let is_alone = has_alone(&entry, *name);
        drop(entry);
        assert!(rt; is_alone, "{name}");
    }
}

fn number(value: i32) -> MaybeTyped<Numeric> {
    MaybeTyped::Typed(Numeric::new(value))
}

fn minutes(minutes: u32) -> Duration {
    Duration {
        days: 0,
        hours: 0,
        minutes,
        seconds: 0,
        milliseconds: 0,
    }
}

fn page(rt: &(impl Abort + AllocGlobal), number: i32) -> PageRanges {
    PageRanges::from_i32(rt.alloc(), number).expect(rt, "memory")
}

fn publisher(rt: &(impl Abort + AllocGlobal)) -> Publisher {
    Publisher::new(Some(text(rt, "Springer")), Some(text(rt, "Berlin")))
}

fn url(rt: &(impl Abort + AllocGlobal)) -> QualifiedUrl {
    QualifiedUrl::new(
        string(rt, "https://example.org"),
        Some(Date::from_year(2020)),
    )
}

fn set_numbers(entry: &mut Entry) {
    entry.set_issue(number(1));
    entry.set_chapter(number(2));
    entry.set_volume(number(3));
}

fn set_times(entry: &mut Entry) {
    entry.set_time_range(MaybeTyped::Typed(DurationRange::new(minutes(1), Some(minutes(3)))));
    entry.set_runtime(MaybeTyped::Typed(minutes(90)));
}

// An article with each of these fields.
fn with_values(rt: &(impl Abort + AllocGlobal)) -> Entry {
    let mut entry = entry(rt, "key", EntryType::Article);
    entry.set_publisher(publisher(rt));
    entry.set_url(url(rt));
    set_numbers(&mut entry);
    entry.set_edition(words(rt, "second"));
    entry.set_page_range(MaybeTyped::Typed(page(rt, 5)));
    set_times(&mut entry);
    entry
}

fn is_number(found: Option<&MaybeTyped<Numeric>>, wanted: i32) -> bool {
    found == Some(&number(wanted))
}

fn is_page(
    rt: &(impl Abort + AllocGlobal),
    found: Option<&MaybeTyped<PageRanges>>,
    number: i32,
) -> bool {
    found == Some(&MaybeTyped::Typed(page(rt, number)))
}

fn has_numbers(entry: &Entry) -> bool {
    is_number(entry.issue(), 1) && is_number(entry.chapter(), 2) && is_number(entry.volume(), 3)
}

fn is_publisher(found: Option<&Publisher>, wanted: &Publisher) -> bool {
    found == Some(wanted)
}

fn is_url(found: Option<&QualifiedUrl>, wanted: &QualifiedUrl) -> bool {
    found == Some(wanted)
}

fn is_words(found: Option<&MaybeTyped<Numeric>>, wanted: &str) -> bool {
    matches!(found, Some(MaybeTyped::String(words)) if words.as_str() == wanted)
}

fn has_texts(rt: &(impl Abort + AllocGlobal), entry: &Entry) -> bool {
    let publisher = publisher(rt);
    let url = url(rt);
    let same = is_publisher(entry.publisher(), &publisher) && is_url(entry.url(), &url);
    drop(publisher);
    drop(url);
    same && is_words(entry.edition(), "second")
}

fn is_time_range(found: Option<&MaybeTyped<DurationRange>>, wanted: DurationRange) -> bool {
    matches!(found, Some(MaybeTyped::Typed(range)) if *range == wanted)
}

fn is_runtime(found: Option<&MaybeTyped<Duration>>, wanted: Duration) -> bool {
    matches!(found, Some(MaybeTyped::Typed(runtime)) if *runtime == wanted)
}

fn has_times(entry: &Entry) -> bool {
    let range = DurationRange::new(minutes(1), Some(minutes(3)));
    is_time_range(entry.time_range(), range) && is_runtime(entry.runtime(), minutes(90))
}

#[test]
fn gets_the_values_that_were_set(rt: HostRuntime) {
    let entry = with_values(&rt);
    let has_numbers = has_numbers(&entry) && is_page(&rt, entry.page_range(), 5);
    let has_texts = has_texts(&rt, &entry);
    let has_times = has_times(&entry);
    drop(entry);
    assert!(rt; has_numbers);
    assert!(rt; has_texts);
    assert!(rt; has_times);
}

// Whether a copy is no longer equal once the field of a name is set to another text.
fn differs_by(rt: &(impl Abort + AllocGlobal), entry: &Entry, name: &str) -> bool {
    let mut other = copy_of(rt, entry);
    set_value(rt, &mut other, name, "a few");
    let differs = other != *entry;
    drop(other);
    differs
}

#[test]
fn is_equal_where_all_values_are(rt: HostRuntime) {
    let entry = with_values(&rt);
    for name in VALUES {
        assert!(rt; differs_by(&rt, &entry, *name), "{name}");
    }
    drop(entry);
}
