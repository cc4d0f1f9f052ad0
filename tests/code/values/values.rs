//! What values tell of themselves. A failed allocation ends a test, and what is owned is let go by a call: so no test has a path on which it has to drop a
//! value.
use crate::copies::has_copy;
use crate::shown::ends_at_a_fault;
use haya_numbers::Numeric;
use haya_text::{FormatString, ReadText};
use haya_time::Date;
use haya_values::*;
use std::process::Abort;

fn string(rt: &(impl Abort + AllocGlobal), text: &str) -> String {
    String::from_str(rt.alloc(), text).expect(rt, "memory")
}

fn read<R: ReadText>(rt: &(impl Abort + AllocGlobal), text: &str) -> R {
    match R::from_str(rt.alloc(), text) {
        Ok(value) => value,
        Err(_) => panic!(rt; "{text} is refused"),
    }
}

#[test]
fn a_writers_fault_ends_the_call(rt: HostRuntime) {
    for text in ["x1-4, 5y", "no number"] {
        let value = read::<MaybeTyped<Numeric>>(&rt, text);
        let ends = ends_at_a_fault(&value);
        drop(value);
        assert!(rt; ends, "{text}");
    }
    let url = read::<QualifiedUrl>(&rt, "https://aeon.co");
    let ends = ends_at_a_fault(&url);
    drop(url);
    assert!(rt; ends);
}

// Whether one that was visited differs by the date alone.
fn differs_by_date(rt: &(impl Abort + AllocGlobal), text: &str) -> bool {
    let url = read::<QualifiedUrl>(rt, text);
    let visited = QualifiedUrl::new(string(rt, text), Some(Date::from_year(2020)));
    let differs = visited != url && visited.value == url.value;
    drop(url);
    drop(visited);
    differs
}

#[test]
fn addresses(rt: HostRuntime) {
    for text in ["", "no address at all"] {
        assert!(rt; differs_by_date(&rt, text));
    }
}

// Whether it has no name, and the publisher's name as its place.
fn is_place_alone(place: &Publisher, publisher: &Publisher) -> bool {
    place.name().is_none() && place.location() == publisher.name() && place != publisher
}

// Whether it has the publisher's name as its place, and a name too.
fn has_both(both: &Publisher, place: &Publisher, publisher: &Publisher) -> bool {
    both.location() == publisher.name() && both != place && both != publisher
}

// Whether the publisher of this name is told from one with this place alone, and from one with a
// name too.
fn is_told_apart(rt: &(impl Abort + AllocGlobal), text: &str) -> bool {
    let publisher = read::<Publisher>(rt, text);
    let place = Publisher::new(None, Some(read::<FormatString>(rt, text)));
    let name = Some(read::<FormatString>(rt, "Springer"));
    let both = Publisher::new(name, Some(read::<FormatString>(rt, text)));
    let told = is_place_alone(&place, &publisher) && has_both(&both, &place, &publisher);
    drop(publisher);
    drop(place);
    let copied = has_copy(rt, &both);
    drop(both);
    told && copied
}

#[test]
fn publishers(rt: HostRuntime) {
    for text in ["", "Springer"] {
        assert!(rt; is_told_apart(&rt, text));
    }
}

// The sum of what an iterator gives, each as often as its place says.
fn weighed(values: OneOrMany<u32>) -> u32 {
    let mut sum = 0u32;
    let mut weight = 1u32;
    for value in values {
        sum = sum.saturating_add(value.saturating_mul(weight));
        weight = weight.saturating_add(1);
    }
    sum
}

// The numbers from 1 to 1000.
fn thousand(rt: &(impl Abort + AllocGlobal)) -> Vec<u32> {
    let mut items = Vec::new(rt.alloc());
    for value in 1..1001u32 {
        items.push(value).expect(rt, "memory");
    }
    items
}

fn seven(rt: &(impl Abort + AllocGlobal)) -> OneOrMany<u32> {
    OneOrMany::One(Box::new(rt.alloc(), 7u32).expect(rt, "memory"))
}

// All values as a list.
fn listed(rt: &(impl Abort + AllocGlobal), values: OneOrMany<u32>) -> Vec<u32> {
    match values.into_vec(rt.alloc()) {
        Ok(items) => items,
        Err(_) => panic!(rt; "no memory"),
    }
}

// Whether a new one is an empty list, and gives nothing.
fn is_empty_list(rt: &(impl Abort + AllocGlobal)) -> bool {
    let none = OneOrMany::<u32>::new(rt.alloc());
    none == OneOrMany::Vec(Vec::new(rt.alloc())) && weighed(none) == 0
}

// Whether the values are a list of a thousand with this sum.
fn is_thousand(rt: &(impl Abort + AllocGlobal), values: OneOrMany<u32>, sum: u32) -> bool {
    let items = listed(rt, values);
    items.len() == 1000 && weighed(OneOrMany::Vec(items)) == sum
}

// Whether 7 is all that is given.
fn gives_seven(values: OneOrMany<u32>) -> bool {
    let mut alone = values.into_iter();
    alone.next() == Some(7) && alone.next().is_none() && alone.next().is_none()
}

#[test]
fn one_or_many(rt: HostRuntime) {
    assert!(rt; is_empty_list(&rt));
    let many = OneOrMany::Vec(thousand(&rt));
    let one = seven(&rt);
    let differ = one != many;
    assert!(rt; is_thousand(&rt, many, 333833500));
    assert!(rt; differ && listed(&rt, one).as_slice() == [7u32].as_slice());
    assert!(rt; gives_seven(seven(&rt)));
}
