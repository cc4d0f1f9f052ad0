//! One value or many, and values that are made.
use super::calls::{copies, handed_back, makes, takes_none};
use super::marks::Memory::{NotTaken, Taken};
use super::marks::Row;
use super::texts::string;
use haya_text::{FoldableChunkedString, FormatString, OutOfMemory, ReadText};
use haya_time::Date;
use haya_values::{OneOrMany, Publisher, QualifiedUrl};
use std::alloc::Global;
use std::io::Print;
use std::process::Abort;

fn one(rt: &(impl Abort + AllocGlobal)) -> OneOrMany<String> {
    OneOrMany::One(Box::new(rt.alloc(), string(rt, "a")).expect(rt, "memory"))
}

fn many(rt: &(impl Abort + AllocGlobal)) -> OneOrMany<u32> {
    OneOrMany::Vec(vec![in rt.alloc(); 1u32, 2].expect(rt, "memory"))
}

// Where it is refused, the value comes back.
fn lists_one(
    alloc: Global,
    values: OneOrMany<String>,
    original: &OneOrMany<String>,
) -> Result<bool, OutOfMemory> {
    match values.into_vec(alloc) {
        Ok(items) => Ok(items.len() == 1 && items[0].as_str() == "a"),
        Err(back) => handed_back(back, original),
    }
}

fn lists_many(alloc: Global, values: OneOrMany<u32>) -> Result<bool, OutOfMemory> {
    match values.into_vec(alloc) {
        Ok(items) => Ok(items.as_slice() == [1, 2].as_slice()),
        Err(_) => Err(OutOfMemory),
    }
}

fn text(rt: &(impl Abort + AllocGlobal)) -> FormatString {
    FormatString::from_str(rt.alloc(), "a{b}$x$").expect(rt, "a text")
}

pub(crate) fn copied(rt: &(impl Abort + AllocGlobal + Print)) {
    let publisher = Publisher::new(Some(text(rt)), Some(text(rt)));
    copies(
        rt,
        Row("Publisher::try_clone", "a name and a place", Taken),
        publisher,
    );
    let url = QualifiedUrl::new(string(rt, "https://aeon.co"), Some(Date::from_year(1961)));
    copies(rt, Row("QualifiedUrl::try_clone", "visited", Taken), url);
}

fn are_empty(alloc: Global) -> bool {
    FormatString::new(alloc).value.is_empty()
        && FoldableChunkedString::new(alloc).0.is_empty()
        && OneOrMany::<u32>::new(alloc) == OneOrMany::Vec(Vec::new(alloc))
}

pub(crate) fn empty(rt: &(impl Abort + AllocGlobal + Print)) {
    let calls = "FormatString::new FoldableChunkedString::new OneOrMany::new";
    takes_none!(rt, calls, are_empty(rt.alloc()));
}

pub(crate) fn listed(rt: &(impl Abort + AllocGlobal + Print)) {
    let (original, first) = (one(rt), one(rt));
    let row = Row("OneOrMany::into_vec", "one", Taken);
    makes!(
        rt,
        row,
        lists_one(rt.alloc(), first, &original),
        lists_one(rt.alloc(), one(rt), &original)
    );
    drop(original);
    let row = Row("OneOrMany::into_vec", "a list", NotTaken);
    let first = many(rt);
    makes!(
        rt,
        row,
        lists_many(rt.alloc(), first),
        lists_many(rt.alloc(), many(rt))
    );
}
