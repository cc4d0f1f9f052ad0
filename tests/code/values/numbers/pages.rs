//! Parts of pages, and what becomes of a writer's fault. A failed allocation ends a test, and what is
//! owned is let go by a call: so no test has a path on which it has to drop pages.
use crate::shown::ends_at_a_fault;
use haya_numbers::*;
use haya_text::{ReadFault, ReadText};
use std::cmp::Ordering;
use std::process::Abort;

fn pages(rt: &(impl Abort + AllocGlobal), text: &str) -> PageRanges {
    PageRanges::from_str(rt.alloc(), text).expect(rt, "pages")
}

fn part(rt: &(impl Abort + AllocGlobal), text: &str) -> PageRangesPart {
    PageRangesPart::from_str(rt.alloc(), text).expect(rt, "a part")
}

// The number that a part starts with, if it has one.
fn start_of(part: &PageRangesPart) -> Option<i32> {
    match part.start() {
        Some(number) => number.single_number(),
        None => None,
    }
}

// The number that a part ends with, if it has one.
fn end_of(part: &PageRangesPart) -> Option<i32> {
    match part.end() {
        Some(number) => number.single_number(),
        None => None,
    }
}

// Whether they are ranges from 1 to 4, of which the first alone is escaped, and comes first.
fn are_ranges(escaped: &PageRangesPart, plain: &PageRangesPart) -> bool {
    matches!(escaped, PageRangesPart::EscapedRange(_, _))
        && matches!(plain, PageRangesPart::Range(_, _))
        && escaped != plain
        && escaped.csl_cmp(plain) == Ordering::Less
        && start_of(escaped) == Some(1)
        && end_of(plain) == Some(4)
}

// Whether they are a part without a start and one without an end, of which the first comes first.
fn are_apart(comma: &PageRangesPart, page: &PageRangesPart) -> bool {
    page.end().is_none() && comma.start().is_none() && comma.csl_cmp(page) == Ordering::Less
}

#[test]
fn parts_are_told_apart(rt: HostRuntime) {
    let escaped = part(&rt, " 1 \\- 4 ");
    let plain = part(&rt, "1-4");
    let are_told = are_ranges(&escaped, &plain);
    drop(escaped);
    drop(plain);
    assert!(rt; are_told);
    let page = part(&rt, "9");
    let comma = part(&rt, " , ");
    let are_told = are_apart(&comma, &page);
    drop(comma);
    drop(page);
    assert!(rt; are_told);
}

#[test]
fn a_writers_fault_ends_the_call(rt: HostRuntime) {
    let read = pages(&rt, "1-4, 5 & 6");
    let ends = ends_at_a_fault(&read);
    drop(read);
    assert!(rt; ends);
}

// The first number is asked for, and whether memory lacked.
#[test]
fn the_first_page_and_faults(rt: HostRuntime) {
    let read = pages(&rt, "10-12, 13");
    let is_first = read.first() == Some(&Numeric::new(10));
    drop(read);
    assert!(rt; is_first);
    assert!(rt; !PageRangesPartErr::Empty.is_out_of_memory());
    assert!(rt; PageRangesPartErr::OutOfMemory.is_out_of_memory());
}
