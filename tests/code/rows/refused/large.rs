//! Values past each size from which on a call might go another way.
use super::calls::{Change, asks, changes};
use super::entries::{adds_parent, below, entry, is_copied};
use super::marks::Memory::{Often, Taken};
use super::marks::Row;
use super::texts::text_of;
use haya_entry::Entry;
use haya_text::ChunkKind::Normal;
use haya_text::{ChunkedString, OutOfMemory};
use std::io::Print;
use std::process::Abort;

// More than 1 MiB of this piece.
const PIECE: &str = "sixteen letters.";

const PIECES: usize = 66_000;

fn repeated(rt: &(impl Abort + AllocGlobal), piece: &str, count: usize) -> String {
    let mut text = String::new(rt.alloc());
    for _ in 0..count {
        text.push_str(piece).expect(rt, "memory");
    }
    text
}

fn pushes(read: &mut ChunkedString, text: &str) -> Result<bool, OutOfMemory> {
    read.push_str(text, Normal)?;
    Ok(true)
}

pub(crate) fn a_long_text_pushed(rt: &(impl Abort + AllocGlobal + Print)) {
    let long = repeated(rt, PIECE, PIECES);
    let text = long.as_str();
    let after = repeated(rt, text, 2);
    let mut given = Change {
        value: text_of(rt, text),
        before: text_of(rt, text),
        after: text_of(rt, after.as_str()),
    };
    drop(after);
    let row = Row("ChunkedString::push_str", "a long text", Taken);
    changes!(
        rt,
        row,
        given,
        pushes(&mut given.value, text),
        pushes(&mut given.value, text)
    );
    drop(long);
}

// An entry with as many serial numbers, of which each is its own key, repeated.
fn numbered(rt: &(impl Abort + AllocGlobal), count: usize) -> Entry {
    let mut made = entry(rt, "0\tk\tbook");
    for number in 0..count {
        let key = format!(in rt.alloc(); "{number}").expect(rt, "memory");
        let value = repeated(rt, key.as_str(), 5_000);
        made.set_keyed_serial_number(key.as_str(), value)
            .expect(rt, "memory");
        drop(key);
    }
    made
}

fn keeps(entry: &mut Entry, key: &str, number: String) -> Result<bool, OutOfMemory> {
    entry.set_keyed_serial_number(key, number)?;
    Ok(true)
}

const COUNTS: &[usize] = &[0, 64, 65, 80];

pub(crate) fn serial_numbers(rt: &(impl Abort + AllocGlobal + Print)) {
    for count in COUNTS {
        let mut given = Change {
            value: numbered(rt, *count),
            before: numbered(rt, *count),
            after: numbered(rt, count.saturating_add(1)),
        };
        let key = format!(in rt.alloc(); "{count}").expect(rt, "memory");
        let row = Row(
            "Entry::set_keyed_serial_number",
            "a long number of many",
            Taken,
        );
        let first = repeated(rt, key.as_str(), 5_000);
        let second = repeated(rt, key.as_str(), 5_000);
        changes!(
            rt,
            row,
            given,
            keeps(&mut given.value, key.as_str(), first),
            keeps(&mut given.value, key.as_str(), second)
        );
        drop(key);
    }
    let many = numbered(rt, 80);
    asks!(
        rt,
        Row("Entry::try_clone", "80 long serial numbers", Taken),
        is_copied(rt.alloc(), &many)
    );
    drop(many);
}

// An entry with more parents than 16 bits count, as many as a list has room for that has doubled.
fn with_parents(rt: &(impl Abort + AllocGlobal)) -> Entry {
    let mut child = entry(rt, "0\tk\tbook");
    for _ in 0..65_536 {
        let parent = entry(rt, "0\tp\tblog");
        child.parents.push(parent).expect(rt, "memory");
    }
    child
}

pub(crate) fn many_parents(rt: &(impl Abort + AllocGlobal + Print)) {
    let child = with_parents(rt);
    let row = Row("Entry::try_clone", "65,536 parents", Often);
    asks!(rt, row, is_copied(rt.alloc(), &child));
    drop(child);
}

pub(crate) fn one_parent_more(rt: &(impl Abort + AllocGlobal + Print)) {
    let last = entry(rt, "0\tlast\tweb");
    let mut given = Change {
        value: with_parents(rt),
        before: with_parents(rt),
        after: below(rt, with_parents(rt), entry(rt, "0\tlast\tweb")),
    };
    let row = Row("Entry::add_parent", "behind 65,536", Taken);
    let (first, second) = (entry(rt, "0\tlast\tweb"), entry(rt, "0\tlast\tweb"));
    changes!(
        rt,
        row,
        given,
        adds_parent(&mut given.value, first, &last),
        adds_parent(&mut given.value, second, &last)
    );
    drop(last);
}
