//! Rows: lines that are read and printed again, and entries that no lines say.
use haya_entry::{Entry, EntryType};
use haya_line_library::read_library;
use haya_printing::{PrintableLines, entry_lines, printable_lines};
use haya_text::{ChunkedString, FormatString, ReadText};
use haya_time::Date;
use haya_values::{Publisher, QualifiedUrl};
use hayagriva::HashKeys;
use std::process::Abort;

// Lines of an entry, and what is printed of it, where that isn't the same.
const LINES: &[(&str, &str)] = &[
    ("0\ta\tbook\n", ""),
    (
        "0\tx\tArticle\tdoi=10.1/x\ttitle=A {B} $c$ \\{\n1\tj\tPeriodical\tissn=1\n2\ts\tweb\n1\tb\tbook\n",
        "0\tx\tarticle\ttitle=A {B} $c$ \\{\tdoi=10.1/x\n1\tj\tperiodical\tissn=1\n2\ts\tweb\n1\tb\tbook\n",
    ),
    (
        "0\tx\tmisc\tauthor=Doe, Jane\tauthor=van der Berg, Jr., Jan\teditor=ACM\taffiliated=translator:Kwan, Kevin\n",
        "",
    ),
    (
        "0\tx\tmisc\tissue=1&2x\tpage-range=1\\-4\n",
        "0\tx\tmisc\tissue=1& 2x\tpage-range=1\\-4\n",
    ),
    (
        "0\tx\tmisc\tdate=~2014-07\tpublisher=P {Q}\turl=http://a=b\tissue=3\tvolume=a\tvolume-total=12\tpage-range=12-15, 20\truntime=01:30:00\tserial-number=n\tlanguage=en\n",
        "",
    ),
];

#[test]
fn prints_what_reads_as_the_entry(rt: HostRuntime) {
    let alloc = rt.alloc();
    for (read, printed) in LINES {
        let library = read_library(alloc, HashKeys::new(0, 0), read).expect(&rt, "lines");
        let Some(entry) = library.nth(0) else {
            panic!(rt; "an entry");
        };
        let lines = entry_lines(alloc, entry).expect(&rt, "said");
        let wanted = if printed.is_empty() { read } else { printed };
        assert_eq!(rt; lines.as_str(), *wanted);
    }
}

// Checks the message of an entry that no lines say.
fn refuses<R: Abort + AllocGlobal>(rt: &R, entry: Entry, wanted: &str) {
    let told = match entry_lines(rt.alloc(), &entry) {
        Ok(lines) => lines,
        Err(error) => format!(in rt.alloc(); "{error}").expect(rt, "room"),
    };
    drop(entry);
    assert_eq!(rt; told.as_str(), wanted);
}

fn text<R: Abort + AllocGlobal>(rt: &R, text: &str) -> String {
    String::from_str(rt.alloc(), text).expect(rt, "room")
}

fn new_entry<R: Abort + AllocGlobal>(rt: &R, key: &str) -> Entry {
    Entry::new(rt.alloc(), key, EntryType::Book).expect(rt, "room")
}

// A text with a short form.
fn shortened<R: Abort + AllocGlobal>(rt: &R) -> FormatString {
    let mut title = FormatString::from_str(rt.alloc(), "A").expect(rt, "a text");
    let short = ChunkedString::from_str(rt.alloc(), "B").expect(rt, "a text");
    title.short = Some(Box::new(rt.alloc(), short).expect(rt, "room"));
    title
}

#[test]
fn names_the_value_that_no_line_says(rt: HostRuntime) {
    let mut short = new_entry(&rt, "k");
    short.set_title(shortened(&rt));
    refuses(&rt, short, "`k` can't be printed in lines: title");
    let mut visited = new_entry(&rt, "k");
    let address = text(&rt, "http://a");
    visited.set_url(QualifiedUrl::new(address, Some(Date::from_year(2014))));
    visited.set_language(text(&rt, "en"));
    refuses(&rt, visited, "`k` can't be printed in lines: url");
    let mut keyed = new_entry(&rt, "k");
    keyed
        .set_keyed_serial_number("eric", text(&rt, "1"))
        .expect(&rt, "room");
    refuses(&rt, keyed, "`k` can't be printed in lines: serial-number");
    let mut unwritten = new_entry(&rt, "k");
    unwritten.set_authors(Vec::new(rt.alloc()));
    refuses(&rt, unwritten, "`k` can't be printed in lines: author");
}

#[test]
fn names_the_entry_that_no_line_says(rt: HostRuntime) {
    refuses(
        &rt,
        new_entry(&rt, "a\nb"),
        "`a\nb` can't be printed in lines: key",
    );
    let mut parent = new_entry(&rt, "p");
    parent.set_language(text(&rt, "a\tb"));
    let mut below = new_entry(&rt, "k");
    below.add_parent(parent).expect(&rt, "room");
    below.add_parent(new_entry(&rt, "a\nb")).expect(&rt, "room");
    refuses(&rt, below, "`p` can't be printed in lines: language");
}

// Checks what is printed of an entry, and what is told of it: a line each, of a key and a part.
fn prints<R: Abort + AllocGlobal>(rt: &R, entry: Entry, wanted: &str, told: &[&str]) {
    let alloc = rt.alloc();
    let PrintableLines { text, left_out } = printable_lines(alloc, &entry).expect(rt, "room");
    drop(entry);
    assert_eq!(rt; text.as_str(), wanted);
    assert_eq!(rt; left_out.len(), told.len());
    for (left, wanted) in left_out.iter().zip(told) {
        let shown = format!(in alloc; "{}: {}", left.key, left.part).expect(rt, "room");
        assert_eq!(rt; shown.as_str(), *wanted);
    }
}

#[test]
fn prints_all_but_what_no_line_says(rt: HostRuntime) {
    prints(&rt, new_entry(&rt, "k"), "0\tk\tbook\n", &[]);
    let mut short = new_entry(&rt, "k");
    short.set_title(shortened(&rt));
    let name = FormatString::from_str(rt.alloc(), "P").expect(&rt, "a text");
    let place = FormatString::from_str(rt.alloc(), "L").expect(&rt, "a text");
    short.set_publisher(Publisher::new(Some(name), Some(place)));
    let mut parent = new_entry(&rt, "p");
    parent.set_language(text(&rt, "a\tb"));
    parent.set_doi(text(&rt, "10.1/x")).expect(&rt, "room");
    short.add_parent(parent).expect(&rt, "room");
    short.add_parent(new_entry(&rt, "a\nb")).expect(&rt, "room");
    short.add_parent(new_entry(&rt, "q")).expect(&rt, "room");
    prints(
        &rt,
        short,
        "0\tk\tbook\ttitle=A\tpublisher=P\n1\tp\tbook\tdoi=10.1/x\n1\tq\tbook\n",
        &[
            "k: title's short form",
            "k: publisher's location",
            "p: language",
            "a\nb: key",
        ],
    );
    prints(&rt, new_entry(&rt, "a\tb"), "", &["a\tb: key"]);
}
