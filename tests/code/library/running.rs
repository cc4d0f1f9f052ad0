//! What a run takes, prints and leaves, with readers and writers that fail. A failed allocation ends
//! a test.
mod failing;
mod faults;

use failing::{FailingReader, FailingWriter};
use haya_run::{RunError, run, run_given};
use hayagriva::HashKeys;
use std::io::Read;
use std::process::{Abort, ExitCode};

// Two articles, one in a periodical and one in a blog.
const ARTICLES: &[u8] = b"0\tdependence\tarticle\tdoi=10.1145/24039.24041\n1\ttoplas\tperiodical\n\
    0\tfeminism\tarticle\tlanguage=en\n1\taeon\tblog\n";

// The same with more fields.
const SAMPLE: &[u8] = b"0\tdependence\tarticle\tdate=1987-07\tdoi=10.1145/24039.24041\n\
    1\ttoplas\tperiodical\tvolume=9\tissue=3\n\
    0\tfeminism\tarticle\tdate=2015-09-25\t\
    url=https://aeon.co/essays/can-you-enjoy-romance-fiction-and-be-a-feminist\n\
    1\taeon\tblog\n";

// A paper in a journal whose parent is a site, and a note.
const SMALL: &[u8] = b"0\tpaper\tarticle\tdoi=10.1/a\n1\tjournal\tperiodical\n\
    2\tsite\tweb\tlanguage=en\n0\tnote\tbook\tlanguage=de\n";

// What a run over readers and writers in memory leaves.
#[derive(Drop)]
struct Ended {
    status: u8,
    printed: Vec<u8>,
    complaint: Vec<u8>,
}

fn run_on<R: Read>(rt: &(impl Abort + AllocGlobal), words: &[&str], input: &mut R) -> Ended {
    let (mut out, mut err) = (Vec::new(rt.alloc()), Vec::new(rt.alloc()));
    let words = texts(rt, words);
    let status = run(rt.alloc(), words.as_slice(), input, &mut out, &mut err);
    drop(words);
    Ended {
        status,
        printed: out,
        complaint: err,
    }
}

fn texts(rt: &(impl Abort + AllocGlobal), all: &[&str]) -> Vec<String> {
    let mut made = Vec::new(rt.alloc());
    for text in all {
        let text = text.to_string(rt.alloc()).expect(rt, "memory");
        made.push(text).expect(rt, "memory");
    }
    made
}

// Whether a run ends so.
fn ends<R: Read>(
    rt: &(impl Abort + AllocGlobal),
    words: &[&str],
    input: &mut R,
    (status, printed, complaint): (u8, &str, &str),
) -> bool {
    let end = run_on(rt, words, input);
    let same = end.status == status
        && end.printed.as_slice() == printed.as_bytes()
        && end.complaint.as_slice() == complaint.as_bytes();
    drop(end);
    same
}

// Whether a run over the small library ends so, with these words or the fault that there are none,
// and these keys or none.
fn ends_given(
    rt: &(impl Abort + AllocGlobal),
    given: Result<Vec<String>, RunError>,
    keys: Option<HashKeys>,
    (status, printed, complaint): (u8, &str, &str),
) -> bool {
    let (mut out, mut err) = (Vec::new(rt.alloc()), Vec::new(rt.alloc()));
    let end = run_given(rt.alloc(), given, keys, &mut SMALL, &mut out, &mut err);
    let same = end == ExitCode::from(status)
        && out.as_slice() == printed.as_bytes()
        && err.as_slice() == complaint.as_bytes();
    drop(out);
    drop(err);
    same
}

#[test]
fn ends_with_its_status(rt: HostRuntime) {
    let usage = "usage: hayagriva_query SELECTOR\n";
    let keys = Some(HashKeys::new(1, 2));
    assert!(rt; ends_given(&rt, Ok(texts(&rt, &["book"])), keys, (0, "note\n", "")));
    assert!(rt;
        ends_given(
            &rt,
            Ok(texts(&rt, &["["])),
            keys,
            (1, "", "missing value\n")
        )
    );
    assert!(rt; ends_given(&rt, Ok(texts(&rt, &[])), keys, (2, "", usage)));
    assert!(rt; ends_given(&rt, Err(RunError::Usage), keys, (2, "", usage)));
    assert!(rt;
        ends_given(
            &rt,
            Err(RunError::OutOfMemory),
            keys,
            (1, "", "out of memory\n")
        )
    );
    assert!(rt;
        ends_given(
            &rt,
            Ok(texts(&rt, &["book"])),
            None,
            (1, "", "cannot read\n")
        )
    );
    assert!(rt; ends_given(&rt, Ok(texts(&rt, &[])), None, (2, "", usage)));
}

// What a run over an input prints that ends well.
fn printed(rt: &(impl Abort + AllocGlobal), selector: &str, mut input: &[u8]) -> Vec<u8> {
    let end = run_on(rt, &[selector], &mut input);
    assert_eq!(rt; end.status, 0, "{selector:?}");
    end.printed
}

// Whether two runs, over the lines before a place and those from it on, print together what one
// run over all prints.
fn prints_in_parts(
    rt: &(impl Abort + AllocGlobal),
    selector: &str,
    input: &[u8],
    place: usize,
) -> bool {
    let (Some(first), Some(second)) = (input.get(..place), input.get(place..)) else {
        return false;
    };
    let mut parts = printed(rt, selector, first);
    let rest = printed(rt, selector, second);
    parts.extend_from_slice(&rest).expect(rt, "memory");
    let whole = printed(rt, selector, input);
    let same = parts == whole;
    drop(parts);
    drop(rest);
    drop(whole);
    same
}

// A selector, an input, whether its parts print what it prints, and how often it can be cut.
const PARTS: &[(&str, &[u8], bool, usize)] = &[
    ("*", SAMPLE, true, 1),
    ("article > b:periodical", SAMPLE, true, 1),
    ("* > (periodical | blog)", SAMPLE, true, 1),
    (
        "*[language]",
        b"0\ta\tbook\tlanguage=en\n1\tx\tweb\n\n0\tb\tweb\n0\tc\tblog\tlanguage=en",
        true,
        2,
    ),
    // an entry is replaced by one of its key in its own part alone
    ("*", b"0\ta\tbook\n0\ta\tweb\n", false, 1),
];

#[test]
fn prints_in_parts_what_the_whole_prints(rt: HostRuntime) {
    for (selector, input, same, cuts) in PARTS {
        let mut places: usize = 0;
        for place in 1..input.len() {
            if input[place - 1] == b'\n' && input[place] == b'0' {
                places = places.saturating_add(1);
                assert!(rt;
                    prints_in_parts(&rt, selector, input, place) == *same,
                    "{selector:?}"
                );
            }
        }
        assert_eq!(rt; places, *cuts, "{selector:?}");
    }
}

// Where a run over the first bytes of an input ends with a fault, nothing is printed; where it ends
// well, what is printed begins what a run over all prints, if the input ends with a line.
fn is_good_cut(
    rt: &(impl Abort + AllocGlobal),
    selector: &str,
    input: &[u8],
    place: usize,
    whole: &[u8],
) -> bool {
    let Some(mut first) = input.get(..place) else {
        return false;
    };
    let ends_a_line = first.last() == Some(&b'\n');
    let end = run_on(rt, &[selector], &mut first);
    let good = if end.status == 0 {
        end.complaint.is_empty() && (!ends_a_line || whole.starts_with(&end.printed))
    } else {
        end.status == 1 && end.printed.is_empty() && end.complaint.starts_with(b"line ")
    };
    drop(end);
    good
}

// Selectors of every form.
const EVERY_FORM: &str =
    "(a:*[url] | !(p:article > (b:periodical[volume, issue] & *))) > (c:* | (!web & d:blog))";

#[test]
fn stops_at_a_line_that_is_cut_off(rt: HostRuntime) {
    for selector in ["*", EVERY_FORM] {
        let whole = printed(&rt, selector, SAMPLE);
        for place in 0..SAMPLE.len() {
            assert!(rt;
                is_good_cut(&rt, selector, SAMPLE, place, &whole),
                "{place}"
            );
        }
        drop(whole);
    }
}

#[test]
fn counts_the_words_first(rt: HostRuntime) {
    let cases: [&[&str]; 3] = [&[], &["*", "*"], &["", "", ""]];
    for words in cases {
        let mut input = b"1\tx\xFF".as_slice();
        let wanted = (2, "", "usage: hayagriva_query SELECTOR\n");
        assert!(rt; ends(&rt, words, &mut input, wanted), "{words:?}");
        assert_eq!(rt; input.len(), 4, "{words:?}");
    }
}

// A chain of so many entries, each the parent of the one before.
fn chain(rt: &(impl Abort + AllocGlobal), depths: usize) -> String {
    let mut input = String::new(rt.alloc());
    for depth in 0..depths {
        writeln!(input, "{depth}\tkey{depth}\tbook").expect(rt, "memory");
    }
    input
}

#[test]
fn goes_down_to_depth_500(rt: HostRuntime) {
    for (depths, wanted) in [
        (501, (0, "key0\n", "")),
        (502, (1, "", "line 502: depth\n")),
    ] {
        let input = chain(&rt, depths);
        assert!(rt; ends(&rt, &["*"], &mut input.as_bytes(), wanted));
        drop(input);
    }
}

// How many entries the long inputs have.
const MANY: usize = 7_000;

// A book with many parents, each a blog, or many books.
fn many_lines(rt: &(impl Abort + AllocGlobal), depth: usize, kind: &str) -> String {
    let mut input = String::new(rt.alloc());
    writeln!(input, "0\tfirst\tbook").expect(rt, "memory");
    for number in 0..MANY {
        writeln!(input, "{depth}\tkey{number}\t{kind}").expect(rt, "memory");
    }
    input
}

// Over 70,000 bytes, one a read.
#[test]
fn reads_byte_after_byte(rt: HostRuntime) {
    let input = many_lines(&rt, 0, "web");
    let mut slow = FailingReader {
        bytes: input.as_bytes(),
        step: 1,
        good: usize::MAX,
        flickers: true,
        interrupted: false,
    };
    assert!(rt; input.len() > 70_000);
    assert!(rt; ends(&rt, &["book"], &mut slow, (0, "first\n", "")));
    drop(input);
}

#[test]
fn takes_many_parents_and_prints_many_lines(rt: HostRuntime) {
    let input = many_lines(&rt, 1, "blog");
    let wanted = (0, "first\tlast=key0\n", "");
    assert!(rt; ends(&rt, &["book > last:*"], &mut input.as_bytes(), wanted));
    drop(input);
    let input = many_lines(&rt, 0, "blog");
    let end = run_on(&rt, &["blog"], &mut input.as_bytes());
    drop(input);
    assert_eq!(rt; (end.status, end.complaint.len()), (0, 0));
    assert_eq!(rt; end.printed.iter().filter(|b| **b == b'\n').count(), MANY);
    drop(end);
}

#[test]
fn takes_a_long_selector(rt: HostRuntime) {
    let mut selector = String::from_str(rt.alloc(), "note").expect(&rt, "memory");
    for _ in 0..MANY {
        selector.push_str(" | web").expect(&rt, "memory");
    }
    let wanted = (1, "", "unknown entry type: `note`\n");
    assert!(rt; ends(&rt, &[selector.as_str()], &mut SMALL, wanted));
    selector.push_str(" | book").expect(&rt, "memory");
    let known = selector.as_str().trim_start_matches("note |");
    assert!(rt; ends(&rt, &[known], &mut SMALL, (0, "note\n", "")));
    drop(selector);
}

#[test]
fn says_that_it_cannot_read(rt: HostRuntime) {
    for step in [1, 7, 1000] {
        // the reads that give bytes, and one that meets the end
        let needed = SMALL.len().div_ceil(step) + 1;
        for good in 0..needed + 2 {
            for flickers in [false, true] {
                let mut input = FailingReader {
                    bytes: SMALL,
                    step,
                    good,
                    flickers,
                    interrupted: false,
                };
                let wanted = if good < needed {
                    (1, "", "cannot read\n")
                } else {
                    (0, "note\n", "")
                };
                assert!(rt; ends(&rt, &["book"], &mut input, wanted), "{step} {good}");
            }
        }
    }
}

// What all entries of a library are printed as.
const WHOLE: &[(&[u8], &[u8])] = &[
    (SMALL, b"paper\nnote\n"),
    (ARTICLES, b"dependence\nfeminism\n"),
];

// A writer with so much room, that takes so much a write.
fn writer(rt: &(impl Abort + AllocGlobal), room: usize, step: usize) -> FailingWriter {
    FailingWriter {
        taken: Vec::new(rt.alloc()),
        step,
        room,
        recovers: false,
        flickers: false,
        interrupted: false,
        stuck: false,
    }
}

// What a run with `*` that prints into the writer leaves.
fn run_into(rt: &(impl Abort + AllocGlobal), mut input: &[u8], mut out: FailingWriter) -> Ended {
    let words = texts(rt, &["*"]);
    let mut err = Vec::new(rt.alloc());
    let status = run(rt.alloc(), words.as_slice(), &mut input, &mut out, &mut err);
    drop(words);
    Ended {
        status,
        printed: out.taken,
        complaint: err,
    }
}

// Whether a run into the writer prints just these bytes, and complains.
fn stops_at(
    rt: &(impl Abort + AllocGlobal),
    input: &[u8],
    out: FailingWriter,
    printed: &[u8],
) -> bool {
    let end = run_into(rt, input, out);
    let same = end.status == 1
        && end.printed.as_slice() == printed
        && end.complaint.as_slice() == b"cannot write\n".as_slice();
    drop(end);
    same
}

#[test]
fn says_that_it_cannot_write(rt: HostRuntime) {
    for (input, whole) in WHOLE {
        for room in 0..whole.len() + 1 {
            for recovers in [false, true] {
                let mut out = writer(&rt, room, usize::MAX);
                out.recovers = recovers;
                // with room for all, it is the flush that fails
                out.stuck = room == whole.len();
                let printed = whole.get(..room).unwrap_or(&[]);
                assert!(rt; stops_at(&rt, *input, out, printed), "{room}");
            }
        }
    }
}

#[test]
fn keeps_a_line_where_the_next_cannot_be_written(rt: HostRuntime) {
    let out = writer(&rt, 11, usize::MAX);
    assert!(rt; stops_at(&rt, ARTICLES, out, b"dependence\n"));
}

#[test]
fn writes_piece_after_piece(rt: HostRuntime) {
    for step in [1, 4, 11] {
        for flickers in [false, true] {
            let mut out = writer(&rt, usize::MAX, step);
            out.flickers = flickers;
            let end = run_into(&rt, ARTICLES, out);
            assert_eq!(rt; (end.status, end.complaint.len()), (0, 0), "{step}");
            assert!(rt;
                end.printed.as_slice() == b"dependence\nfeminism\n".as_slice(),
                "{step}"
            );
            drop(end);
        }
    }
}

// The status of a run that can't complain.
fn silent_status(rt: &(impl Abort + AllocGlobal), words: &[&str], mut input: &[u8]) -> u8 {
    let words = texts(rt, words);
    let (mut out, mut err) = (Vec::new(rt.alloc()), writer(rt, 3, usize::MAX));
    err.stuck = true;
    let status = run(rt.alloc(), words.as_slice(), &mut input, &mut out, &mut err);
    drop(words);
    drop(out);
    drop(err);
    status
}

#[test]
fn keeps_its_status_where_it_cannot_complain(rt: HostRuntime) {
    assert_eq!(rt; silent_status(&rt, &["*"], b""), 0);
    assert_eq!(rt; silent_status(&rt, &["*"], b"\xFF"), 1);
    assert_eq!(rt; silent_status(&rt, &[], b""), 2);
}
