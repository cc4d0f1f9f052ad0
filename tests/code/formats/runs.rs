//! Rows: whole runs of the command.
use haya_asked::Questions;
use haya_command::{Form, Input, Options, run};
use haya_csl::ItemKey;
use haya_formats::Format;
use hayagriva::HashKeys;
use std::io;
use std::io::Write;
use std::process::Abort;

pub(crate) const LINES: (&str, &str) = (
    "a.tsv",
    "0\tx\tarticle\tdoi=1\n1\tj\tperiodical\n0\ty\tbook\n",
);

const MORE: (&str, &str) = ("b.tsv", "0\tz\tbook\n0\tx\tvideo\n");

const JSON: (&str, &str) = (
    "c.json",
    "{\"k\":{\"type\":\"book\",\"colour\":1,\"size\":2,\"parent\":{\"colour\":null,\"size\":3}}}",
);

const CSL: (&str, &str) = (
    "d.json",
    " [{\"id\":\"m\",\"citation-key\":\"n\",\"type\":\"tale\",\"x\":1}]",
);

const BAD: (&str, &str) = ("e.json", "{\"k\":{\"type\":\"book\"},\"l\":1}");

const NOTE: &str = "haya: c.json: passed over: colour (1), size (2)\n";

const CSL_NOTE: &str = "haya: d.json: passed over: x (1)\n\
    haya: d.json: `n`: type: unknown type: \"tale\"\n";

const ID_NOTE: &str = "haya: d.json: passed over: citation-key (1), x (1)\n\
    haya: d.json: `m`: type: unknown type: \"tale\"\n";

const AGAIN: &str = "haya: b.tsv: `x` comes again\n";

// A selector; the first letters of what else is asked, as `c` for count, where `l` is for lines,
// `f` for input in lines, and `k` for the `id` as key; inputs; and the status, what is printed, and
// what is said.
const ROWS: &[(&str, &str, &[(&str, &str)], u8, &str, &str)] = &[
    ("*", "", &[LINES], 0, "x\ny\n", ""),
    ("a:article > p:*", "", &[LINES], 0, "x\ta=x\tp=j\n", ""),
    ("*", "", &[LINES, MORE], 0, "x\ny\nz\n", AGAIN),
    ("video", "", &[LINES, MORE], 0, "x\n", AGAIN),
    ("*", "s", &[LINES, MORE], 2, "", AGAIN),
    ("video", "", &[LINES], 1, "", ""),
    ("*", "", &[], 1, "", ""),
    ("*", "c", &[LINES], 0, "2\n", ""),
    ("video", "c", &[LINES], 1, "0\n", ""),
    ("book", "i", &[LINES], 0, "x\n", ""),
    ("book", "l", &[LINES], 0, "0\ty\tbook\n", ""),
    ("*", "q", &[JSON], 0, "", ""),
    ("video", "qc", &[JSON], 1, "", ""),
    ("(", "q", &[JSON], 2, "", ""),
    ("*", "", &[JSON], 0, "k\n", NOTE),
    ("*", "", &[CSL], 0, "n\n", CSL_NOTE),
    ("*", "k", &[CSL], 0, "m\n", ID_NOTE),
    ("*", "s", &[LINES], 0, "x\ny\n", ""),
    ("*", "s", &[LINES, JSON], 2, "", JSON_FAULT),
    ("*", "s", &[CSL], 2, "", CSL_FAULT),
    ("*", "sk", &[CSL], 2, "", ID_FAULT),
    ("*", "f", &[JSON], 2, "", "haya: c.json: line 1: shape\n"),
    ("*", "", &[LINES, BAD], 2, "", BAD_FAULT),
    (
        "(",
        "",
        &[LINES],
        2,
        "",
        "haya: (\n       ^ missing value\n",
    ),
    ("book > Artcle", "", &[LINES], 2, "", TYPE_FAULT),
    ("artcle:* > artcle", "", &[LINES], 2, "", LATER_TYPE_FAULT),
    ("*[isnb, doi]", "", &[LINES], 1, "", NAME_NOTE),
];

const JSON_FAULT: &str = "haya: c.json: `k`: colour: passed over: colour\n";

const CSL_FAULT: &str = "haya: d.json: `n`: type: unknown type: \"tale\"\n";

const ID_FAULT: &str = "haya: d.json: `m`: citation-key: passed over: citation-key\n";

const BAD_FAULT: &str = "haya: e.json: /l: expected an object\n";

const TYPE_FAULT: &str = "haya: book > Artcle\n             \
    ^^^^^^ unknown entry type: `artcle`; did you mean `article`?\n";

const LATER_TYPE_FAULT: &str = "haya: artcle:* > artcle\n                 \
    ^^^^^^ unknown entry type: `artcle`; did you mean `article`?\n";

const NAME_NOTE: &str = "haya: no entry has `isnb`; did you mean `isbn`?\n";

/// What is asked.
pub(crate) fn options(rt: &(impl Abort + AllocGlobal), selector: &str, letters: &str) -> Options {
    Options {
        selector: String::from_str(rt.alloc(), selector).expect(rt, "memory"),
        from: letters.contains('f').then_some(Format::Lines),
        key: if letters.contains('k') {
            ItemKey::Id
        } else {
            ItemKey::CitationKey
        },
        to: if letters.contains('l') {
            Form::Lines
        } else {
            Form::Keys
        },
        questions: Questions::none(rt.alloc()),
        columns: None,
        source: None,
        count: letters.contains('c'),
        quiet: letters.contains('q'),
        invert: letters.contains('i'),
        strict: letters.contains('s'),
        notes: true,
        files: Vec::new(rt.alloc()),
    }
}

/// The inputs of these names and texts.
pub(crate) fn inputs(rt: &(impl Abort + AllocGlobal), given: &[(&str, &str)]) -> Vec<Input> {
    let mut inputs = Vec::new(rt.alloc());
    for (name, text) in given {
        let input = Input {
            name: String::from_str(rt.alloc(), name).expect(rt, "memory"),
            text: String::from_str(rt.alloc(), text).expect(rt, "memory"),
        };
        inputs.push(input).expect(rt, "memory");
    }
    inputs
}

#[test]
fn ends_as_it_says(rt: HostRuntime) {
    let keys = HashKeys::new(0, 0);
    for (selector, letters, given, status, printed, said) in ROWS {
        let options = options(&rt, *selector, *letters);
        let inputs = inputs(&rt, *given);
        let (mut out, mut err) = (Vec::new(rt.alloc()), Vec::new(rt.alloc()));
        let ended = run(
            rt.alloc(),
            keys,
            &options,
            inputs.as_slice(),
            &mut out,
            &mut err,
        );
        assert!(rt; ended == *status, "{selector} {letters}: {ended}");
        assert!(rt;
            out.as_slice() == printed.as_bytes(),
            "{selector} {letters}: printed"
        );
        assert!(rt;
            err.as_slice() == said.as_bytes(),
            "{selector} {letters}: said"
        );
    }
}

// Takes so many bytes, and then fails in this way.
#[derive(Drop)]
struct ShortWriter {
    taken: Vec<u8>,
    room: usize,
    kind: io::ErrorKind,
}

impl Write for ShortWriter {
    fn write(&mut self, buf: &[u8]) -> io::Result<usize> {
        if self.room == 0 {
            return Err(io::Error::from(self.kind));
        }
        let n = buf.len().min(self.room);
        self.taken.extend_from_slice(&buf[..n])?;
        self.room -= n;
        Ok(n)
    }

    fn flush(&mut self) -> io::Result<()> {
        Ok(())
    }
}

// How a run ends whose output fails in this way behind so many bytes, and what it says.
fn fails(rt: &(impl Abort + AllocGlobal), room: usize, kind: io::ErrorKind, said: &str) -> bool {
    let options = options(rt, "*", "");
    let inputs = inputs(rt, &[LINES]);
    let mut out = ShortWriter {
        taken: Vec::new(rt.alloc()),
        room,
        kind,
    };
    let mut err = Vec::new(rt.alloc());
    let keys = HashKeys::new(0, 0);
    let ended = run(
        rt.alloc(),
        keys,
        &options,
        inputs.as_slice(),
        &mut out,
        &mut err,
    );
    ended == 2 && out.taken.len() == room && err.as_slice() == said.as_bytes()
}

#[test]
fn tells_of_output_that_fails(rt: HostRuntime) {
    for room in [0, 1, 3] {
        assert!(rt;
            fails(&rt, room, io::ErrorKind::Other, "haya: cannot write\n"),
            "{room}"
        );
        assert!(rt; fails(&rt, room, io::ErrorKind::BrokenPipe, ""), "{room}");
    }
}
