//! Rows: what is asked of an input whose reader fails.
use haya_asked::Questions;
use haya_command::{
    Asker, CommandError, Form, Options, Stop, ask_csl_json, ask_hayagriva, ask_json_lines,
    ask_lines,
};
use haya_csl::ItemKey;
use haya_formats::Format;
use hayagriva::HashKeys;
use std::io;
use std::io::Read;
use std::process::Abort;

// Gives its bytes, so many at a time, and then fails.
#[derive(Drop)]
struct CutOff<'a> {
    bytes: &'a [u8],
    step: usize,
}

impl Read for CutOff<'_> {
    fn read(&mut self, buf: &mut [u8]) -> io::Result<usize> {
        let n = buf.len().min(self.bytes.len()).min(self.step);
        if n == 0 {
            return Err(io::Error::from(io::ErrorKind::Other));
        }
        buf[..n].copy_from_slice(&self.bytes[..n]);
        self.bytes = &self.bytes[n..];
        Ok(n)
    }
}

// A format, what is read before a read fails, and the keys of the entries that are asked: no entry
// of a line that hasn't ended, and none whose parents may still come.
const ROWS: &[(Format, &[u8], &str)] = &[
    (Format::Lines, b"0\ta\tbook\n0\tb\tbook\n", "a\n"),
    (Format::Lines, b"0\ta\tbook\n0\tb\tbook", ""),
    (
        Format::Lines,
        b"0\ta\tbook\n1\tp\tbook\n0\tb\tbook\n1\tp",
        "a\n",
    ),
    (Format::Lines, b"0\ta\tbook\n0\tb\tbook\n\xff", "a\n"),
    (Format::JsonLines, JSON_LINES, "a\n"),
    (
        Format::JsonLines,
        b"{\"key\":\"a\",\"entry\":{\"type\":\"book\"}}\n",
        "a\n",
    ),
    (
        Format::JsonLines,
        b"{\"key\":\"a\",\"entry\":{\"type\":\"book\"}}",
        "",
    ),
    (
        Format::CslJson(ItemKey::CitationKey),
        b"[{\"id\":\"a\",\"type\":\"book\"},{\"id\":\"b\",\"type\":\"book\"}",
        "a\n",
    ),
    (
        Format::CslJson(ItemKey::CitationKey),
        b"[{\"id\":\"a\",\"type\":\"book\"},{\"id\":\"b\",\"type\":\"book\"},",
        "a\nb\n",
    ),
    (
        Format::Hayagriva,
        b"{\"a\":{\"type\":\"book\"},\"b\":{\"type\":\"book\"}",
        "a\n",
    ),
    (
        Format::Hayagriva,
        b"{\"a\":{\"type\":\"book\"},\"b\":{\"type\":\"book\"},",
        "a\nb\n",
    ),
];

const JSON_LINES: &[u8] =
    b"{\"key\":\"a\",\"entry\":{\"type\":\"book\"}}\n{\"key\":\"b\",\"entry\":{\"type\":\"book\"}}";

// Asks for all entries, by their keys.
fn options(rt: &(impl Abort + AllocGlobal)) -> Options {
    Options {
        selector: String::from_str(rt.alloc(), "*").expect(rt, "memory"),
        from: None,
        key: ItemKey::CitationKey,
        to: Form::Keys,
        questions: Questions::none(rt.alloc()),
        columns: None,
        source: None,
        count: false,
        quiet: false,
        invert: false,
        strict: false,
        notes: true,
        files: Vec::new(rt.alloc()),
    }
}

// Whether the run ends with the reader's fault, which names the input.
fn is_cut_off<A: Drop>(asked: Result<A, Stop<'_>>) -> bool {
    match asked {
        Ok(asker) => {
            drop(asker);
            false
        }
        Err(stop) => {
            let is =
                matches!(&stop.fault, CommandError::CannotRead(name, _) if name.as_str() == "a file");
            drop(stop);
            is
        }
    }
}

// Whether these keys are printed of the bytes, so many of which are read at a time.
fn are_printed(
    rt: &(impl Abort + AllocGlobal),
    (format, bytes, keys): (Format, &[u8], &str),
    step: usize,
) -> bool {
    let options = options(rt);
    let asker = Asker::new(rt.alloc(), HashKeys::new(1, 2), &options).expect(rt, "a selector");
    let (mut input, mut out) = (CutOff { bytes, step }, Vec::new(rt.alloc()));
    let is_cut_off = match format {
        Format::Lines => is_cut_off(ask_lines(asker, "a file", &mut input, &mut out)),
        Format::JsonLines => is_cut_off(ask_json_lines(asker, "a file", &mut input, &mut out)),
        Format::CslJson(key) => {
            is_cut_off(ask_csl_json(asker, key, "a file", &mut input, &mut out))
        }
        Format::Hayagriva => is_cut_off(ask_hayagriva(asker, "a file", &mut input, &mut out)),
        Format::Yaml | Format::Bibtex => false,
    };
    is_cut_off && out.as_slice() == keys.as_bytes()
}

#[test]
fn a_reader_fails(rt: HostRuntime) {
    for (format, bytes, keys) in ROWS {
        for step in [1, 7, 1_000] {
            assert!(&rt;
                are_printed(&rt, (*format, *bytes, *keys), step),
                "{keys} of {} bytes, {step} at a time",
                bytes.len()
            );
        }
    }
}
