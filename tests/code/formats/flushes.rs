//! What is printed is handed on: the writer is flushed behind it, and a flush that fails is told.
use crate::runs::{LINES, inputs, options};
use haya_command::{
    Asker, CommandError, Stop, ask_csl_json, ask_hayagriva, ask_json_lines, ask_lines,
    begin_asking, end_asking, run,
};
use haya_csl::ItemKey;
use haya_formats::Format;
use haya_line_stream::{WriteError, write_text};
use hayagriva::HashKeys;
use std::io;
use std::io::{Read, Write};
use std::process::Abort;

// Takes all that is written. A flush hands it on, or fails in this way.
#[derive(Drop)]
struct FlushWriter {
    taken: usize,
    handed_on: usize,
    // The most that was taken and not handed on.
    most_held: usize,
    fails: Option<io::ErrorKind>,
}

impl FlushWriter {
    fn new(fails: Option<io::ErrorKind>) -> FlushWriter {
        FlushWriter {
            taken: 0,
            handed_on: 0,
            most_held: 0,
            fails,
        }
    }
}

impl Write for FlushWriter {
    fn write(&mut self, buf: &[u8]) -> io::Result<usize> {
        self.taken = self.taken.saturating_add(buf.len());
        let held = self.taken.saturating_sub(self.handed_on);
        self.most_held = self.most_held.max(held);
        Ok(buf.len())
    }

    fn flush(&mut self) -> io::Result<()> {
        match self.fails {
            Some(kind) => Err(io::Error::from(kind)),
            None => {
                self.handed_on = self.taken;
                Ok(())
            }
        }
    }
}

#[test]
fn texts_are_handed_on(rt: HostRuntime) {
    let mut out = FlushWriter::new(None);
    assert!(&rt; write_text(&mut out, "a text").is_ok(), "it is written");
    assert!(&rt; out.handed_on == 6, "it is handed on");
    let mut out = FlushWriter::new(Some(io::ErrorKind::Other));
    assert!(&rt;
        matches!(write_text(&mut out, "a text"), Err(WriteError::CannotWrite)),
        "a flush that fails"
    );
    let mut out = FlushWriter::new(Some(io::ErrorKind::BrokenPipe));
    assert!(&rt;
        matches!(write_text(&mut out, "a text"), Err(WriteError::Closed)),
        "a reader that is gone"
    );
}

// How a run of the library in lines ends, and what it says. The second answer is whether all that
// was written is handed on.
fn ended(
    rt: &(impl Abort + AllocGlobal),
    selector: &str,
    fails: Option<io::ErrorKind>,
) -> (u8, bool, FlushWriter) {
    let options = options(rt, selector, "");
    let inputs = inputs(rt, &[LINES]);
    let (mut out, mut err) = (FlushWriter::new(fails), FlushWriter::new(None));
    let status = run(
        rt.alloc(),
        HashKeys::new(0, 0),
        &options,
        inputs.as_slice(),
        &mut out,
        &mut err,
    );
    (status, out.handed_on == out.taken, err)
}

#[test]
fn answers_and_messages_are_handed_on(rt: HostRuntime) {
    let (status, all, _) = ended(&rt, "*", None);
    assert!(&rt; status == 0 && all, "an answer");
    let (status, _, said) = ended(&rt, "*", Some(io::ErrorKind::Other));
    assert!(&rt;
        status == 2 && said.taken == "haya: cannot write\n".len(),
        "a flush that fails"
    );
    assert!(&rt; said.handed_on == said.taken, "what is said of it");
    let (status, _, said) = ended(&rt, "*", Some(io::ErrorKind::BrokenPipe));
    assert!(&rt; status == 2 && said.taken == 0, "a reader that is gone");
}

// Gives its bytes one by one.
#[derive(Drop)]
struct Given<'a> {
    bytes: &'a [u8],
}

impl Read for Given<'_> {
    fn read(&mut self, buf: &mut [u8]) -> io::Result<usize> {
        let n = buf.len().min(self.bytes.len()).min(1);
        buf[..n].copy_from_slice(&self.bytes[..n]);
        self.bytes = &self.bytes[n..];
        Ok(n)
    }
}

const INPUTS: &[(Format, &[u8])] = &[
    (Format::Lines, b"0\ta\tbook\n0\tb\tbook\n"),
    (
        Format::JsonLines,
        b"{\"key\":\"a\",\"entry\":{\"type\":\"book\"}}\n{\"key\":\"b\",\"entry\":{\"type\":\"book\"}}\n",
    ),
    (
        Format::CslJson(ItemKey::CitationKey),
        b"[{\"id\":\"a\",\"type\":\"book\"},{\"id\":\"b\",\"type\":\"book\"}]",
    ),
    (
        Format::Hayagriva,
        b"{\"a\":{\"type\":\"book\"},\"b\":{\"type\":\"book\"}}",
    ),
];

// What the entries of an input are asked for: their keys, or how many there are.
fn asked(
    rt: &(impl Abort + AllocGlobal),
    (format, bytes): (Format, &[u8]),
    letters: &str,
    out: &mut FlushWriter,
) -> Result<(), CommandError> {
    let options = options(rt, "*", letters);
    let asker = Asker::new(rt.alloc(), HashKeys::new(1, 2), &options)?;
    let mut input = Given { bytes };
    begin_asking(&asker, out)?;
    let asked = match format {
        Format::Lines => ask_lines(asker, "a file", &mut input, out),
        Format::JsonLines => alone(ask_json_lines(asker, "a file", &mut input, out)),
        Format::CslJson(key) => alone(ask_csl_json(asker, key, "a file", &mut input, out)),
        _ => alone(ask_hayagriva(asker, "a file", &mut input, out)),
    };
    match asked {
        Ok(asked) => {
            end_asking(asked, out)?;
            Ok(())
        }
        Err(stop) => Err(fault_of(stop)),
    }
}

// What is asked alone, and not what is told.
fn alone<'o, N: Drop>(asked: Result<(Asker<'o>, N), Stop<'o>>) -> Result<Asker<'o>, Stop<'o>> {
    match asked {
        Ok((asked, notes)) => {
            drop(notes);
            Ok(asked)
        }
        Err(stop) => Err(stop),
    }
}

// The fault at which the asking stops.
fn fault_of(stop: Stop<'_>) -> CommandError {
    let Stop {
        fault,
        asker,
        notes,
    } = stop;
    drop(asker);
    drop(notes);
    fault
}

#[test]
fn hits_are_handed_on_as_they_come(rt: HostRuntime) {
    for (format, bytes) in INPUTS {
        for letters in ["", "c"] {
            let mut out = FlushWriter::new(None);
            let is_ok = asked(&rt, (*format, *bytes), letters, &mut out).is_ok();
            assert!(&rt;
                is_ok && out.taken > 0 && out.handed_on == out.taken && out.most_held == 2,
                "{letters}"
            );
            let mut out = FlushWriter::new(Some(io::ErrorKind::Other));
            let fault = asked(&rt, (*format, *bytes), letters, &mut out);
            assert!(&rt;
                matches!(&fault, Err(CommandError::CannotWrite)),
                "{letters}: it fails"
            );
            drop(fault);
            let mut out = FlushWriter::new(Some(io::ErrorKind::BrokenPipe));
            let fault = asked(&rt, (*format, *bytes), letters, &mut out);
            assert!(&rt;
                matches!(&fault, Err(CommandError::Closed)),
                "{letters}: nobody reads"
            );
            drop(fault);
        }
    }
}
