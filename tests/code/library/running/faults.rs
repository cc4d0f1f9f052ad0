//! Each read and each write made to fail in turn, until none is reached.
use super::{Ended, SMALL, texts};
use haya_run::run;
use std::io;
use std::io::{ErrorKind, Read, Write};
use std::process::Abort;

// Which call of a reader or writer fails, and how, and how many bytes the others move at most.
#[derive(Clone, Copy)]
struct Plan {
    fails_at: usize,
    kind: ErrorKind,
    step: usize,
}

#[derive(Drop)]
struct PlannedReader<'a> {
    plan: Plan,
    bytes: &'a [u8],
    calls: usize,
}

impl Read for PlannedReader<'_> {
    fn read(&mut self, buf: &mut [u8]) -> io::Result<usize> {
        self.calls = self.calls.saturating_add(1);
        if self.calls == self.plan.fails_at {
            return Err(io::Error::from(self.plan.kind));
        }
        let n = buf.len().min(self.bytes.len()).min(self.plan.step);
        buf[..n].copy_from_slice(&self.bytes[..n]);
        self.bytes = &self.bytes[n..];
        Ok(n)
    }
}

#[derive(Drop)]
struct PlannedWriter {
    plan: Plan,
    taken: Vec<u8>,
    calls: usize,
}

impl Write for PlannedWriter {
    fn write(&mut self, buf: &[u8]) -> io::Result<usize> {
        self.calls = self.calls.saturating_add(1);
        if self.calls == self.plan.fails_at {
            return Err(io::Error::from(self.plan.kind));
        }
        let n = buf.len().min(self.plan.step);
        self.taken.extend_from_slice(&buf[..n])?;
        Ok(n)
    }

    fn flush(&mut self) -> io::Result<()> {
        Ok(())
    }
}

// What all entries of the small library are printed as.
const WHOLE: &str = "paper\nnote\n";

// What a run with `*` over the small library leaves, how often it has read and how often written.
fn run_planned(
    rt: &(impl Abort + AllocGlobal),
    reads: Plan,
    writes: Plan,
) -> (Ended, usize, usize) {
    let words = texts(rt, &["*"]);
    let mut input = PlannedReader {
        plan: reads,
        bytes: SMALL,
        calls: 0,
    };
    let mut out = PlannedWriter {
        plan: writes,
        taken: Vec::new(rt.alloc()),
        calls: 0,
    };
    let mut err = Vec::new(rt.alloc());
    let status = run(rt.alloc(), words.as_slice(), &mut input, &mut out, &mut err);
    drop(words);
    let ended = Ended {
        status,
        printed: out.taken,
        complaint: err,
    };
    (ended, input.calls, out.calls)
}

fn is_end(ended: Ended, (status, printed, complaint): (u8, &str, &str)) -> bool {
    let same = ended.status == status
        && ended.printed.as_slice() == printed.as_bytes()
        && ended.complaint.as_slice() == complaint.as_bytes();
    drop(ended);
    same
}

// No call of this plan fails.
const GOOD: Plan = Plan {
    fails_at: 0,
    kind: ErrorKind::Other,
    step: 65536,
};

const STEPS: &[usize] = &[1, 7, 65536];

// Whether a run whose read fails ends as it has to, and whether that read was reached.
fn read_fails(rt: &(impl Abort + AllocGlobal), plan: Plan) -> (bool, bool) {
    let (ended, reads, writes) = run_planned(rt, plan, GOOD);
    let reached = reads >= plan.fails_at;
    if reached && plan.kind != ErrorKind::Interrupted {
        let stops = reads == plan.fails_at && writes == 0;
        (stops && is_end(ended, (1, "", "cannot read\n")), reached)
    } else {
        (is_end(ended, (0, WHOLE, "")), reached)
    }
}

#[test]
fn each_read_fails(rt: HostRuntime) {
    for kind in [
        ErrorKind::Other,
        ErrorKind::WouldBlock,
        ErrorKind::Interrupted,
    ] {
        for step in STEPS {
            for fails_at in 1..1000usize {
                let plan = Plan {
                    fails_at,
                    kind,
                    step: *step,
                };
                let (is_right, reached) = read_fails(&rt, plan);
                assert!(rt; is_right, "read {fails_at} of {step} bytes");
                if !reached {
                    break;
                }
                assert!(rt; fails_at < 999);
            }
        }
    }
}

// Whether a run whose write fails ends as it has to, and whether that write was reached. What the
// writes before it took stands there.
fn write_fails(rt: &(impl Abort + AllocGlobal), plan: Plan) -> (bool, bool) {
    let (ended, _, writes) = run_planned(rt, GOOD, plan);
    let reached = writes >= plan.fails_at;
    if reached && plan.kind != ErrorKind::Interrupted {
        let begins = WHOLE.as_bytes().starts_with(ended.printed.as_slice());
        let is_told = ended.complaint.as_slice() == b"cannot write\n".as_slice();
        let is_right = ended.status == 1 && begins && is_told && writes == plan.fails_at;
        drop(ended);
        (is_right, reached)
    } else {
        (is_end(ended, (0, WHOLE, "")), reached)
    }
}

#[test]
fn each_write_fails(rt: HostRuntime) {
    for kind in [
        ErrorKind::BrokenPipe,
        ErrorKind::WouldBlock,
        ErrorKind::Interrupted,
    ] {
        for step in STEPS {
            for fails_at in 1..1000usize {
                let plan = Plan {
                    fails_at,
                    kind,
                    step: *step,
                };
                let (is_right, reached) = write_fails(&rt, plan);
                assert!(rt; is_right, "write {fails_at} of {step} bytes");
                if !reached {
                    break;
                }
                assert!(rt; fails_at < 999);
            }
        }
    }
}
