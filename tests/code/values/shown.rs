//! How values are shown, and what becomes of a writer's fault.
use std::fmt;
use std::fmt::Write;
use std::process::Abort;

// Whether it is shown so.
pub(crate) fn is_shown<T: fmt::Display>(
    rt: &(impl Abort + AllocGlobal),
    value: &T,
    wanted: &str,
) -> bool {
    format!(in rt.alloc(); "{value}")
        .expect(rt, "memory")
        .as_str()
        == wanted
}

// A writer that takes so many texts and no more, and counts those that it is handed. An empty text
// is none.
#[derive(Drop)]
pub(crate) struct Short {
    pub(crate) room: usize,
    pub(crate) handed: usize,
}

impl fmt::Write for Short {
    fn write_str(&mut self, text: &str) -> fmt::Result {
        if text.is_empty() {
            return Ok(());
        }
        self.handed = self.handed.wrapping_add(1);
        if self.handed > self.room {
            Err(fmt::Error)
        } else {
            Ok(())
        }
    }
}

// How many texts were handed over where the writer with so much room fails.
fn handed_at_fault<T: fmt::Display>(value: &T, room: usize) -> Option<usize> {
    let mut out = Short { room, handed: 0 };
    match write!(out, "{value}") {
        Ok(()) => None,
        Err(_) => Some(out.handed),
    }
}

// Whether each text that is refused ends the call: none is handed over behind it.
pub(crate) fn ends_at_a_fault<T: fmt::Display>(value: &T) -> bool {
    let mut out = Short {
        room: usize::MAX,
        handed: 0,
    };
    if write!(out, "{value}").is_err() || out.handed == 0 {
        return false;
    }
    for room in 0..out.handed {
        if handed_at_fault(value, room) != Some(room + 1) {
            return false;
        }
    }
    true
}
