//! Readers and writers that fail in mid-stream.
use std::io;
use std::io::{Read, Write};

/// Gives at most `step` bytes a read. Each read after the first `good` ones fails, and where
/// `flickers` is set, every second read is interrupted and gives nothing.
#[derive(Drop)]
pub struct FailingReader<'a> {
    pub bytes: &'a [u8],
    pub step: usize,
    pub good: usize,
    pub flickers: bool,
    pub interrupted: bool,
}

impl Read for FailingReader<'_> {
    fn read(&mut self, buf: &mut [u8]) -> io::Result<usize> {
        self.interrupted = self.flickers && !self.interrupted;
        if self.interrupted {
            return Err(io::Error::from(io::ErrorKind::Interrupted));
        }
        let Some(left) = self.good.checked_sub(1) else {
            return Err(io::Error::from(io::ErrorKind::Other));
        };
        self.good = left;
        let n = buf.len().min(self.bytes.len()).min(self.step);
        buf[..n].copy_from_slice(&self.bytes[..n]);
        self.bytes = &self.bytes[n..];
        Ok(n)
    }
}

/// Takes `room` bytes, at most `step` a write, and then fails, once or each time. Where `flickers`
/// is set, every second write is interrupted and takes nothing; where `stuck` is set, it can't be
/// flushed.
#[derive(Drop)]
pub struct FailingWriter {
    pub taken: Vec<u8>,
    pub step: usize,
    pub room: usize,
    pub recovers: bool,
    pub flickers: bool,
    pub interrupted: bool,
    pub stuck: bool,
}

impl Write for FailingWriter {
    fn write(&mut self, buf: &[u8]) -> io::Result<usize> {
        self.interrupted = self.flickers && !self.interrupted;
        if self.interrupted {
            return Err(io::Error::from(io::ErrorKind::Interrupted));
        }
        if self.room == 0 {
            if self.recovers {
                self.room = usize::MAX;
            }
            return Err(io::Error::from(io::ErrorKind::BrokenPipe));
        }
        let n = buf.len().min(self.room).min(self.step);
        self.taken.extend_from_slice(&buf[..n])?;
        self.room -= n;
        Ok(n)
    }

    fn flush(&mut self) -> io::Result<()> {
        if self.stuck {
            return Err(io::Error::from(io::ErrorKind::Other));
        }
        Ok(())
    }
}
