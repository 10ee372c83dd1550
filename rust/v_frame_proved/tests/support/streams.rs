//! Readers and writers that process few bytes at a time, count their calls, and fail at some call.

use std::io::{self, ErrorKind, Read, Write};

/// A reader over memory that returns a few bytes for each call, and fails after a number of calls or bytes.
pub struct Reader<'a> {
    /// The bytes that have not been read.
    pub left: &'a [u8],
    /// The number of calls.
    pub reads: usize,
    /// The number of calls with an empty buffer.
    pub empty_reads: usize,
    most: usize,
    calls: usize,
    bytes: usize,
    failure: ErrorKind,
}

/// Returns a reader that returns at most `most` bytes for each call and never fails.
pub fn reader(left: &[u8], most: usize) -> Reader<'_> {
    Reader { left, reads: 0, empty_reads: 0, most, calls: usize::MAX, bytes: usize::MAX, failure: ErrorKind::Other }
}

impl Reader<'_> {
    /// Makes the reader fail after `calls` calls.
    pub fn fails_after_calls(self, calls: usize, failure: ErrorKind) -> Self {
        Reader { calls, failure, ..self }
    }

    /// Makes the reader fail after `bytes` bytes.
    pub fn fails_after_bytes(self, bytes: usize, failure: ErrorKind) -> Self {
        Reader { bytes, failure, ..self }
    }
}

impl Read for Reader<'_> {
    fn read(&mut self, buf: &mut [u8]) -> io::Result<usize> {
        self.reads += 1;
        self.empty_reads += usize::from(buf.is_empty());
        if self.calls == 0 || self.bytes == 0 {
            return Err(self.failure.into());
        }
        let most = buf.len().min(self.most).min(self.bytes);
        let count = self.left.read(&mut buf[..most])?;
        self.calls -= 1;
        self.bytes -= count;
        Ok(count)
    }
}

/// A writer that accepts a few bytes for each call, and behaves differently after a number of calls or bytes.
pub struct Writer {
    /// The bytes that were accepted.
    pub taken: Vec<u8>,
    /// The number of calls of `write`.
    pub writes: usize,
    /// The number of calls of `write` without bytes.
    pub empty_writes: usize,
    /// The number of calls of `flush`.
    pub flushes: usize,
    most: usize,
    calls: usize,
    bytes: usize,
    then: Then,
}

/// The behavior of a writer after a number of calls or bytes.
#[derive(Clone, Copy, Debug, PartialEq)]
pub enum Then {
    /// It fails with this cause.
    Fails(ErrorKind),
    /// It accepts no bytes.
    TakesNone,
}

/// Returns a writer that accepts at most `most` bytes for each call and never fails.
pub fn writer(most: usize) -> Writer {
    let then = Then::TakesNone;
    Writer {
        taken: Vec::new(),
        writes: 0,
        empty_writes: 0,
        flushes: 0,
        most,
        calls: usize::MAX,
        bytes: usize::MAX,
        then,
    }
}

impl Writer {
    /// Changes the behavior after `calls` calls.
    pub fn after_calls(self, calls: usize, then: Then) -> Self {
        Writer { calls, then, ..self }
    }

    /// Changes the behavior after `bytes` bytes.
    pub fn after_bytes(self, bytes: usize, then: Then) -> Self {
        Writer { bytes, then, ..self }
    }

    /// Returns the number of calls of `write`, of those without bytes, and of calls of `flush`.
    pub fn counts(&self) -> [usize; 3] {
        [self.writes, self.empty_writes, self.flushes]
    }
}

impl Write for Writer {
    fn write(&mut self, buf: &[u8]) -> io::Result<usize> {
        self.writes += 1;
        self.empty_writes += usize::from(buf.is_empty());
        if self.calls == 0 || self.bytes == 0 {
            return match self.then {
                Then::Fails(cause) => Err(cause.into()),
                Then::TakesNone => Ok(0),
            };
        }
        let count = buf.len().min(self.most).min(self.bytes);
        self.taken.extend_from_slice(&buf[..count]);
        self.calls -= 1;
        self.bytes -= count;
        Ok(count)
    }

    fn flush(&mut self) -> io::Result<()> {
        self.flushes += 1;
        Ok(())
    }
}
