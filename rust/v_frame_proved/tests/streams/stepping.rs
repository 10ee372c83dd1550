//! Readers and writers with a given behavior.

use std::error::Error;
use std::io::{self, ErrorKind, Read, Write};
use v_frame_proved::y4m::StreamError;

/// The behavior of a reader or a writer in one call.
#[derive(Clone, Copy)]
pub enum Step {
    /// It accepts or returns at most this number of bytes.
    Take(usize),
    /// It fails with an error of this kind.
    Fail(ErrorKind),
}

/// A reader or a writer that repeats a list of steps, and fails permanently after a number of bytes.
pub struct Stepping<D> {
    pub inner: D,
    steps: Vec<Step>,
    calls: usize,
    left: usize,
}

impl<D> Stepping<D> {
    pub fn new(inner: D, steps: &[Step], left: usize) -> Self {
        Stepping { inner, steps: steps.to_vec(), calls: 0, left }
    }

    /// Returns how many of `count` bytes the next call processes.
    fn next_count(&mut self, count: usize) -> io::Result<usize> {
        let step = self.steps[self.calls % self.steps.len()];
        self.calls += 1;
        match step {
            Step::Fail(kind) => Err(kind.into()),
            Step::Take(_) if self.left == 0 => Err(io::Error::new(ErrorKind::BrokenPipe, "the cable is out")),
            Step::Take(most) => Ok(count.min(most).min(self.left)),
        }
    }
}

impl<R: Read> Read for Stepping<R> {
    fn read(&mut self, buf: &mut [u8]) -> io::Result<usize> {
        let count = self.next_count(buf.len())?;
        let read = self.inner.read(&mut buf[..count])?;
        self.left -= read;
        Ok(read)
    }
}

impl<W: Write> Write for Stepping<W> {
    fn write(&mut self, buf: &[u8]) -> io::Result<usize> {
        let count = self.next_count(buf.len())?;
        let written = self.inner.write(&buf[..count])?;
        self.left -= written;
        Ok(written)
    }

    fn flush(&mut self) -> io::Result<()> {
        self.next_count(0).map(|_| ())
    }
}

/// The steps of readers and writers that eventually process all bytes.
pub fn patient_steps() -> [Vec<Step>; 4] {
    let interrupted = Step::Fail(ErrorKind::Interrupted);
    [
        vec![Step::Take(1)],
        vec![interrupted, Step::Take(1)],
        vec![Step::Take(7), interrupted, interrupted, Step::Take(2)],
        vec![interrupted, Step::Take(usize::MAX)],
    ]
}

/// Returns the text of the cause in an error.
pub fn cause(error: &StreamError) -> Option<String> {
    error.source().map(|cause| cause.to_string())
}
