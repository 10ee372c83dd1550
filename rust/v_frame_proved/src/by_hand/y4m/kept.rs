//! Readers and writers that retry interrupted calls and keep the cause of a failure.

use super::{StreamError, Y4mError};
use alloc::format;
use std::io;

/// A reader or a writer, and the failure of its last call.
pub(super) struct Kept<D> {
    pub(super) inner: D,
    failure: Option<io::Error>,
}

impl<D> Kept<D> {
    pub(super) fn new(inner: D) -> Self {
        Kept { inner, failure: None }
    }

    /// Calls a proved function, which knows only the kind of a failure, and adds the cause to its error.
    pub(super) fn call<A, E: Into<Y4mError>>(
        &mut self,
        call: impl FnOnce(&mut Self) -> Result<A, E>,
    ) -> Result<A, StreamError> {
        call(self).map_err(|fault| match self.failure.take() {
            Some(failure) => StreamError::Io(failure),
            None => fault.into().into(),
        })
    }

    /// Returns the count of bytes that a call reads or writes. A count above `offered`, the number of bytes in the slice, is an
    /// error of the kind `InvalidData`, because the reader or the writer does not do what its trait requires.
    fn counted(&mut self, offered: usize, call: impl FnMut(&mut D) -> io::Result<usize>) -> io::Result<usize> {
        let count = self.tried(call)?;
        if count > offered {
            let text = format!("{count} bytes were reported for a slice of {offered} bytes");
            self.failure = Some(io::Error::new(io::ErrorKind::InvalidData, text));
            return Err(io::ErrorKind::InvalidData.into());
        }
        Ok(count)
    }

    /// Returns the result of a call, which is retried while it is interrupted. A failure is kept, and its kind is returned.
    fn tried<A>(&mut self, mut call: impl FnMut(&mut D) -> io::Result<A>) -> io::Result<A> {
        loop {
            match call(&mut self.inner) {
                Err(error) if error.kind() == io::ErrorKind::Interrupted => {}
                Err(error) => {
                    let kind = error.kind();
                    self.failure = Some(error);
                    return Err(kind.into());
                }
                answer => return answer,
            }
        }
    }
}

impl<D: io::Read> io::Read for Kept<D> {
    fn read(&mut self, buf: &mut [u8]) -> io::Result<usize> {
        self.counted(buf.len(), |reader| reader.read(buf))
    }
}

impl<D: io::Write> io::Write for Kept<D> {
    fn write(&mut self, buf: &[u8]) -> io::Result<usize> {
        self.counted(buf.len(), |writer| writer.write(buf))
    }

    fn flush(&mut self) -> io::Result<()> {
        self.tried(|writer| writer.flush())
    }
}
