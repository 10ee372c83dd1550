//! Reads streams from any reader.

use super::frame::show;
use super::kept::Kept;
use super::{StreamError, StreamHeader, VideoFrame, Y4mError};
use crate::generated::v_frame_y4m::{read_lax_frame_line, read_lax_header};
use crate::planar::{Counted, PlanarError, read_until_full};
use alloc::vec::Vec;
use crate::with_frame;
use core::fmt;
use core::iter::FusedIterator;
use std::io::{self, Read as _};

/// The largest number of bytes that are allocated before the first byte of a frame is read. The buffer grows while bytes are
/// read, so that a header alone cannot cause a large allocation.
const FIRST_ROOM: usize = 1 << 20;

/// The line in front of a frame without parameters. No valid line is shorter.
const PLAIN_LINE: [u8; 6] = *b"FRAME\n";

/// The state of a stream.
#[derive(Debug, Clone, Copy)]
enum State {
    InFrontOfFrame,
    Ended,
    Failed,
}

/// Reads a YUV4MPEG2 stream: the header first, and then the frames. As an iterator, it returns each frame in new planes.
/// [`read_into`](Self::read_into) reads each frame into the same planes instead. After an error the iterator ends.
///
/// This type is written by hand. Lax lines are accepted as [`strict_line`](super::strict_line) describes, and parameters after
/// `FRAME` are ignored. Interrupted reads are retried. All frames go through one buffer, and no byte after a frame is read with
/// it. The header is read byte by byte, and each frame with two reads, so a `BufReader` is of little use.
///
/// ```
/// use v_frame_proved::y4m::{Decoder, VideoFrame};
///
/// let mut decoder = Decoder::new(&b"YUV4MPEG2 W2 H1 Cmono\nFRAME\nabFRAME\ncd"[..])?;
/// let mut frame = VideoFrame::blank(decoder.header())?;
/// let mut greatest = None;
/// while decoder.read_into(&mut frame)? {
///     if let VideoFrame::EightBits(frame) = &frame {
///         greatest = frame.y_plane.pixels().max().max(greatest);
///     }
/// }
/// assert_eq!(greatest, Some(b'd'));
/// # Ok::<(), Box<dyn std::error::Error>>(())
/// ```
pub struct Decoder<R> {
    reader: Kept<R>,
    header: StreamHeader,
    is_strict: bool,
    frame_len: usize,
    bytes: Vec<u8>,
    state: State,
}

impl<R: io::Read> Decoder<R> {
    /// Reads the header of a stream.
    ///
    /// If the call fails, the reader is dropped. To keep it, pass `&mut reader`.
    ///
    /// # Errors
    ///
    /// - [`StreamError::Empty`] if the reader has no bytes.
    /// - [`StreamError::Format`] if the header line is rejected, if its frames are too large, or if a memory allocation fails.
    /// - [`StreamError::Io`] if a read fails, or if the reader reports more bytes than the slice has.
    pub fn new(reader: R) -> Result<Self, StreamError> {
        let mut reader = Kept::new(reader);
        let mut first = [0];
        if reader.call(|reader| fill(reader, &mut first))? == 0 {
            return Err(StreamError::Empty);
        }
        let read = reader.call(|reader| read_lax_header(&mut Counted::new(first.chain(reader))));
        let (header, is_strict) = read?;
        let frame_len = header.frame_len().filter(|&len| len <= isize::MAX as usize);
        Ok(Decoder {
            reader,
            header,
            is_strict,
            frame_len: frame_len.ok_or(Y4mError::Planar(PlanarError::TooLarge))?,
            bytes: Vec::new(),
            state: State::InFrontOfFrame,
        })
    }

    /// Reads the next frame into an existing frame, whose padding is unchanged. Returns `false` if the stream has no more
    /// frames.
    ///
    /// # Errors
    ///
    /// - [`StreamError::Mismatch`] if the size, the format, the bit depth or the pixel type of `frame` differs from the header.
    ///   Nothing was read then.
    /// - [`StreamError::Format`] if the line in front of the frame is not valid, or if a memory allocation fails.
    /// - [`StreamError::Truncated`] if the stream ends inside the frame.
    /// - [`StreamError::Io`] if a read fails, or if the reader reports more bytes than the slice has.
    /// - [`StreamError::AfterFailure`] if an earlier call failed with `Format`, `Truncated` or `Io`.
    ///
    /// After an error, `frame` is unchanged.
    pub fn read_into(&mut self, frame: &mut VideoFrame) -> Result<bool, StreamError> {
        if matches!(self.state, State::Failed) {
            return Err(StreamError::AfterFailure);
        }
        if !frame.fits(&self.header) {
            return Err(StreamError::Mismatch);
        }
        let more = self.read_bytes()?;
        if more {
            with_frame!(frame, |frame| show(frame, &self.bytes));
        }
        Ok(more)
    }

    /// Reads the next frame into new planes. They are allocated after all bytes have been read.
    fn read_frame(&mut self) -> Result<Option<VideoFrame>, StreamError> {
        if !self.read_bytes()? {
            return Ok(None);
        }
        let mut frame = VideoFrame::blank(&self.header).inspect_err(|_| self.state = State::Failed)?;
        with_frame!(&mut frame, |frame| show(frame, &self.bytes));
        Ok(Some(frame))
    }

    /// Reads the bytes of the next frame into the buffer.
    fn read_bytes(&mut self) -> Result<bool, StreamError> {
        match self.state {
            State::InFrontOfFrame => {}
            State::Ended => return Ok(false),
            State::Failed => return Err(StreamError::AfterFailure),
        }
        self.state = State::Failed;
        if !self.reader.call(read_line)? {
            self.state = State::Ended;
            return Ok(false);
        }
        let (expected, found) = (self.frame_len, self.fill_buffer()?);
        if found < expected {
            return Err(StreamError::Truncated { expected, found });
        }
        self.state = State::InFrontOfFrame;
        Ok(true)
    }

    /// Fills the buffer, which grows to the length of a frame while bytes are read, and returns the number of bytes read.
    fn fill_buffer(&mut self) -> Result<usize, StreamError> {
        let mut found = 0;
        while found < self.frame_len {
            if found == self.bytes.len() {
                let room = self.frame_len.min(FIRST_ROOM.max(2 * found));
                let refused = |_| Y4mError::Planar(PlanarError::OutOfMemory);
                self.bytes.try_reserve_exact(room - found).map_err(refused)?;
                self.bytes.resize(room, 0);
            }
            found += self.reader.call(|reader| fill(reader, &mut self.bytes[found..]))?;
            if found < self.bytes.len() {
                break;
            }
        }
        Ok(found)
    }
}

impl<R> Decoder<R> {
    /// Returns the header.
    #[inline]
    #[must_use]
    pub fn header(&self) -> &StreamHeader {
        &self.header
    }

    /// Returns whether the header line was strict. If not, it was a lax line with a clear meaning.
    #[inline]
    #[must_use]
    pub fn is_strict(&self) -> bool {
        self.is_strict
    }

    /// Returns the reader. If no call has failed, the reader is in front of the line of a frame, or at its end.
    #[inline]
    #[must_use]
    pub fn into_inner(self) -> R {
        self.reader.inner
    }
}

impl<R: io::Read> Iterator for Decoder<R> {
    type Item = Result<VideoFrame, StreamError>;

    fn next(&mut self) -> Option<Self::Item> {
        match self.state {
            State::Failed => None,
            _ => self.read_frame().transpose(),
        }
    }
}

impl<R: io::Read> FusedIterator for Decoder<R> {}

/// Shows the header, without the bytes of a frame.
impl<R> fmt::Debug for Decoder<R> {
    fn fmt(&self, f: &mut fmt::Formatter<'_>) -> fmt::Result {
        f.debug_struct("Decoder").field("header", &self.header).finish_non_exhaustive()
    }
}

/// Fills a buffer with a proved function, and returns the number of bytes read.
fn fill<R: io::Read>(reader: &mut Kept<R>, bytes: &mut [u8]) -> Result<usize, PlanarError> {
    read_until_full(&mut Counted::new(reader), bytes)
}

/// Reads the line in front of a frame. A line without parameters is read with one call, and any other line with a proved
/// function.
fn read_line<R: io::Read>(reader: &mut Kept<R>) -> Result<bool, Y4mError> {
    let mut line = [0; PLAIN_LINE.len()];
    let found = fill(reader, &mut line)?;
    if found == 0 || line == PLAIN_LINE {
        return Ok(found > 0);
    }
    read_lax_frame_line(&mut Counted::new(line[..found].chain(reader)))
}
