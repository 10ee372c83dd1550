//! Writes streams to any writer.

use super::frame::is_frame_of;
use super::kept::Kept;
use super::{MAX_LINE_BYTES, StreamError, StreamHeader, VideoFrame, Y4mError};
use crate::generated::v_frame_y4m::{header_line, write_frame, write_header};
use crate::frame::Frame;
use crate::pixel::Pixel;
use crate::planar::{Counted, PlanarError};
use crate::with_frame;
use core::fmt;
use std::io::{self, Write as _};

/// Writes a YUV4MPEG2 stream: the header first, and then frame by frame.
///
/// This type is written by hand. Interrupted writes are retried. Samples are written unchanged, even those above the largest
/// value of their bit depth. [`finish`](Self::finish) flushes the writer. A `BufWriter` saves one short write for each frame.
///
/// [`into_inner`](Self::into_inner) returns the writer at any time, also after a failed write:
///
/// ```
/// use v_frame_proved::y4m::{Color, Encoder, StreamError, StreamHeader, VideoFrame};
///
/// let header = StreamHeader::new(2, 1, Color::Mono);
/// let frame = VideoFrame::blank(&header)?;
/// let mut disk = [0; 34]; // The header line has 22 bytes, and each frame has 8 bytes with its line.
/// let mut encoder = Encoder::new(&mut disk[..], header)?;
/// encoder.write_frame(&frame)?;
/// assert!(matches!(encoder.write_frame(&frame), Err(StreamError::Io(_))));
/// assert!(encoder.into_inner().is_empty()); // No byte of the array is left.
/// assert_eq!(disk, *b"YUV4MPEG2 W2 H1 Cmono\nFRAME\n\0\0FRAM");
/// # Ok::<(), Box<dyn std::error::Error>>(())
/// ```
pub struct Encoder<W> {
    writer: Kept<W>,
    header: StreamHeader,
    has_failed: bool,
}

impl<W: io::Write> Encoder<W> {
    /// Writes the header line.
    ///
    /// A carriage return at the end of the last extension is written, but a [`Decoder`](super::Decoder) leaves it out, because
    /// lax lines may end with a carriage return.
    ///
    /// If the call fails, the writer is dropped. To keep it, pass `&mut writer`.
    ///
    /// # Errors
    ///
    /// - [`StreamError::UnwritableHeader`] if no valid line can state `header`. Nothing was written then.
    /// - [`StreamError::Format`] if a memory allocation fails. Nothing was written then.
    /// - [`StreamError::Io`] if a write fails, if it accepts no bytes, or if it reports more bytes than the slice has.
    pub fn new(writer: W, header: StreamHeader) -> Result<Self, StreamError> {
        let line = header_line(&header).map_err(Y4mError::from)?;
        if !header.is_writable() || line.len() > MAX_LINE_BYTES {
            return Err(StreamError::UnwritableHeader);
        }
        let mut writer = Kept::new(writer);
        writer.call(|writer| write_header(&mut Counted::new(writer), &header))?;
        Ok(Encoder { writer, header, has_failed: false })
    }

    /// Writes a frame, without its padding.
    ///
    /// # Errors
    ///
    /// - [`StreamError::Mismatch`] if the size, the format, the bit depth or the pixel type of `frame` differs from the header.
    ///   Nothing was written then.
    /// - [`StreamError::Io`] if a write fails, if it accepts no bytes, or if it reports more bytes than the slice has.
    /// - [`StreamError::AfterFailure`] if an earlier write failed.
    pub fn write_frame(&mut self, frame: &VideoFrame) -> Result<(), StreamError> {
        with_frame!(frame, |frame| self.write(frame))
    }

    /// Writes a frame of either pixel type, like [`write_frame`](Self::write_frame).
    ///
    /// ```
    /// use v_frame_proved::chroma::ChromaSubsampling;
    /// use v_frame_proved::frame::FrameBuilder;
    /// use v_frame_proved::y4m::{Color, Encoder, StreamHeader};
    ///
    /// let color = Color::new(ChromaSubsampling::Monochrome, 10, None).expect("gray of 10 bits");
    /// let mut encoder = Encoder::new(Vec::new(), StreamHeader::new(1, 1, color))?;
    /// encoder.write(&FrameBuilder::new(1, 1, ChromaSubsampling::Monochrome, 10).build::<u16>()?)?;
    /// assert!(encoder.finish()?.ends_with(b"Cmono10\nFRAME\n\0\0"));
    /// # Ok::<(), Box<dyn std::error::Error>>(())
    /// ```
    ///
    /// # Errors
    ///
    /// The errors of [`write_frame`](Self::write_frame).
    pub fn write<T: Pixel>(&mut self, frame: &Frame<T>) -> Result<(), StreamError> {
        if self.has_failed {
            return Err(StreamError::AfterFailure);
        }
        if !is_frame_of(frame, &self.header) {
            return Err(StreamError::Mismatch);
        }
        let written = self.writer.call(|writer| write_frame(&mut Counted::new(writer), frame));
        self.has_failed = written.is_err();
        written
    }

    /// Flushes the writer. After an error the call may be repeated.
    ///
    /// # Errors
    ///
    /// - [`StreamError::AfterFailure`] if an earlier write failed.
    /// - [`StreamError::Io`] if the flush fails.
    pub fn flush(&mut self) -> Result<(), StreamError> {
        if self.has_failed {
            return Err(StreamError::AfterFailure);
        }
        self.writer.call(|writer| writer.flush().map_err(|_| PlanarError::Write))
    }

    /// Flushes the writer and returns it.
    ///
    /// If the call fails, the writer is dropped. To keep it, call [`flush`](Self::flush) and then
    /// [`into_inner`](Self::into_inner).
    ///
    /// # Errors
    ///
    /// - [`StreamError::AfterFailure`] if an earlier write failed.
    /// - [`StreamError::Io`] if the flush fails.
    pub fn finish(mut self) -> Result<W, StreamError> {
        self.flush()?;
        Ok(self.into_inner())
    }
}

impl<W> Encoder<W> {
    /// Returns the writer without flushing it. After a failed write, the writer may have received a part of a frame.
    #[inline]
    #[must_use]
    pub fn into_inner(self) -> W {
        self.writer.inner
    }

    /// Returns the header.
    #[inline]
    #[must_use]
    pub fn header(&self) -> &StreamHeader {
        &self.header
    }
}

/// Shows the header, without the writer.
impl<W> fmt::Debug for Encoder<W> {
    fn fmt(&self, f: &mut fmt::Formatter<'_>) -> fmt::Result {
        f.debug_struct("Encoder").field("header", &self.header).finish_non_exhaustive()
    }
}
