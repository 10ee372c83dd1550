//! Errors of decoders and encoders.

use crate::frame::FrameError;
use crate::generated::v_frame_y4m::Y4mError;
use crate::planar::PlanarError;
use core::error::Error;
use core::fmt;
use std::io;

/// Why a [`Decoder`](super::Decoder) or an [`Encoder`](super::Encoder) failed. This type is written by hand.
#[derive(Debug)]
#[non_exhaustive]
pub enum StreamError {
    /// The stream has no bytes at all.
    Empty,
    /// A line is not valid, the frames are too large, or a memory allocation failed.
    Format(Y4mError),
    /// The stream ended inside a frame.
    Truncated {
        /// The number of bytes of a frame after its line.
        expected: usize,
        /// The number of bytes that were read.
        found: usize,
    },
    /// No valid line can state the header: the width or the height is 0, an extension contains a space or a line feed, or the
    /// line would be longer than 1024 bytes.
    UnwritableHeader,
    /// The size, the format, the bit depth or the pixel type of the frame differs from the header. Nothing was read or written.
    Mismatch,
    /// A read or a write failed. The error's `source` is the cause.
    Io(io::Error),
    /// An earlier call failed inside a frame.
    AfterFailure,
}

impl fmt::Display for StreamError {
    fn fmt(&self, f: &mut fmt::Formatter<'_>) -> fmt::Result {
        match self {
            StreamError::Empty => f.write_str("the stream is empty"),
            StreamError::Format(fault) => fault.fmt(f),
            StreamError::Truncated { expected, found } => {
                write!(f, "truncated frame, expected {expected} bytes, found {found}")
            }
            StreamError::UnwritableHeader => f.write_str("no line has what the header says"),
            StreamError::Mismatch => f.write_str("the frame is not what the header says"),
            StreamError::Io(_) => f.write_str("a read or a write of the stream failed"),
            StreamError::AfterFailure => f.write_str("the stream failed before"),
        }
    }
}

impl Error for StreamError {
    fn source(&self) -> Option<&(dyn Error + 'static)> {
        match self {
            StreamError::Io(cause) => Some(cause),
            StreamError::Format(fault) => fault.source(),
            _ => None,
        }
    }
}

impl From<Y4mError> for StreamError {
    fn from(fault: Y4mError) -> Self {
        match fault {
            Y4mError::Planar(PlanarError::Truncated { expected, found }) => StreamError::Truncated { expected, found },
            Y4mError::Planar(PlanarError::WriteZero) => StreamError::Io(io::ErrorKind::WriteZero.into()),
            fault => StreamError::Format(fault),
        }
    }
}

impl From<FrameError> for StreamError {
    fn from(fault: FrameError) -> Self {
        StreamError::Format(Y4mError::Planar(match fault {
            FrameError::OutOfMemory => PlanarError::OutOfMemory,
            _ => PlanarError::TooLarge,
        }))
    }
}
