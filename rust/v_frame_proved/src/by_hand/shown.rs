//! Debug texts of streams and pictures, without the contents of their buffers.

use crate::pixel::Pixel;
use crate::streams::{Picture, Sink, Source};
use core::fmt;

/// Shows the properties of the stream, without the reader.
impl<R> fmt::Debug for Source<R> {
    fn fmt(&self, f: &mut fmt::Formatter<'_>) -> fmt::Result {
        f.debug_struct("Source")
            .field("place", &self.place)
            .field("container", &self.container)
            .field("header", &self.header)
            .field("frames", &self.frames)
            .finish_non_exhaustive()
    }
}

/// Shows the properties of the stream, without the writer.
impl<W> fmt::Debug for Sink<W> {
    fn fmt(&self, f: &mut fmt::Formatter<'_>) -> fmt::Result {
        f.debug_struct("Sink")
            .field("container", &self.container)
            .field("frames", &self.frames)
            .finish_non_exhaustive()
    }
}

/// Shows the size and the format, without the pixels.
impl<T: Pixel> fmt::Debug for Picture<T> {
    fn fmt(&self, f: &mut fmt::Formatter<'_>) -> fmt::Result {
        f.debug_struct("Picture")
            .field("width", &self.frame.width())
            .field("height", &self.frame.height())
            .field("subsampling", &self.frame.subsampling)
            .field("bit_depth", &self.frame.bit_depth)
            .finish_non_exhaustive()
    }
}
