//! The size of a frame, and iterators over its planes.

use crate::frame::Frame;
use crate::pixel::Pixel;
use crate::plane::Plane;
use core::iter::{FusedIterator, once};

/// These methods are written by hand and not generated from proved sources.
impl<T: Pixel> Frame<T> {
    /// Returns the visible width of the luma plane in pixels. It is never zero.
    #[inline]
    #[must_use]
    pub fn width(&self) -> usize {
        self.y_plane.width()
    }

    /// Returns the visible height of the luma plane in pixels. It is never zero.
    #[inline]
    #[must_use]
    pub fn height(&self) -> usize {
        self.y_plane.height()
    }

    /// Returns an iterator over the planes of the frame: Y, followed by U and V if the frame has chroma.
    #[inline]
    pub fn planes(&self) -> impl DoubleEndedIterator<Item = &Plane<T>> + FusedIterator + Clone {
        once(&self.y_plane).chain(&self.u_plane).chain(&self.v_plane)
    }

    /// Returns an iterator over the planes of the frame for writing: Y, followed by U and V if the frame has chroma.
    #[inline]
    pub fn planes_mut(&mut self) -> impl DoubleEndedIterator<Item = &mut Plane<T>> + FusedIterator {
        once(&mut self.y_plane).chain(&mut self.u_plane).chain(&mut self.v_plane)
    }
}
