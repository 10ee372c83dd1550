//! Creates and changes headers.

use super::{Color, StreamHeader};
use alloc::vec::Vec;
use core::mem;

/// These methods are written by hand and not generated from proved sources.
impl StreamHeader {
    /// Returns a header that states only a size in pixels and a color.
    #[must_use]
    pub fn new(width: usize, height: usize, color: Color) -> Self {
        StreamHeader {
            width,
            height,
            frame_rate: None,
            interlacing: None,
            pixel_aspect: None,
            color,
            extensions: Vec::new().into(),
        }
    }

    /// Sets the color. Extensions of the form `XYSCSS=..`, in which ffmpeg repeats the old color, are removed.
    pub fn set_color(&mut self, color: Color) {
        self.color = color;
        let mut extensions = mem::replace(&mut self.extensions, Vec::new().into()).into_vec();
        extensions.retain(|extension| !extension.starts_with(b"YSCSS="));
        self.extensions = extensions.into();
    }
}
