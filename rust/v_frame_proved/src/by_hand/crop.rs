//! Crops frames. This module is written by hand and not generated from proved sources.

use crate::frame::Frame;
use crate::ops::copy_region;
use crate::pixel::Pixel;
use crate::plane::{Plane, PlaneGeometry};
use crate::support::AllocError;
use core::fmt;

/// Why a frame was not cropped.
#[derive(Debug, Clone, Copy, PartialEq, Eq, Hash)]
#[non_exhaustive]
pub enum CropError {
    /// The rectangle is empty or not inside the frame.
    Outside,
    /// The rectangle does not begin at the edge of a chroma sample.
    Misaligned {
        /// The number of luma columns for each chroma column.
        columns: usize,
        /// The number of luma rows for each chroma row.
        rows: usize,
    },
    /// A memory allocation failed.
    OutOfMemory,
}

impl fmt::Display for CropError {
    fn fmt(&self, f: &mut fmt::Formatter<'_>) -> fmt::Result {
        match self {
            CropError::Outside => f.write_str("the rectangle is empty or not inside the frame"),
            CropError::Misaligned { columns, rows } => {
                write!(f, "the rectangle begins inside a chroma sample of {columns} columns and {rows} rows")
            }
            CropError::OutOfMemory => f.write_str("out of memory"),
        }
    }
}

impl core::error::Error for CropError {}

impl From<AllocError> for CropError {
    #[inline]
    fn from(_refused: AllocError) -> Self {
        CropError::OutOfMemory
    }
}

/// These methods are written by hand and not generated from proved sources.
impl<T: Pixel> Frame<T> {
    /// Returns a copy of the rectangle of `width` by `height` luma pixels whose top left pixel is in column `x` and row `y`.
    /// The copy has no padding. It has the chroma of the rectangle, whose size is rounded up, as in video files.
    ///
    /// ```
    /// use v_frame_proved::chroma::ChromaSubsampling;
    /// use v_frame_proved::crop::CropError;
    /// use v_frame_proved::frame::FrameBuilder;
    ///
    /// let mut frame = FrameBuilder::new(8, 4, ChromaSubsampling::Yuv420, 8).build::<u8>().unwrap();
    /// frame.y_plane[3][6] = 9;
    /// let part = frame.crop(6, 2, 2, 2)?;
    /// assert_eq!(part.y_plane[1], [9, 0]);
    /// assert_eq!(frame.crop(6, 2, 2, 3), Err(CropError::Outside));
    /// assert_eq!(frame.crop(5, 2, 2, 2), Err(CropError::Misaligned { columns: 2, rows: 2 }));
    /// # Ok::<(), CropError>(())
    /// ```
    ///
    /// # Errors
    ///
    /// The first of these that applies:
    ///
    /// - [`CropError::Misaligned`] if `x` or `y` is not at the edge of a chroma sample.
    /// - [`CropError::Outside`] if the rectangle is empty, or if it or its chroma is not inside the planes.
    /// - [`CropError::OutOfMemory`] if a memory allocation fails.
    pub fn crop(&self, x: usize, y: usize, width: usize, height: usize) -> Result<Self, CropError> {
        let (columns, rows) = match self.subsampling.subsample_ratio() {
            Some((columns, rows)) => (usize::from(columns.get()), usize::from(rows.get())),
            None => (1, 1),
        };
        if x % columns != 0 || y % rows != 0 {
            return Err(CropError::Misaligned { columns, rows });
        }
        let place = (x / columns, y / rows);
        let size = (width.div_ceil(columns), height.div_ceil(rows));
        let chroma = |plane: &Option<Plane<T>>| plane.as_ref().map(|plane| part(plane, place, size)).transpose();
        Ok(Frame {
            y_plane: part(&self.y_plane, (x, y), (width, height))?,
            u_plane: chroma(&self.u_plane)?,
            v_plane: chroma(&self.v_plane)?,
            ..*self
        })
    }
}

/// Returns a copy of the rectangle of a plane with the size (width, height) at the position (column, row).
fn part<T: Pixel>(plane: &Plane<T>, place: (usize, usize), size: (usize, usize)) -> Result<Plane<T>, CropError> {
    let region = plane.as_plane_ref().region(place.0, place.1, size.0, size.1).ok_or(CropError::Outside)?;
    let whole = plane.geometry();
    let geometry = PlaneGeometry::unpadded(size.0, size.1, whole.subsampling_x(), whole.subsampling_y());
    // The size of the buffer cannot overflow, since it is at most that of the source.
    let mut copy = Plane::new(geometry.ok_or(CropError::Outside)?)?;
    copy_region(&region, &mut copy, 0, 0);
    Ok(copy)
}
