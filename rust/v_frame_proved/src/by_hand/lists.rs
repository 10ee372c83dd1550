//! Planes made from lists of pixels, and lists made from planes. This module is written by hand and not generated from proved
//! sources.
//!
//! ```
//! use v_frame_proved::plane::Plane;
//!
//! let plane = Plane::from_slice(3, 2, &[1_u8, 2, 3, 4, 5, 6])?;
//! assert_eq!(plane[1], [4, 5, 6]);
//! let list = plane.into_vec();
//! assert_eq!(list, [1, 2, 3, 4, 5, 6]);
//! let plane = Plane::from_vec(2, 3, list)?;
//! assert_eq!(plane[1], [3, 4]);
//! # Ok::<(), v_frame_proved::lists::ListError>(())
//! ```

use crate::buffer::AlignedData;
use crate::pixel::Pixel;
use crate::plane::{Plane, PlaneGeometry};
use crate::sequence::Sequence;
use crate::support::AllocError;
use alloc::vec::Vec;
use core::fmt;
use core::hash::{Hash, Hasher};

/// Why a list of pixels is not a plane of a given size.
#[derive(Debug, Clone, Copy, PartialEq, Eq, Hash)]
#[non_exhaustive]
pub enum ListError {
    /// The width or the height is 0, or the product of both is above 4611686018427387903, the size of the largest buffer.
    Size {
        /// The width in pixels.
        width: usize,
        /// The height in pixels.
        height: usize,
    },
    /// The length of the list is not the product of the width and the height.
    Length {
        /// The product of the width and the height.
        expected: usize,
        /// The length of the list.
        found: usize,
    },
    /// A memory allocation failed.
    OutOfMemory,
}

impl fmt::Display for ListError {
    fn fmt(&self, f: &mut fmt::Formatter<'_>) -> fmt::Result {
        match self {
            ListError::Size { width, height } => write!(f, "no plane has {width} by {height} pixels"),
            ListError::Length { expected, found } => write!(f, "expected {expected} pixels, found {found}"),
            ListError::OutOfMemory => f.write_str("out of memory"),
        }
    }
}

impl core::error::Error for ListError {}

impl From<AllocError> for ListError {
    #[inline]
    fn from(_refused: AllocError) -> Self {
        ListError::OutOfMemory
    }
}

/// Returns the geometry of a plane of this size without padding, if its pixels are as many as `found`.
fn geometry_of(width: usize, height: usize, found: usize) -> Result<PlaneGeometry, ListError> {
    let geometry = PlaneGeometry::unpadded(width, height, 1, 1).ok_or(ListError::Size { width, height })?;
    let expected = geometry.checked_alloc_size().ok_or(ListError::Size { width, height })?;
    if expected == found { Ok(geometry) } else { Err(ListError::Length { expected, found }) }
}

/// These methods are written by hand and not generated from proved sources.
impl<T: Pixel> Plane<T> {
    /// Returns a plane of `width` by `height` pixels without padding, whose buffer is the list `pixels` itself. The list has
    /// the rows from top to bottom. The subsampling ratios are 1.
    ///
    /// No memory is allocated. The buffer is aligned to 64 bytes only if the list happens to be; the buffers of
    /// [`from_slice`](Self::from_slice) and [`new`](Self::new) always are.
    ///
    /// ```
    /// use v_frame_proved::lists::ListError;
    /// use v_frame_proved::plane::Plane;
    ///
    /// let plane = Plane::from_vec(2, 2, vec![1_u16, 2, 3, 4])?;
    /// assert_eq!(plane.pixel(0, 1), Some(3));
    /// let short = Plane::from_vec(2, 2, vec![1_u16, 2]);
    /// assert_eq!(short, Err(ListError::Length { expected: 4, found: 2 }));
    /// # Ok::<(), ListError>(())
    /// ```
    ///
    /// # Errors
    ///
    /// - [`ListError::Size`] if `width` or `height` is 0, or if their product is above 4611686018427387903, the size of the
    ///   largest buffer.
    /// - [`ListError::Length`] if the length of `pixels` is not the product of `width` and `height`.
    #[inline]
    pub fn from_vec(width: usize, height: usize, pixels: Vec<T>) -> Result<Self, ListError> {
        let geometry = geometry_of(width, height, pixels.len())?;
        Ok(Plane { geometry, buffer: AlignedData::from_vec(pixels) })
    }

    /// Returns a plane of `width` by `height` pixels without padding, with a copy of `pixels`, which has the rows from top to
    /// bottom. The subsampling ratios are 1.
    ///
    /// To read pixels as a plane without a copy, use [`PlaneRef::new`](crate::plane::PlaneRef::new).
    ///
    /// ```
    /// use v_frame_proved::plane::Plane;
    ///
    /// let plane = Plane::from_slice(2, 2, &[1_u8, 2, 3, 4])?;
    /// assert_eq!(plane[1], [3, 4]);
    /// # Ok::<(), v_frame_proved::lists::ListError>(())
    /// ```
    ///
    /// # Errors
    ///
    /// - [`ListError::Size`] if `width` or `height` is 0, or if their product is above 4611686018427387903, the size of the
    ///   largest buffer.
    /// - [`ListError::Length`] if the length of `pixels` is not the product of `width` and `height`.
    /// - [`ListError::OutOfMemory`] if a memory allocation fails.
    #[inline]
    pub fn from_slice(width: usize, height: usize, pixels: &[T]) -> Result<Self, ListError> {
        let mut plane = Plane::new(geometry_of(width, height, pixels.len())?)?;
        plane.data_mut().copy_from_slice(pixels);
        Ok(plane)
    }

    /// Returns the visible pixels as a list, row by row from the top. Padding is left out. The list is the buffer of the plane,
    /// so no memory is allocated, and the capacity of the list may be larger than its length.
    ///
    /// ```
    /// use v_frame_proved::plane::{Plane, PlaneGeometry};
    ///
    /// // One column of padding on the left, and two on the right.
    /// let mut plane = Plane::<u8>::new(PlaneGeometry::new(2, 2, 1, 2, 0, 0, 1, 1).unwrap())?;
    /// plane.copy_from_slice(&[1, 2, 3, 4])?;
    /// assert_eq!(plane.into_vec(), [1, 2, 3, 4]);
    /// # Ok::<(), Box<dyn std::error::Error>>(())
    /// ```
    #[must_use]
    pub fn into_vec(self) -> Vec<T> {
        let Plane { geometry, buffer } = self;
        buffer.into_parts(geometry.data_origin(), geometry.width(), geometry.stride(), geometry.height())
    }
}

/// The hash of a sequence is the hash of the slice with its items.
impl<T: Hash> Hash for Sequence<T> {
    #[inline]
    fn hash<H: Hasher>(&self, state: &mut H) {
        self.as_slice().hash(state);
    }
}
