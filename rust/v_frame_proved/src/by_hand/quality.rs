//! PSNR, SSIM and mean squared errors with checked arguments.
//!
//! This module is written by hand and not generated from proved sources. The numbers come from [`measures`](crate::measures),
//! which is generated. The functions there panic if the sizes differ, and return a meaningless number for a bit depth that the
//! pixels cannot have. The functions here return an error in these cases.
//!
//! ```
//! use v_frame_proved::plane::{Plane, PlaneGeometry};
//! use v_frame_proved::quality::psnr;
//!
//! let black = Plane::<u8>::new(PlaneGeometry::unpadded(2, 1, 1, 1).unwrap())?;
//! let mut dark = black.clone();
//! dark[0].fill(51);
//! assert!((psnr(&black, &dark, 8)? - 13.979_400).abs() < 1e-6);
//! assert!(psnr(&black, &dark, 10).is_err());
//! # Ok::<(), Box<dyn std::error::Error>>(())
//! ```

use crate::frame::Frame;
use crate::measures::{self, FrameMeasure, frames_have_one_size, mean_squared_error};
use crate::pixel::Pixel;
use crate::plane::PlaneRef;
use crate::views::AsPlaneRef;
use core::fmt;

/// Why two pictures could not be measured.
#[derive(Debug, Clone, Copy, PartialEq, Eq, Hash)]
#[non_exhaustive]
pub enum MeasureError {
    /// Pixels of this type cannot have this bit depth: `u8` pixels have 8 bits, and `u16` pixels have 9 to 16.
    UnsupportedBitDepth {
        /// The bit depth that was given.
        found: u8,
    },
    /// The bit depths of the two frames differ.
    DepthsDiffer {
        /// The bit depth of the first frame.
        first: u8,
        /// The bit depth of the second frame.
        second: u8,
    },
    /// The sizes differ, or only one of the frames has chroma planes.
    SizesDiffer,
    /// A plane has fewer than 8 columns or rows, which is the size of an SSIM window.
    TooSmall,
}

impl fmt::Display for MeasureError {
    fn fmt(&self, f: &mut fmt::Formatter<'_>) -> fmt::Result {
        match self {
            MeasureError::UnsupportedBitDepth { found } => write!(f, "the pixels can't have a bit depth of {found}"),
            MeasureError::DepthsDiffer { first, second } => write!(f, "bit depths of {first} and {second} differ"),
            MeasureError::SizesDiffer => f.write_str("the sizes or the formats differ"),
            MeasureError::TooSmall => f.write_str("a plane is smaller than 8 by 8"),
        }
    }
}

impl core::error::Error for MeasureError {}

/// The peak signal-to-noise ratio (PSNR) of two frames in decibels: of each plane, and of all planes together.
#[derive(Debug, Clone, Copy, PartialEq)]
pub struct FramePsnr {
    /// The PSNR of luma.
    pub y: f64,
    /// The PSNR of the first chroma plane, if the frames have chroma.
    pub u: Option<f64>,
    /// The PSNR of the second chroma plane, if the frames have chroma.
    pub v: Option<f64>,
    /// The PSNR of the mean squared error over the pixels of all planes. It is not the mean of the other ratios.
    pub all: f64,
}

/// Returns the peak signal-to-noise ratio of two planes in decibels. It is infinite if the planes are equal.
///
/// # Errors
///
/// - [`MeasureError::UnsupportedBitDepth`] if pixels of type `T` cannot have this bit depth.
/// - [`MeasureError::SizesDiffer`] if the sizes of the planes differ.
///
/// # Examples
///
/// ```
/// use v_frame_proved::plane::{Plane, PlaneGeometry};
/// use v_frame_proved::quality::{MeasureError, psnr};
///
/// let black = Plane::<u8>::new(PlaneGeometry::unpadded(2, 1, 1, 1).unwrap())?;
/// let mut dark = black.clone();
/// dark[0].fill(51);
/// assert!((psnr(&black, &dark, 8)? - 13.9794).abs() < 1e-4);
/// assert_eq!(psnr(&black, &black, 8)?, f64::INFINITY);
/// assert!(matches!(psnr(&black, &dark, 10), Err(MeasureError::UnsupportedBitDepth { .. })));
/// # Ok::<(), Box<dyn std::error::Error>>(())
/// ```
pub fn psnr<T: Pixel>(
    a: impl AsPlaneRef<Pixel = T>,
    b: impl AsPlaneRef<Pixel = T>,
    bit_depth: u8,
) -> Result<f64, MeasureError> {
    let (a, b) = checked(&a, &b, bit_depth)?;
    Ok(measures::psnr(mean_squared_error(&a, &b), bit_depth))
}

/// Returns the structural similarity (SSIM) of two planes, which is at most 1. [`measures::ssim`] defines it.
///
/// # Errors
///
/// The first of these that applies:
///
/// - [`MeasureError::UnsupportedBitDepth`] if pixels of type `T` cannot have this bit depth.
/// - [`MeasureError::SizesDiffer`] if the sizes of the planes differ.
/// - [`MeasureError::TooSmall`] if the planes have fewer than 8 columns or rows.
///
/// # Examples
///
/// ```
/// use v_frame_proved::plane::{Plane, PlaneGeometry};
/// use v_frame_proved::quality::{MeasureError, ssim};
///
/// let gray = Plane::<u8>::new(PlaneGeometry::unpadded(8, 8, 1, 1).unwrap())?;
/// assert_eq!(ssim(&gray, &gray, 8)?, 1.0);
/// let small = Plane::<u8>::new(PlaneGeometry::unpadded(7, 8, 1, 1).unwrap())?;
/// assert_eq!(ssim(&small, &small, 8), Err(MeasureError::TooSmall));
/// # Ok::<(), Box<dyn std::error::Error>>(())
/// ```
pub fn ssim<T: Pixel>(
    a: impl AsPlaneRef<Pixel = T>,
    b: impl AsPlaneRef<Pixel = T>,
    bit_depth: u8,
) -> Result<f64, MeasureError> {
    let (a, b) = checked(&a, &b, bit_depth)?;
    measures::ssim(&a, &b, bit_depth).ok_or(MeasureError::TooSmall)
}

/// Returns the mean squared errors of two frames: of each plane, and of all pixels together. The example of
/// [`VideoFrame`](crate::y4m::VideoFrame) shows their use.
///
/// # Errors
///
/// The errors of [`frame_psnr`].
///
/// # Examples
///
/// ```
/// use v_frame_proved::chroma::ChromaSubsampling;
/// use v_frame_proved::frame::FrameBuilder;
/// use v_frame_proved::quality::frame_mean_squared_error;
///
/// let a = FrameBuilder::new(16, 16, ChromaSubsampling::Monochrome, 8).build::<u8>()?;
/// let mut b = a.clone();
/// b.y_plane[0][0] = 16;
/// assert_eq!(frame_mean_squared_error(&a, &b)?.all, 1.0);
/// # Ok::<(), Box<dyn std::error::Error>>(())
/// ```
pub fn frame_mean_squared_error<T: Pixel>(a: &Frame<T>, b: &Frame<T>) -> Result<FrameMeasure, MeasureError> {
    check_frames(a, b)?;
    Ok(measures::frame_mean_squared_error(a, b))
}

/// Returns the peak signal-to-noise ratios of two frames: of each plane, and of all pixels together.
///
/// ```
/// use v_frame_proved::chroma::ChromaSubsampling;
/// use v_frame_proved::frame::FrameBuilder;
/// use v_frame_proved::quality::{FramePsnr, MeasureError, frame_psnr, frame_ssim};
///
/// let gray = FrameBuilder::new(16, 16, ChromaSubsampling::Monochrome, 8).build::<u8>()?;
/// let mut other = gray.clone();
/// other.y_plane[0][0] = 255;
/// let ratio = FramePsnr { y: f64::INFINITY, u: None, v: None, all: f64::INFINITY };
/// assert_eq!(frame_psnr(&gray, &gray)?, ratio);
/// assert!((frame_psnr(&gray, &other)?.all - 24.082_400).abs() < 1e-6);
/// assert_eq!(frame_ssim(&gray, &gray)?.all, 1.0);
///
/// let wide = FrameBuilder::new(32, 16, ChromaSubsampling::Monochrome, 8).build::<u8>()?;
/// assert_eq!(frame_psnr(&gray, &wide), Err(MeasureError::SizesDiffer));
/// # Ok::<(), Box<dyn std::error::Error>>(())
/// ```
///
/// # Errors
///
/// The first of these that applies:
///
/// - [`MeasureError::DepthsDiffer`] if the bit depths of the frames differ.
/// - [`MeasureError::UnsupportedBitDepth`] if pixels of type `T` cannot have the bit depth of the frames.
/// - [`MeasureError::SizesDiffer`] if the sizes of the planes differ, or if only one of the frames has chroma planes.
pub fn frame_psnr<T: Pixel>(a: &Frame<T>, b: &Frame<T>) -> Result<FramePsnr, MeasureError> {
    let errors = frame_mean_squared_error(a, b)?;
    let ratio = |error| measures::psnr(error, a.bit_depth.get());
    Ok(FramePsnr { y: ratio(errors.y), u: errors.u.map(ratio), v: errors.v.map(ratio), all: ratio(errors.all) })
}

/// Returns the structural similarities of two frames: of each plane, and their mean, weighted by the number of pixels of each
/// plane. The example of [`frame_psnr`] shows its use.
///
/// # Errors
///
/// - The errors of [`frame_psnr`].
/// - [`MeasureError::TooSmall`] if a plane has fewer than 8 columns or rows.
///
/// # Examples
///
/// ```
/// use v_frame_proved::chroma::ChromaSubsampling;
/// use v_frame_proved::frame::FrameBuilder;
/// use v_frame_proved::quality::{MeasureError, frame_ssim};
///
/// let frame = FrameBuilder::new(16, 16, ChromaSubsampling::Yuv420, 8).build::<u8>()?;
/// assert_eq!(frame_ssim(&frame, &frame)?.y, 1.0);
/// let deep = FrameBuilder::new(16, 16, ChromaSubsampling::Yuv420, 9).build::<u16>()?;
/// let deeper = FrameBuilder::new(16, 16, ChromaSubsampling::Yuv420, 10).build::<u16>()?;
/// assert!(matches!(frame_ssim(&deep, &deeper), Err(MeasureError::DepthsDiffer { .. })));
/// # Ok::<(), Box<dyn std::error::Error>>(())
/// ```
pub fn frame_ssim<T: Pixel>(a: &Frame<T>, b: &Frame<T>) -> Result<FrameMeasure, MeasureError> {
    check_frames(a, b)?;
    measures::frame_ssim(a, b).ok_or(MeasureError::TooSmall)
}

/// Returns the two planes if they can be measured.
fn checked<'a, T: Pixel>(
    a: &'a impl AsPlaneRef<Pixel = T>,
    b: &'a impl AsPlaneRef<Pixel = T>,
    bit_depth: u8,
) -> Result<(PlaneRef<'a, T>, PlaneRef<'a, T>), MeasureError> {
    check_depth::<T>(bit_depth)?;
    let (a, b) = (a.as_plane_ref(), b.as_plane_ref());
    if (a.width(), a.height()) == (b.width(), b.height()) { Ok((a, b)) } else { Err(MeasureError::SizesDiffer) }
}

/// Tests whether two frames can be measured.
fn check_frames<T: Pixel>(a: &Frame<T>, b: &Frame<T>) -> Result<(), MeasureError> {
    let (first, second) = (a.bit_depth.get(), b.bit_depth.get());
    if first != second {
        return Err(MeasureError::DepthsDiffer { first, second });
    }
    check_depth::<T>(first)?;
    if frames_have_one_size(a, b) { Ok(()) } else { Err(MeasureError::SizesDiffer) }
}

/// Tests whether pixels of type `T` can have this bit depth.
fn check_depth<T: Pixel>(bit_depth: u8) -> Result<(), MeasureError> {
    let depths = if T::PIXEL_BYTES == 1 { 8..=8 } else { 9..=16 };
    if depths.contains(&bit_depth) { Ok(()) } else { Err(MeasureError::UnsupportedBitDepth { found: bit_depth }) }
}
