//! Frames of either pixel type.

use super::StreamHeader;
use crate::chroma::ChromaSubsampling;
use crate::crop::CropError;
use crate::frame::{Frame, FrameError};
use crate::measures::FrameMeasure;
use crate::pixel::Pixel;
use crate::planar::subsample_ratio_or_one;
use crate::plane::Plane;
use crate::quality::{FramePsnr, MeasureError, frame_mean_squared_error, frame_psnr, frame_ssim};

/// A frame of a stream, with the pixel type that its bit depth requires. This type is written by hand.
/// [`with_frame!`](crate::with_frame) evaluates an expression for the frame of either pixel type.
///
/// ```
/// use v_frame_proved::chroma::ChromaSubsampling;
/// use v_frame_proved::y4m::{Color, StreamHeader, VideoFrame};
///
/// let color = Color::new(ChromaSubsampling::Yuv422, 10, None).ok_or("no such color")?;
/// let mut frame = VideoFrame::blank(&StreamHeader::new(6, 1, color))?;
/// assert_eq!((frame.width(), frame.height(), frame.bit_depth()), (6, 1, 10));
/// assert_eq!(frame.subsampling(), ChromaSubsampling::Yuv422);
///
/// let black = frame.clone();
/// if let VideoFrame::HighDepth(frame) = &mut frame {
///     frame.y_plane[0].fill(2);
/// }
/// let errors = frame.mean_squared_error(&black)?;
/// assert_eq!((errors.y, errors.u, errors.all), (4.0, Some(0.0), 2.0));
/// # Ok::<(), Box<dyn std::error::Error>>(())
/// ```
#[derive(Debug, Clone, PartialEq, Eq)]
pub enum VideoFrame {
    /// A frame with 8 bits per sample.
    EightBits(Frame<u8>),
    /// A frame with 9 to 16 bits per sample.
    HighDepth(Frame<u16>),
}

/// Evaluates an expression for a [`VideoFrame`](crate::y4m::VideoFrame), as a generic closure would: the expression is compiled
/// for frames of `u8` and for frames of `u16`, and may call functions that are generic over [`Pixel`](crate::pixel::Pixel).
///
/// The first argument is a `VideoFrame`, `&VideoFrame` or `&mut VideoFrame`, and the parameter is a `Frame`, `&Frame` or
/// `&mut Frame`. With two such arguments, the value is `Some` if both frames have the same pixel type, and `None` otherwise.
///
/// This macro is written by hand.
///
/// ```
/// use v_frame_proved::chroma::ChromaSubsampling;
/// use v_frame_proved::ops::{combine_pixels, fill};
/// use v_frame_proved::with_frame;
/// use v_frame_proved::y4m::{Color, StreamHeader, VideoFrame};
///
/// /// Removes the color, and adds the luma of another frame, whatever the pixel type is.
/// fn change(video: &mut VideoFrame, other: &VideoFrame) -> Option<()> {
///     let middle = 1_u16 << (video.bit_depth() - 1);
///     with_frame!(&mut *video, |frame| for plane in frame.planes_mut().skip(1) {
///         fill(plane, middle.try_into().expect("a depth of 8 bits has small values"));
///     });
///     with_frame!(video, other, |frame, other| {
///         combine_pixels(&mut frame.y_plane, &other.y_plane, |a, b| a.saturating_add(b));
///     })
/// }
///
/// let color = Color::new(ChromaSubsampling::Yuv420, 10, None).ok_or("no such color")?;
/// let mut video = VideoFrame::blank(&StreamHeader::new(2, 2, color))?;
/// let mut other = video.clone();
/// with_frame!(&mut other, |frame| frame.y_plane[1][1] = 9);
/// assert_eq!(change(&mut video, &other), Some(()));
/// assert_eq!(with_frame!(&video, |frame| u16::from(frame.y_plane[1][1])), 9);
/// assert_eq!(with_frame!(&video, |frame| frame.planes().map(|plane| u16::from(plane[0][0])).sum::<u16>()), 1024);
///
/// let eight_bits = VideoFrame::blank(&StreamHeader::new(2, 2, Color::Mono))?;
/// assert_eq!(change(&mut video, &eight_bits), None);
/// # Ok::<(), Box<dyn std::error::Error>>(())
/// ```
#[macro_export]
macro_rules! with_frame {
    ($video:expr, |$frame:ident| $result:expr $(,)?) => {
        match $video {
            $crate::y4m::VideoFrame::EightBits($frame) => $result,
            $crate::y4m::VideoFrame::HighDepth($frame) => $result,
        }
    };
    ($first:expr, $second:expr, |$a:ident, $b:ident| $result:expr $(,)?) => {
        match ($first, $second) {
            ($crate::y4m::VideoFrame::EightBits($a), $crate::y4m::VideoFrame::EightBits($b)) => {
                ::core::option::Option::Some($result)
            }
            ($crate::y4m::VideoFrame::HighDepth($a), $crate::y4m::VideoFrame::HighDepth($b)) => {
                ::core::option::Option::Some($result)
            }
            _ => ::core::option::Option::None,
        }
    };
}

impl VideoFrame {
    /// Allocates a frame without padding that fits the streams of this header, with all pixels zero.
    ///
    /// The header of an untrusted stream can state any size, so test the product of its width and its height first, for example
    /// against [`MAX_PIXELS`](crate::streams::MAX_PIXELS). The iterator of a [`Decoder`](super::Decoder) needs no such test: it
    /// allocates a frame only after it has read all its bytes.
    ///
    /// # Errors
    ///
    /// The errors of [`StreamHeader::frame`], except for `DataTypeMismatch`.
    pub fn blank(header: &StreamHeader) -> Result<Self, FrameError> {
        if header.color.bit_depth() == 8 {
            header.frame(0).map(VideoFrame::EightBits)
        } else {
            header.frame(0).map(VideoFrame::HighDepth)
        }
    }

    /// Returns the visible width of the luma plane in pixels.
    #[inline]
    #[must_use]
    pub fn width(&self) -> usize {
        with_frame!(self, |frame| frame.width())
    }

    /// Returns the visible height of the luma plane in pixels.
    #[inline]
    #[must_use]
    pub fn height(&self) -> usize {
        with_frame!(self, |frame| frame.height())
    }

    /// Returns the number of bits of a sample.
    #[inline]
    #[must_use]
    pub fn bit_depth(&self) -> u8 {
        with_frame!(self, |frame| frame.bit_depth.get())
    }

    /// Returns the chroma subsampling.
    #[inline]
    #[must_use]
    pub fn subsampling(&self) -> ChromaSubsampling {
        with_frame!(self, |frame| frame.subsampling)
    }

    /// Returns a copy of a rectangle of the frame, like [`Frame::crop`].
    ///
    /// # Errors
    ///
    /// The errors of [`Frame::crop`].
    pub fn crop(&self, x: usize, y: usize, width: usize, height: usize) -> Result<Self, CropError> {
        with_frame!(self, |frame| frame.crop(x, y, width, height).map(Self::from))
    }

    /// Returns the mean squared errors of this frame and `other`, like [`frame_mean_squared_error`].
    ///
    /// # Errors
    ///
    /// The errors of [`frame_mean_squared_error`]. Frames of different pixel types have different bit depths.
    pub fn mean_squared_error(&self, other: &Self) -> Result<FrameMeasure, MeasureError> {
        with_frame!(self, other, |a, b| frame_mean_squared_error(a, b)).unwrap_or_else(|| self.depths_differ(other))
    }

    /// Returns the peak signal-to-noise ratios of this frame and `other`, like [`frame_psnr`].
    ///
    /// # Errors
    ///
    /// The errors of [`frame_psnr`]. Frames of different pixel types have different bit depths.
    pub fn psnr(&self, other: &Self) -> Result<FramePsnr, MeasureError> {
        with_frame!(self, other, |a, b| frame_psnr(a, b)).unwrap_or_else(|| self.depths_differ(other))
    }

    /// Returns the structural similarities of this frame and `other`, like [`frame_ssim`].
    ///
    /// # Errors
    ///
    /// The errors of [`frame_ssim`]. Frames of different pixel types have different bit depths.
    pub fn ssim(&self, other: &Self) -> Result<FrameMeasure, MeasureError> {
        with_frame!(self, other, |a, b| frame_ssim(a, b)).unwrap_or_else(|| self.depths_differ(other))
    }

    /// Returns the error of two frames with different pixel types.
    fn depths_differ<A>(&self, other: &Self) -> Result<A, MeasureError> {
        Err(MeasureError::DepthsDiffer { first: self.bit_depth(), second: other.bit_depth() })
    }

    /// Returns whether the frame fits the streams of this header.
    pub(super) fn fits(&self, header: &StreamHeader) -> bool {
        with_frame!(self, |frame| is_frame_of(frame, header))
    }
}

impl From<Frame<u8>> for VideoFrame {
    #[inline]
    fn from(frame: Frame<u8>) -> Self {
        VideoFrame::EightBits(frame)
    }
}

impl From<Frame<u16>> for VideoFrame {
    #[inline]
    fn from(frame: Frame<u16>) -> Self {
        VideoFrame::HighDepth(frame)
    }
}

/// Returns whether the frame has the format, the bit depth and the plane sizes of a header.
pub(super) fn is_frame_of<T: Pixel>(frame: &Frame<T>, header: &StreamHeader) -> bool {
    let size = |plane: &Plane<T>| (plane.width(), plane.height());
    let (columns, rows) = subsample_ratio_or_one(frame.subsampling);
    let chroma = (header.width.div_ceil(columns), header.height.div_ceil(rows));
    let chroma = frame.subsampling.has_chroma().then_some(chroma);
    let depth = frame.bit_depth.get();
    // The two pixel types have no bit depth in common.
    depth == header.color.bit_depth()
        && (size_of::<T>() == 1) == (depth == 8)
        && frame.subsampling == header.color.subsampling()
        && size(&frame.y_plane) == (header.width, header.height)
        && frame.u_plane.as_ref().map(size) == chroma
        && frame.v_plane.as_ref().map(size) == chroma
}

/// Stores planar bytes in a frame. Their number must be that of the frame.
pub(super) fn show<T: Pixel>(frame: &mut Frame<T>, bytes: &[u8]) {
    let mut rest = bytes;
    for plane in frame.planes_mut() {
        let (shown, after) = rest.split_at(plane.byte_len());
        plane.copy_from_u8_slice(shown).expect("there are as many bytes as the plane has");
        rest = after;
    }
}
