//! Small pictures, and other arguments of the calls.

use v_frame_proved::chroma::ChromaSubsampling::{self, Yuv420};
use v_frame_proved::frame::{Frame, FrameBuilder};
use v_frame_proved::plane::{Plane, PlaneGeometry, RowsRef};
use v_frame_proved::rgb::{ColorRange, ExactMatrix, RgbMatrix, Standard, YuvMatrix};
use v_frame_proved::sequence::Sequence;
use v_frame_proved::streams::{Place, Source};
use v_frame_proved::y4m::{StreamHeader, parse_header};

/// A size that no picture with pixels of at least one byte can have.
pub const LONG: usize = 1 << 62;

/// Returns a geometry without padding.
pub fn geometry(width: usize, height: usize) -> PlaneGeometry {
    PlaneGeometry::unpadded(width, height, 1, 1).expect("a geometry")
}

/// Returns a geometry of 2^64 pixels, for which no buffer is large enough.
pub fn too_large() -> PlaneGeometry {
    geometry(1 << 32, 1 << 32)
}

pub fn plane(width: usize, height: usize) -> Plane<u8> {
    Plane::new(geometry(width, height)).expect("memory")
}

/// Returns a plane of 16-bit pixels.
pub fn words(width: usize, height: usize) -> Plane<u16> {
    Plane::new(geometry(width, height)).expect("memory")
}

pub fn plane_without_values(width: usize, height: usize) -> Plane<Option<u8>> {
    Plane::new_uninit(geometry(width, height)).expect("memory")
}

pub fn rows(width: usize, height: usize) -> RowsRef<'static, u8> {
    RowsRef::new(&[0; 100], width, height, width).expect("rows")
}

/// Returns rows of 16-bit pixels.
pub fn rows_of_words(width: usize, height: usize) -> RowsRef<'static, u16> {
    RowsRef::new(&[0; 100], width, height, width).expect("rows")
}

/// Returns rows of zero-sized pixels. Their width or their number may be `LONG`.
pub fn rows_of_nothing(width: usize, height: usize) -> RowsRef<'static, ()> {
    RowsRef::new(&[(); LONG], width, height, width).expect("rows")
}

pub fn frame(width: usize, height: usize, format: ChromaSubsampling) -> Frame<u8> {
    FrameBuilder::new(width, height, format, 8).build().expect("a frame")
}

/// Returns a frame of 4 by 4 pixels in `Yuv420`. One of its planes does not have the size that the format requires.
pub fn frame_of_small_chroma() -> Frame<u8> {
    Frame { v_plane: Some(plane(2, 1)), ..frame(4, 4, Yuv420) }
}

pub fn to_rgb() -> RgbMatrix {
    RgbMatrix::new(Standard::Bt709, ColorRange::Limited)
}

pub fn to_rgb_exactly() -> ExactMatrix {
    ExactMatrix::new(Standard::Bt709, ColorRange::Limited, 8)
}

pub fn to_yuv() -> YuvMatrix {
    YuvMatrix::new(Standard::Bt709, ColorRange::Limited)
}

pub fn header_of_no_columns() -> StreamHeader {
    StreamHeader { width: 0, ..parse_header(b"YUV4MPEG2 W4 H3").expect("a header") }
}

pub fn header_with_a_space() -> StreamHeader {
    let extension = Sequence::from(b"an extension".to_vec());
    StreamHeader { extensions: vec![extension].into(), ..parse_header(b"YUV4MPEG2 W4 H3").expect("a header") }
}

/// Returns a stream with this header.
pub fn stream(header: &[u8]) -> Source<&[u8]> {
    Source::y4m(Place::First, header).expect("a header")
}
