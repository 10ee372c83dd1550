//! Cases that write planes or bytes, and cases that make planes and frames.

use crate::desk::{Desk, Plan};
use v_frame::chroma::ChromaSubsampling;
use v_frame::frame::{Frame, FrameBuilder};
use v_frame::pixel::Pixel;
use v_frame::plane::Plane;

/// Fills all rows, and gets each row by its number.
#[inline(never)]
pub fn fill_by_row_mut<T: Pixel>(plane: &mut Plane<T>, value: T) {
    for y in 0..plane.height() {
        if let Some(row) = plane.row_mut(y) {
            row.fill(value);
        }
    }
}

/// Fills the rows that an iterator lends.
#[inline(never)]
pub fn fill_by_rows_mut<T: Pixel>(plane: &mut Plane<T>, value: T) {
    for row in plane.rows_mut() {
        row.fill(value);
    }
}

/// Writes all pixels, and gets each pixel by its column and row.
#[inline(never)]
pub fn fill_by_pixel_mut<T: Pixel>(plane: &mut Plane<T>, value: T) {
    for y in 0..plane.height() {
        for x in 0..plane.width() {
            if let Some(pixel) = plane.pixel_mut(x, y) {
                *pixel = value;
            }
        }
    }
}

/// Writes the pixels that an iterator lends.
#[inline(never)]
pub fn fill_by_pixels_mut<T: Pixel>(plane: &mut Plane<T>, value: T) {
    for pixel in plane.pixels_mut() {
        *pixel = value;
    }
}

/// Writes the pixels at a list of places.
#[inline(never)]
pub fn fill_places<T: Pixel>(plane: &mut Plane<T>, places: &[(usize, usize)], value: T) {
    for &(x, y) in places {
        if let Some(pixel) = plane.pixel_mut(x, y) {
            *pixel = value;
        }
    }
}

/// Copies pixels.
#[inline(never)]
pub fn copy_pixels<T: Pixel>(plane: &mut Plane<T>, source: &[T]) {
    plane.copy_from_slice(source).expect("as many pixels");
}

/// Copies bytes of packed rows.
#[inline(never)]
pub fn copy_packed<T: Pixel>(plane: &mut Plane<T>, source: &[u8]) {
    plane.copy_from_u8_slice(source).expect("as many bytes");
}

/// Copies bytes with a stride.
#[inline(never)]
pub fn copy_strided<T: Pixel>(plane: &mut Plane<T>, source: &[u8], stride: usize) {
    plane.copy_from_u8_slice_with_stride(source, stride).expect("as many bytes");
}

/// Writes the bytes of a plane into a slice.
#[inline(never)]
pub fn copy_to_bytes<T: Pixel>(plane: &Plane<T>, target: &mut [u8]) {
    for (place, byte) in target.iter_mut().zip(plane.byte_data()) {
        *place = byte;
    }
}

/// Builds a frame.
#[inline(never)]
pub fn build<T: Pixel>(plan: Plan, format: ChromaSubsampling, depth: u8) -> Frame<T> {
    let padding = usize::from(plan.padding);
    FrameBuilder::new(usize::from(plan.width), usize::from(plan.height), format, depth)
        .luma_padding_left(padding)
        .luma_padding_right(padding)
        .luma_padding_top(padding)
        .luma_padding_bottom(padding)
        .build()
        .expect("a frame of this size")
}

/// Builds a frame, uses one pixel, and drops it.
pub fn build_one<T: Pixel>(desk: &Desk<T>, format: ChromaSubsampling) -> u64 {
    let mut frame: Frame<T> = build(desk.plan, format, desk.depth);
    used(&mut frame.y_plane, desk)
}

/// Clones a plane, uses one pixel, and drops it.
pub fn clone_plane<T: Pixel>(desk: &Desk<T>) -> u64 {
    used(&mut cloned(&desk.frame.y_plane), desk)
}

/// Clones a frame, uses one pixel, and drops it.
pub fn clone_frame<T: Pixel>(desk: &Desk<T>) -> u64 {
    used(&mut cloned(&desk.frame).y_plane, desk)
}

#[inline(never)]
fn cloned<C: Clone>(value: &C) -> C {
    value.clone()
}

/// Writes a pixel of a plane and reads another one, so that the compiler cannot remove the plane.
#[inline(never)]
fn used<T: Pixel>(plane: &mut Plane<T>, desk: &Desk<T>) -> u64 {
    let x = plane.width() / 2;
    if let Some(pixel) = plane.pixel_mut(x, 0) {
        *pixel = desk.value;
    }
    plane.pixel(x, plane.height() / 2).map_or(0, |pixel| u64::from(pixel.into()))
}
