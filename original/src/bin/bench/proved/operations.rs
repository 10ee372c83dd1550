//! Operations on planes, as calls of the library.

use v_frame::frame::Frame;
use v_frame::ops;
use v_frame::pixel::Pixel;
use v_frame::plane::Plane;

/// Returns the sum of absolute differences of two planes.
#[inline(never)]
pub fn absolute_differences<T: Pixel>(a: &Plane<T>, b: &Plane<T>) -> u64 {
    ops::sum_of_absolute_differences(&a.as_plane_ref(), &b.as_plane_ref()) as u64
}

/// Returns the sum of squared differences of two planes.
#[inline(never)]
pub fn squared_errors<T: Pixel>(a: &Plane<T>, b: &Plane<T>) -> u64 {
    ops::sum_of_squared_errors(&a.as_plane_ref(), &b.as_plane_ref()) as u64
}

/// Writes a plane at half its size into U.
#[inline(never)]
pub fn halve<T: Pixel>(source: &Plane<T>, target: &mut Frame<T>) {
    if let Some(half) = target.plane_mut(1) {
        ops::downscale(&source.as_plane_ref(), half);
    }
}

/// Fills the visible pixels.
#[inline(never)]
pub fn fill<T: Pixel>(plane: &mut Plane<T>, value: T) {
    ops::fill(plane, value);
}

/// Sets each border pixel to the nearest visible pixel.
#[inline(never)]
pub fn pad<T: Pixel>(plane: &mut Plane<T>) {
    ops::pad(plane);
}
