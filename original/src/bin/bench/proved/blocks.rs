//! Compares blocks of two planes by regions and sums of the library.

use v_frame::ops::rows;
use v_frame::pixel::Pixel;
use v_frame::plane::{Plane, RowsRef};

/// Sums the absolute differences between the blocks of `size` by `size` pixels of one plane and the first block of the same rows of
/// another plane.
#[inline(never)]
pub fn absolute<T: Pixel>(a: &Plane<T>, b: &Plane<T>, size: usize) -> u64 {
    compare(a, b, size, |block, other| rows::sum_of_absolute_differences(block, other))
}

/// Sums the squared differences between the same blocks.
#[inline(never)]
pub fn squared<T: Pixel>(a: &Plane<T>, b: &Plane<T>, size: usize) -> u64 {
    compare(a, b, size, |block, other| rows::sum_of_squared_errors(block, other))
}

/// Sums the absolute differences between the same blocks, with a size that the compiler knows.
#[inline(never)]
pub fn absolute_of_fixed<T: Pixel, const N: usize>(a: &Plane<T>, b: &Plane<T>) -> u64 {
    compare(a, b, N, |block, other| rows::sum_of_absolute_differences(block, other))
}

#[inline(always)]
fn compare<T: Pixel>(a: &Plane<T>, b: &Plane<T>, size: usize, sum_of: impl Fn(&RowsRef<T>, &RowsRef<T>) -> u128) -> u64 {
    let (a, b) = (a.as_plane_ref().as_rows_ref(), b.as_plane_ref().as_rows_ref());
    let mut sum = 0u64;
    for y in (0..a.height() / size).map(|row| row * size) {
        let block = a.visible_region(0, y, size, size);
        for x in (0..b.width() / size).map(|column| column * size) {
            sum += sum_of(&block, &b.visible_region(x, y, size, size)) as u64;
        }
    }
    sum
}

/// Sums the absolute differences between the same blocks, by regions of planes.
#[inline(never)]
pub fn absolute_of_planes<T: Pixel, const N: usize>(a: &Plane<T>, b: &Plane<T>) -> u64 {
    let (a, b) = (a.as_plane_ref(), b.as_plane_ref());
    let mut sum = 0u64;
    for y in (0..a.height() / N).map(|row| row * N) {
        let block = a.visible_region(0, y, N, N);
        for x in (0..b.width() / N).map(|column| column * N) {
            sum += v_frame::ops::sum_of_absolute_differences(&block, &b.visible_region(x, y, N, N)) as u64;
        }
    }
    sum
}
