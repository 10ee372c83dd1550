//! Compares blocks of two planes by loops over slices of rows.

use v_frame::pixel::Pixel;
use v_frame::plane::Plane;

/// Sums the absolute differences between the blocks of `size` by `size` pixels of one plane and the first block of the same rows of
/// another plane.
#[inline(never)]
pub fn absolute<T: Pixel>(a: &Plane<T>, b: &Plane<T>, size: usize) -> u64 {
    compare(a, b, size, absolute_of_rows)
}

/// Sums the squared differences between the same blocks.
#[inline(never)]
pub fn squared<T: Pixel>(a: &Plane<T>, b: &Plane<T>, size: usize) -> u64 {
    compare(a, b, size, squared_of_rows)
}

/// Sums the absolute differences between the same blocks, by a loop over a fixed size.
#[inline(never)]
pub fn absolute_of_fixed<T: Pixel, const N: usize>(a: &Plane<T>, b: &Plane<T>) -> u64 {
    let mut sum = 0u64;
    for y in (0..a.height() / N).map(|row| row * N) {
        for x in (0..b.width() / N).map(|column| column * N) {
            sum += u64::from(absolute_of_block::<T, N>(from(a, 0, y), from(b, x, y), stride(a), stride(b)));
        }
    }
    sum
}

/// Sums the absolute differences by the same loop. Over `v_frame_proved`, this case sums regions of planes.
#[inline(never)]
pub fn absolute_of_planes<T: Pixel, const N: usize>(a: &Plane<T>, b: &Plane<T>) -> u64 {
    absolute_of_fixed::<T, N>(a, b)
}

#[inline(always)]
fn compare<T: Pixel>(a: &Plane<T>, b: &Plane<T>, size: usize, of_rows: fn(&[T], &[T]) -> u64) -> u64 {
    let mut sum = 0u64;
    for y in (0..a.height() / size).map(|row| row * size) {
        for x in (0..b.width() / size).map(|column| column * size) {
            for k in y..y + size {
                sum += of_rows(&from(a, 0, k)[..size], &from(b, x, k)[..size]);
            }
        }
    }
    sum
}

/// Returns the buffer from a pixel on.
#[inline(always)]
fn from<T: Pixel>(plane: &Plane<T>, x: usize, y: usize) -> &[T] {
    &plane.data()[plane.geometry().data_origin() + plane.geometry().stride() * y + x..]
}

fn stride<T: Pixel>(plane: &Plane<T>) -> usize {
    plane.geometry().stride()
}

/// Sums the absolute differences of two blocks. Each block begins where its slice begins.
#[inline(always)]
fn absolute_of_block<T: Pixel, const N: usize>(a: &[T], b: &[T], a_stride: usize, b_stride: usize) -> u32 {
    let mut sum = 0u32;
    for k in 0..N {
        let (row, other) = (&a[a_stride * k..][..N], &b[b_stride * k..][..N]);
        for i in 0..N {
            sum += u32::from(value(row[i]).abs_diff(value(other[i])));
        }
    }
    sum
}

/// Sums the absolute differences of the pixels of two rows.
fn absolute_of_rows<T: Pixel>(row: &[T], other: &[T]) -> u64 {
    u64::from(row.iter().zip(other).map(|(one, other)| u32::from(value(*one).abs_diff(value(*other)))).sum::<u32>())
}

/// Sums the squared differences of the pixels of two rows.
fn squared_of_rows<T: Pixel>(row: &[T], other: &[T]) -> u64 {
    let square = |one: u16, other: u16| u64::from(one.abs_diff(other)).pow(2);
    row.iter().zip(other).map(|(one, other)| square(value(*one), value(*other))).sum()
}

fn value<T: Pixel>(pixel: T) -> u16 {
    pixel.into()
}
