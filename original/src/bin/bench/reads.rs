//! Cases that read planes.

use v_frame::pixel::Pixel;
use v_frame::plane::Plane;

/// Adds a pixel to a sum.
fn added<T: Pixel>(sum: u64, pixel: T) -> u64 {
    sum.wrapping_add(u64::from(pixel.into()))
}

/// Compares two planes, borders included.
#[inline(never)]
pub fn are_equal<T: Pixel>(a: &Plane<T>, b: &Plane<T>) -> bool {
    a == b
}

/// Sums the pixels of all rows, and gets each row by its number.
#[inline(never)]
pub fn sum_by_row<T: Pixel>(plane: &Plane<T>) -> u64 {
    let mut sum = 0;
    for y in 0..plane.height() {
        if let Some(row) = plane.row(y) {
            for pixel in row {
                sum = added(sum, *pixel);
            }
        }
    }
    sum
}

/// Sums the pixels of the rows that an iterator gives.
#[inline(never)]
pub fn sum_by_rows<T: Pixel>(plane: &Plane<T>) -> u64 {
    let mut sum = 0;
    for row in plane.rows() {
        for pixel in row {
            sum = added(sum, *pixel);
        }
    }
    sum
}

/// Sums all pixels, and gets each pixel by its column and row.
#[inline(never)]
pub fn sum_by_pixel<T: Pixel>(plane: &Plane<T>) -> u64 {
    let mut sum = 0;
    for y in 0..plane.height() {
        for x in 0..plane.width() {
            if let Some(pixel) = plane.pixel(x, y) {
                sum = added(sum, pixel);
            }
        }
    }
    sum
}

/// Sums the pixels that an iterator gives.
#[inline(never)]
pub fn sum_by_pixels<T: Pixel>(plane: &Plane<T>) -> u64 {
    let mut sum = 0;
    for pixel in plane.pixels() {
        sum = added(sum, pixel);
    }
    sum
}

/// Sums the pixels that an iterator gives from the last pixel to the first.
#[inline(never)]
pub fn sum_by_pixels_back<T: Pixel>(plane: &Plane<T>) -> u64 {
    let mut sum = 0;
    for pixel in plane.pixels().rev() {
        sum = added(sum, pixel);
    }
    sum
}

/// Sums the pixels at a list of places.
#[inline(never)]
pub fn sum_of_places<T: Pixel>(plane: &Plane<T>, places: &[(usize, usize)]) -> u64 {
    let mut sum = 0;
    for &(x, y) in places {
        if let Some(pixel) = plane.pixel(x, y) {
            sum = added(sum, pixel);
        }
    }
    sum
}

/// Returns the number of pixels that differ.
#[inline(never)]
pub fn count_differing<T: Pixel>(a: &Plane<T>, b: &Plane<T>) -> u64 {
    let mut count = 0u64;
    for (one, other) in a.pixels().zip(b.pixels()) {
        if one != other {
            count = count.wrapping_add(1);
        }
    }
    count
}

/// Sums the bytes of all pixels.
#[inline(never)]
pub fn sum_by_byte_data<T: Pixel>(plane: &Plane<T>) -> u64 {
    let mut sum = 0u64;
    for byte in plane.byte_data() {
        sum = sum.wrapping_add(u64::from(byte));
    }
    sum
}
