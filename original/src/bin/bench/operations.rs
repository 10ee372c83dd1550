//! Operations on planes, as loops over rows.

use v_frame::frame::Frame;
use v_frame::pixel::Pixel;
use v_frame::plane::Plane;

/// Returns the sum of absolute differences of two planes.
#[inline(never)]
pub fn absolute_differences<T: Pixel>(a: &Plane<T>, b: &Plane<T>) -> u64 {
    let mut sum = 0;
    for (row, other) in a.rows().zip(b.rows()) {
        // The sum of a row fits 32 bits for all sizes in use. This is the fastest of the plain forms.
        sum += u64::from(row.iter().zip(other).map(|(one, other)| distance(*one, *other)).sum::<u32>());
    }
    sum
}

/// Returns the absolute difference of two pixels.
fn distance<T: Pixel>(one: T, other: T) -> u32 {
    let (one, other): (u16, u16) = (one.into(), other.into());
    u32::from(one.abs_diff(other))
}

/// Returns the sum of squared differences of two planes.
#[inline(never)]
pub fn squared_errors<T: Pixel>(a: &Plane<T>, b: &Plane<T>) -> u64 {
    let mut sum = 0;
    for (row, other) in a.rows().zip(b.rows()) {
        sum += row.iter().zip(other).map(|(one, other)| squared_error(*one, *other)).sum::<u64>();
    }
    sum
}

fn squared_error<T: Pixel>(one: T, other: T) -> u64 {
    let (one, other): (u16, u16) = (one.into(), other.into());
    let difference = i64::from(one) - i64::from(other);
    (difference * difference) as u64
}

/// Writes a plane at half its size into U: the means of blocks of two by two, rounded to the nearest value.
#[inline(never)]
pub fn halve<T: Pixel>(source: &Plane<T>, target: &mut Frame<T>) {
    let Some(half) = target.plane_mut(1) else {
        return;
    };
    let mut rows = source.rows();
    for row in half.rows_mut() {
        let (Some(top), Some(bottom)) = (rows.next(), rows.next()) else {
            return;
        };
        for ((pixel, top), bottom) in row.iter_mut().zip(top.chunks_exact(2)).zip(bottom.chunks_exact(2)) {
            let block = [top[0], top[1], bottom[0], bottom[1]];
            let sum: u32 = block.iter().map(|pixel| u32::from((*pixel).into())).sum();
            *pixel = narrowed((sum + 2) / 4);
        }
    }
}

/// Returns the pixel of a value that fits the pixel type.
fn narrowed<T: Pixel>(value: u32) -> T {
    if size_of::<T>() == 1 { T::from(value as u8) } else { T::try_from(value as u16).unwrap_or_default() }
}

/// Fills the visible pixels.
#[inline(never)]
pub fn fill<T: Pixel>(plane: &mut Plane<T>, value: T) {
    for row in plane.rows_mut() {
        row.fill(value);
    }
}

/// Sets each border pixel to the nearest visible pixel.
#[inline(never)]
pub fn pad<T: Pixel>(plane: &mut Plane<T>) {
    let geometry = plane.geometry();
    let (stride, left, right) = (geometry.stride(), geometry.pad_left(), geometry.pad_left() + geometry.width());
    let first = geometry.pad_top() * stride;
    let last = first + (geometry.height() - 1) * stride;
    let data = plane.data_mut();
    for row in data[first..last + stride].chunks_exact_mut(stride) {
        let (start, end) = (row[left], row[right - 1]);
        row[..left].fill(start);
        row[right..].fill(end);
    }
    for y in 0..geometry.pad_top() {
        data.copy_within(first..first + stride, y * stride);
    }
    for y in 1..=geometry.pad_bottom() {
        data.copy_within(last..last + stride, last + y * stride);
    }
}
