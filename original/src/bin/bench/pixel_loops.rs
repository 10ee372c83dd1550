//! Loops that users write with `pixel` and `pixel_mut`.

use std::hint::black_box;
use v_frame::pixel::Pixel;
use v_frame::plane::Plane;

/// Returns the pixel with the low byte of a number.
fn low_byte<T: Pixel>(number: usize) -> T {
    T::from(number as u8)
}

/// Writes the same value to each pixel.
#[inline(never)]
pub fn fill_by_unwrap<T: Pixel>(plane: &mut Plane<T>, value: T) {
    let (width, height) = (plane.width(), plane.height());
    for y in 0..height {
        for x in 0..width {
            *plane.pixel_mut(x, y).unwrap() = value;
        }
    }
}

/// Writes a value that depends on the column to each pixel that exists.
#[inline(never)]
pub fn ramp_by_pixel_mut<T: Pixel>(plane: &mut Plane<T>) {
    let (width, height) = (plane.width(), plane.height());
    for y in 0..height {
        for x in 0..width {
            if let Some(pixel) = plane.pixel_mut(x, y) {
                *pixel = low_byte(x);
            }
        }
    }
}

/// Writes a value that depends on the column to each pixel.
#[inline(never)]
pub fn ramp_by_unwrap<T: Pixel>(plane: &mut Plane<T>) {
    let (width, height) = (plane.width(), plane.height());
    for y in 0..height {
        for x in 0..width {
            *plane.pixel_mut(x, y).unwrap() = low_byte(x);
        }
    }
}

/// Changes the lowest bit of each pixel.
#[inline(never)]
pub fn change_by_unwrap<T: Pixel>(plane: &mut Plane<T>) {
    let (width, height) = (plane.width(), plane.height());
    for y in 0..height {
        for x in 0..width {
            let pixel = plane.pixel_mut(x, y).unwrap();
            if let Ok(changed) = T::try_from((*pixel).into() ^ 1) {
                *pixel = changed;
            }
        }
    }
}

/// Adds up all pixels.
#[inline(never)]
pub fn sum_by_unwrap<T: Pixel>(plane: &Plane<T>) -> u64 {
    let (width, height) = (plane.width(), plane.height());
    let mut sum = 0u64;
    for y in 0..height {
        for x in 0..width {
            sum = sum.wrapping_add(u64::from(plane.pixel(x, y).unwrap().into()));
        }
    }
    sum
}

/// Adds up all pixels of a plane that the compiler knows nothing about at each step, as in a loop with calls of other functions.
#[inline(never)]
pub fn sum_of_hidden<T: Pixel>(plane: &Plane<T>) -> u64 {
    let (width, height) = (plane.width(), plane.height());
    let mut sum = 0u64;
    for y in 0..height {
        for x in 0..width {
            sum = sum.wrapping_add(u64::from(black_box(plane).pixel(x, y).unwrap().into()));
        }
    }
    sum
}

/// Writes the mean of a pixel of `source` and its left, right and upper neighbors to the same place of `target`.
#[inline(never)]
pub fn mean_by_unwrap<T: Pixel>(source: &Plane<T>, target: &mut Plane<T>) {
    let (width, height) = (source.width(), source.height());
    for y in 1..height {
        for x in 1..width.saturating_sub(1) {
            let near = [source.pixel(x - 1, y), source.pixel(x, y), source.pixel(x + 1, y), source.pixel(x, y - 1)];
            let sum: u32 = near.iter().map(|pixel| u32::from(pixel.unwrap().into())).sum();
            *target.pixel_mut(x, y).unwrap() = T::try_from(u16::try_from(sum / 4).unwrap()).ok().unwrap();
        }
    }
}
