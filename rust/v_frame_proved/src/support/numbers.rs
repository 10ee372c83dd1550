//! Conversions of numbers that are functions in Rattle's standard library.

/// Converts the number exactly, since each `f32` is an `f64`. A NaN is converted to a NaN.
#[inline]
pub fn f32_to_f64_with_nan(number: f32) -> f64 {
    f64::from(number)
}

/// Converts the number to the nearest `f64`, with ties to even.
#[inline]
pub fn nearest_i64_to_f64(number: i64) -> f64 {
    number as f64
}

/// Converts the number to the nearest `f64`, with ties to even.
#[inline]
pub fn nearest_u64_to_f64(number: u64) -> f64 {
    number as f64
}

/// Converts the number to the nearest `f64`, with ties to even.
#[inline]
pub fn nearest_usize_to_f64(number: usize) -> f64 {
    number as f64
}

/// Converts the number to an integer, rounding toward zero and saturating at the limits of the type. A NaN gives 0.
#[inline]
pub fn saturating_f64_to_i64(number: f64) -> i64 {
    number as i64
}

/// Converts the number to an integer, rounding toward zero and saturating at the limits of the type. A NaN gives 0.
#[inline]
pub fn saturating_f64_to_u64(number: f64) -> u64 {
    number as u64
}
