//! The calls of the libraries for C that are written by hand: texts, which no source returns, and the peak signal-to-noise ratio,
//! whose logarithm no contract describes. `c_interface/src/by_hand.c` has the same calls for the libraries that `rt` builds.
#![allow(unsafe_code)]

use crate::foreign::{POINTER_OF_V_FRAME_C, reference, reference_mut, slice};
use crate::generated::v_frame_slices::layout::Rows;
use crate::generated::v_frame_slices::measures::mean_squared_error;
use core::ffi::{CStr, c_char};
use v_frame_proved::measures::psnr;
use v_frame_proved::pixel::Pixel;

/// The number of `V_FRAME_NUMBER`.
const NUMBER: u32 = 5;

/// The texts of `enum v_frame_status`, in the order of their numbers.
const TEXTS: [&CStr; 11] = [
    c"no error",
    c"the first rows do not fit their buffer",
    c"the second rows do not fit their buffer",
    c"the sizes are not those that the call requires",
    c"the format is not one that the call takes",
    c"a bit depth, a ratio, a weight or the number of a choice is out of its range",
    c"the third rows do not fit their buffer",
    c"the fourth rows do not fit their buffer",
    c"a side is below 8, so that no window of SSIM fits",
    c"the fifth rows do not fit their buffer",
    c"a pointer is null or not aligned",
];

/// The texts of `enum v_frame_png_status`, in the order of their numbers.
const PNG_TEXTS: [&CStr; 7] = [
    c"no error",
    c"the color or the compression is out of its range",
    c"the width or the height is one that PNG does not allow",
    c"the rows do not fit the samples",
    c"out of memory",
    c"the buffer is shorter than the file",
    c"a pointer is null or not aligned",
];

/// The texts of `enum v_frame_y4m_status`, in the order of their numbers.
const Y4M_TEXTS: [&CStr; 17] = [
    c"no error",
    c"the stream does not begin with YUV4MPEG2",
    c"a parameter is missing",
    c"a parameter is repeated",
    c"a parameter is malformed",
    c"a size is 0",
    c"a size is too large",
    c"the color is unknown",
    c"out of memory",
    c"a number of the header is out of its range",
    c"the buffer is shorter than the text",
    c"the stream ends inside a line",
    c"a line is longer than 1024 bytes",
    c"the line is not one that begins a frame",
    c"a pointer is null or not aligned",
    c"the text states something other than extensions",
    c"the extensions state another range than the header",
];

/// Returns the text of a status.
fn text_of(texts: &'static [&'static CStr], status: u32) -> *const c_char {
    texts.get(status as usize).unwrap_or(&c"unknown status").as_ptr()
}

/// Returns a description of a status of `v_frame.h`.
#[unsafe(no_mangle)]
pub extern "C" fn v_frame_status_text(status: u32) -> *const c_char {
    text_of(&TEXTS, status)
}

/// Returns a description of a status of `v_frame_png.h`.
#[unsafe(no_mangle)]
pub extern "C" fn v_frame_png_status_text(status: u32) -> *const c_char {
    text_of(&PNG_TEXTS, status)
}

/// Returns a description of a status of `v_frame_y4m.h`.
#[unsafe(no_mangle)]
pub extern "C" fn v_frame_y4m_status_text(status: u32) -> *const c_char {
    text_of(&Y4M_TEXTS, status)
}

/// Measures the peak signal-to-noise ratio of two pictures of one size, in decibels.
///
/// # Safety
///
/// Each pointer is as the header says.
#[allow(clippy::too_many_arguments)]
unsafe fn psnr_of<T: Pixel>(
    a_rows: *const Rows,
    a: *const T,
    a_length: usize,
    b_rows: *const Rows,
    b: *const T,
    b_length: usize,
    bit_depth: u32,
    decibels: *mut f64,
) -> u32 {
    let (Some(a_rows), Some(a)) = (unsafe { (reference(a_rows), slice(a, a_length)) }) else {
        return POINTER_OF_V_FRAME_C;
    };
    let (Some(b_rows), Some(b)) = (unsafe { (reference(b_rows), slice(b, b_length)) }) else {
        return POINTER_OF_V_FRAME_C;
    };
    let Some(decibels) = (unsafe { reference_mut(decibels) }) else {
        return POINTER_OF_V_FRAME_C;
    };
    if !(8..=8 * size_of::<T>() as u32).contains(&bit_depth) {
        return NUMBER;
    }
    let mut error = 0.0;
    let status = mean_squared_error(a_rows, a, b_rows, b, &mut error);
    if status == 0 {
        *decibels = psnr(error, bit_depth as u8);
    }
    status
}

/// Measures the peak signal-to-noise ratio of two pictures of one size and of 8 bits, in decibels.
///
/// # Safety
///
/// Each pointer is as the header says.
#[unsafe(no_mangle)]
pub unsafe extern "C" fn v_frame_psnr_u8(
    a_rows: *const Rows,
    a: *const u8,
    a_length: usize,
    b_rows: *const Rows,
    b: *const u8,
    b_length: usize,
    decibels: *mut f64,
) -> u32 {
    unsafe { psnr_of(a_rows, a, a_length, b_rows, b, b_length, 8, decibels) }
}

/// Measures the peak signal-to-noise ratio of two pictures of one size and of a bit depth, in decibels.
///
/// # Safety
///
/// Each pointer is as the header says.
#[unsafe(no_mangle)]
pub unsafe extern "C" fn v_frame_psnr_u16(
    a_rows: *const Rows,
    a: *const u16,
    a_length: usize,
    b_rows: *const Rows,
    b: *const u16,
    b_length: usize,
    bit_depth: u32,
    decibels: *mut f64,
) -> u32 {
    unsafe { psnr_of(a_rows, a, a_length, b_rows, b, b_length, bit_depth, decibels) }
}
