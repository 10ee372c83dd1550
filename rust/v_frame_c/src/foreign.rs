//! What C points to, as Rust has it. This is the one file written by hand whose code is unsafe.
//!
//! Each function returns `None` for a pointer that is null or not aligned for its type, and the export then returns a status. C
//! promises the rest, as its header says: a pointer points to a value, or to as many entries as the length beside it counts; what
//! is written overlaps nothing else that the call is given, and nobody else touches it during the call.
#![allow(unsafe_code)]

use core::slice;

/// The status of a call of `libv_frame` that is given a pointer that is null or not aligned: `V_FRAME_POINTER`.
pub const POINTER_OF_V_FRAME_C: u32 = 10;
/// The same status of `libv_frame_png`: `V_FRAME_PNG_POINTER`.
pub const POINTER_OF_V_FRAME_PNG_C: u32 = 6;
/// The same status of `libv_frame_y4m`: `V_FRAME_Y4M_POINTER`.
pub const POINTER_OF_V_FRAME_Y4M_C: u32 = 14;

/// Returns the value behind a pointer.
///
/// # Safety
///
/// C promises all that the module says.
pub unsafe fn reference<'a, T>(pointer: *const T) -> Option<&'a T> {
    if !pointer.is_aligned() {
        return None;
    }
    unsafe { pointer.as_ref() }
}

/// Returns the value behind a pointer, to be written.
///
/// # Safety
///
/// C promises all that the module says.
pub unsafe fn reference_mut<'a, T>(pointer: *mut T) -> Option<&'a mut T> {
    if !pointer.is_aligned() {
        return None;
    }
    unsafe { pointer.as_mut() }
}

/// Returns the entries behind a pointer. If there are none, the pointer may be null.
///
/// # Safety
///
/// C promises all that the module says.
pub unsafe fn slice<'a, T>(pointer: *const T, length: usize) -> Option<&'a [T]> {
    if length == 0 {
        return Some(&[]);
    }
    is_slice(pointer, length).then(|| unsafe { slice::from_raw_parts(pointer, length) })
}

/// Returns the entries behind a pointer, to be written. If there are none, the pointer may be null.
///
/// # Safety
///
/// C promises all that the module says.
pub unsafe fn slice_mut<'a, T>(pointer: *mut T, length: usize) -> Option<&'a mut [T]> {
    if length == 0 {
        return Some(&mut []);
    }
    is_slice(pointer, length).then(|| unsafe { slice::from_raw_parts_mut(pointer, length) })
}

/// Returns whether a pointer may be that of entries: it is not null, it is aligned, and the entries have no more bytes than any
/// object in memory.
fn is_slice<T>(pointer: *const T, length: usize) -> bool {
    !pointer.is_null() && pointer.is_aligned() && length <= isize::MAX as usize / size_of::<T>()
}
