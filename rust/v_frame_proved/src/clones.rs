//! `Clone` of planes and frames. If memory runs out, the program is aborted or panics, as with every clone in Rust.

use crate::frame::Frame;
use crate::pixel::Pixel;
use crate::plane::Plane;
use alloc::alloc::{Layout, handle_alloc_error};

/// Stops the program in the way of Rust's own collections if a memory allocation fails.
#[cold]
fn stop<T>(entries: usize) -> ! {
    match Layout::array::<T>(entries) {
        Ok(layout) => handle_alloc_error(layout),
        Err(_) => handle_alloc_error(Layout::new::<T>()),
    }
}

impl<T: Copy> Clone for Plane<T> {
    #[inline]
    fn clone(&self) -> Self {
        match self.try_clone() {
            Ok(clone) => clone,
            Err(_refused) => stop::<T>(self.data().len()),
        }
    }
}

impl<T: Pixel> Clone for Frame<T> {
    #[inline]
    fn clone(&self) -> Self {
        Frame {
            y_plane: self.y_plane.clone(),
            u_plane: self.u_plane.clone(),
            v_plane: self.v_plane.clone(),
            subsampling: self.subsampling,
            bit_depth: self.bit_depth,
        }
    }
}
