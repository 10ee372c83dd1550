//! Copies pixels and bytes into planes.

use crate::frames::numbered;
use std::error::Error;
use v_frame::pixel::Pixel;
use v_frame::plane::{CopyError, Plane};

/// Prints planes after copies, and the errors of invalid copies.
pub fn print<T: Pixel>(depth: u8) -> Result<(), Box<dyn Error>> {
    let mut frame = numbered::<T>(depth)?;
    let plane = &mut frame.y_plane;
    let (count, size) = (plane.width() * plane.height(), size_of::<T>());
    let pixels: Vec<T> = (0..count as u8).map(T::from).collect();
    let bytes: Vec<u8> = (0..=255).cycle().take((8 * size + 3) * 4).collect();
    plane.copy_from_slice(&pixels)?;
    println!("{:?}", plane.data());
    plane.copy_from_u8_slice(&bytes[..count * size])?;
    println!("{:?}", plane.data());
    plane.copy_from_u8_slice_with_stride(&bytes, 8 * size + 3)?;
    println!("{:?}", plane.data());
    print_refused(plane, &pixels, &bytes);
    println!("{:?}", plane.data());
    Ok(())
}

/// Prints the errors of these copies.
fn print_refused<T: Pixel>(plane: &mut Plane<T>, pixels: &[T], bytes: &[u8]) {
    let refused = [
        plane.copy_from_slice(&pixels[1..]),
        plane.copy_from_slice(&[]),
        plane.copy_from_u8_slice(bytes),
        plane.copy_from_u8_slice(&bytes[..3]),
        plane.copy_from_u8_slice_with_stride(bytes, 7),
        plane.copy_from_u8_slice_with_stride(bytes, 0),
        plane.copy_from_u8_slice_with_stride(bytes, 8 * size_of::<T>()),
        plane.copy_from_u8_slice_with_stride(&bytes[1..], 8 * size_of::<T>() + 3),
    ];
    for result in refused {
        match result {
            Ok(()) => println!("copied"),
            Err(error @ CopyError::DataLength { expected, found }) => println!("{expected} {found}: {error}"),
            Err(error @ CopyError::InvalidStride { stride, width }) => println!("{stride} {width}: {error}"),
        }
    }
}
