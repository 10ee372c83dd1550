//! Writes planes.

use crate::frames::numbered;
use std::error::Error;
use v_frame::pixel::Pixel;
use v_frame::plane::Plane;

/// Prints a plane after each way to write it.
pub fn print<T: Pixel>(depth: u8) -> Result<(), Box<dyn Error>> {
    let mut frame = numbered::<T>(depth)?;
    write_rows(&mut frame.y_plane)?;
    println!("{:?}", frame.y_plane.data());
    write_pixels(&mut frame.y_plane);
    println!("{:?}", frame.y_plane.data());
    write_places(&mut frame.y_plane);
    println!("{:?}", frame.y_plane.data());
    for plane in [&mut frame.u_plane, &mut frame.v_plane].into_iter().flatten() {
        plane.data_mut().fill(T::from(3));
        plane.data_mut()[1] = T::from(4);
        let entries: &mut [T] = plane.data_mut();
        entries.rotate_left(1);
        println!("{:?} {:?}", plane.data(), plane.row(0));
    }
    Ok(())
}

/// Writes rows: rows by number, and rows that an iterator lends.
fn write_rows<T: Pixel>(plane: &mut Plane<T>) -> Result<(), Box<dyn Error>> {
    let row: &mut [T] = plane.row_mut(1).ok_or("no row 1")?;
    row.fill(T::from(200));
    row[0] = T::from(201);
    println!("{} {}", plane.row_mut(4).is_none(), plane.row_mut(usize::MAX).is_none());
    exchange_ends(plane);
    for (y, row) in plane.rows_mut().rev().enumerate() {
        row[y] = T::from(100);
    }
    Ok(())
}

/// Exchanges the first row and the last row while both are lent.
fn exchange_ends<T: Pixel>(plane: &mut Plane<T>) {
    let mut rows = plane.rows_mut();
    println!("{} {:?}", rows.len(), rows.size_hint());
    if let (Some(first), Some(last)) = (rows.next(), rows.next_back()) {
        first.swap_with_slice(last);
    }
    println!("{}", rows.len());
}

/// Writes pixels that an iterator lends, from both ends.
fn write_pixels<T: Pixel>(plane: &mut Plane<T>) {
    let mut pixels = plane.pixels_mut();
    println!("{} {:?}", pixels.len(), pixels.size_hint());
    if let (Some(first), Some(last)) = (pixels.next(), pixels.next_back()) {
        std::mem::swap(first, last);
    }
    for pixel in pixels.rev().step_by(3) {
        let value: u16 = (*pixel).into();
        *pixel = T::try_from(value / 2).unwrap_or_default();
    }
}

/// Writes entries by column and row: visible entries, one border entry, and none past the end.
fn write_places<T: Pixel>(plane: &mut Plane<T>) {
    for (x, y, value) in [(0, 0, 11), (7, 3, 12), (8, 0, 13), (14, 2, 14), (0, 9, 15), (1, 400, 16)] {
        match plane.pixel_mut(x, y) {
            Some(pixel) => println!("{}", std::mem::replace(pixel, T::from(value))),
            None => println!("no entry at ({x}, {y})"),
        }
    }
}
