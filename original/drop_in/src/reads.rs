//! Reads planes.

use crate::frames::numbered;
use std::error::Error;
use v_frame::pixel::Pixel;
use v_frame::plane::Plane;

/// Prints the planes of a frame, read in each way.
pub fn print<T: Pixel>(depth: u8) -> Result<(), Box<dyn Error>> {
    let frame = numbered::<T>(depth)?;
    for plane in [Some(&frame.y_plane), frame.u_plane.as_ref(), frame.plane(2)].into_iter().flatten() {
        println!("{} by {}, {} entries", plane.width(), plane.height(), plane.data().len());
        print_rows(plane);
        print_places(plane);
        print_pixels(plane);
        print_bytes(plane);
    }
    Ok(())
}

fn print_rows<T: Pixel>(plane: &Plane<T>) {
    for y in [0, 1, plane.height() - 1, plane.height(), usize::MAX] {
        let row: Option<&[T]> = plane.row(y);
        println!("row {y}: {row:?}");
    }
    let mut rows = plane.rows();
    println!("{:?} {} {:?} {:?} {}", rows.size_hint(), rows.len(), rows.next_back(), rows.next(), rows.len());
    println!("{:?} {:?} {:?}", rows.next(), rows.next(), rows.next_back());
    let tops: Vec<T> = plane.rows().rev().filter_map(|row| row.first().copied()).collect();
    println!("{tops:?} {:?}", plane.rows().enumerate().skip(1).step_by(2).last());
    println!("{:?} {:?}", plane.rows().rposition(|row| row.contains(&tops[0])), plane.rows().nth_back(1));
    let boxed: Box<dyn DoubleEndedIterator<Item = &[T]> + '_> = Box::new(plane.rows());
    println!("{}", boxed.map(<[T]>::len).sum::<usize>());
    println!("{:?}", brightest(plane).map(|row| row.len()));
}

/// Returns the row that a user's function chooses, with the lifetime of the plane.
fn brightest<T: Pixel>(plane: &Plane<T>) -> Option<&[T]> {
    plane.rows().max_by_key(|row| row.iter().map(|pixel| u32::from((*pixel).into())).sum::<u32>())
}

/// Prints entries of the rectangle, of the border, and past the end.
fn print_places<T: Pixel>(plane: &Plane<T>) {
    let (width, height) = (plane.width(), plane.height());
    let stride = plane.geometry().stride();
    for (x, y) in [(0, 0), (width - 1, height - 1), (width, 0), (stride, 1), (0, height), (0, height + 20), (10_000, 0)] {
        let pixel: Option<T> = plane.pixel(x, y);
        println!("({x}, {y}): {pixel:?}");
    }
}

fn print_pixels<T: Pixel>(plane: &Plane<T>) {
    let mut pixels = plane.pixels();
    println!("{} {:?}", pixels.len(), pixels.size_hint());
    println!("{:?} {:?} {:?} {}", pixels.next(), pixels.next_back(), pixels.nth(8), pixels.len());
    println!("{:?} {:?}", pixels.by_ref().rev().take(3).collect::<Vec<_>>(), pixels.next());
    println!("{:?}", pixels.map(|pixel| pixel.into()).map(u64::from).sum::<u64>());
    println!("{:?} {:?} {:?}", plane.pixels().max(), plane.pixels().min(), plane.pixels().last());
    let pairs = plane.pixels().zip(plane.pixels().rev()).filter(|(one, other)| one < other);
    println!("{}", pairs.count());
}

fn print_bytes<T: Pixel>(plane: &Plane<T>) {
    let mut bytes = plane.byte_data();
    println!("{} {:?}", bytes.len(), bytes.size_hint());
    println!("{:?} {:?} {:?} {:?}", bytes.next(), bytes.next_back(), bytes.next_back(), bytes.len());
    let rest: Vec<u8> = bytes.collect();
    println!("{rest:?}");
    println!("{}", plane.byte_data().rev().fold(0u64, |sum, byte| sum.wrapping_mul(257).wrapping_add(u64::from(byte))));
}
