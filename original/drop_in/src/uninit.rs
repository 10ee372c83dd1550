//! Fills planes entry by entry before they are read.
//!
//! The crates differ only here. `new_uninit` returns a plane of `MaybeUninit`, or a `Result` with a plane of options; `assume_init`
//! returns a plane, or a `Result`. A program that names these types has to be changed. This program uses them through two traits, so
//! it builds over both crates.

use std::error::Error;
use std::fmt::Debug;
use std::mem::MaybeUninit;
use v_frame::plane::{Plane, PlaneGeometry};

/// An entry into which a value is written.
trait Empty<T> {
    fn put(&mut self, value: T);
}

impl<T> Empty<T> for MaybeUninit<T> {
    fn put(&mut self, value: T) {
        self.write(value);
    }
}

impl<T> Empty<T> for Option<T> {
    fn put(&mut self, value: T) {
        *self = Some(value);
    }
}

/// A plane, or a `Result` with a plane.
trait Given<P> {
    fn given(self) -> Option<P>;
}

impl<T> Given<Plane<T>> for Plane<T> {
    fn given(self) -> Option<Plane<T>> {
        Some(self)
    }
}

impl<P, E> Given<P> for Result<P, E> {
    fn given(self) -> Option<P> {
        self.ok()
    }
}

/// Prints planes after each entry was written.
pub fn print() -> Result<(), Box<dyn Error>> {
    let geometry = PlaneGeometry::new(3, 2, 1, 0, 0, 1, 1, 1).ok_or("no geometry")?;
    print_filled(geometry, |number| number as u8);
    print_filled(geometry, |number| number as u16 * 1000);
    print_filled(geometry, |number| (number, "x".repeat(number)));
    let plane = filled(geometry, |number| number as u16 * 300).ok_or("no memory")?;
    println!("{:?} {:?} {:?}", plane.row(1), plane.pixel(2, 1), plane.byte_data().collect::<Vec<_>>());
    Ok(())
}

fn print_filled<T: Debug + Clone + PartialEq>(geometry: PlaneGeometry, value: impl Fn(usize) -> T) {
    let Some(mut plane) = filled(geometry, value) else {
        return;
    };
    println!("{plane:?} {:?}", plane.data());
    plane.data_mut().reverse();
    println!("{:?} {:?} {} {}", plane.data().first(), plane.geometry() == geometry, plane.width(), plane.height());
}

/// Returns a plane whose entries are computed from their indexes.
fn filled<T>(geometry: PlaneGeometry, value: impl Fn(usize) -> T) -> Option<Plane<T>> {
    let mut plane = Plane::<T>::new_uninit(geometry).given()?;
    for (number, entry) in plane.data_mut().iter_mut().enumerate() {
        entry.put(value(number));
    }
    // SAFETY: each entry was written.
    #[allow(unused_unsafe)]
    let plane = unsafe { plane.assume_init() };
    plane.given()
}
