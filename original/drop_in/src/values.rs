//! Uses planes and frames as values: clones, equality and debug texts.

use crate::frames::numbered;
use std::error::Error;
use std::sync::Arc;
use v_frame::frame::Frame;
use v_frame::pixel::Pixel;
use v_frame::plane::Plane;

/// A frame in a user's type.
#[derive(Debug, Clone, PartialEq, Eq)]
struct Shown<T: Pixel> {
    number: u64,
    frame: Arc<Frame<T>>,
    mask: Option<Plane<T>>,
}

/// Prints frames that are cloned, changed and compared.
pub fn print<T: Pixel>(depth: u8) -> Result<(), Box<dyn Error>> {
    let frame = numbered::<T>(depth)?;
    let mut other: Frame<T> = frame.clone();
    println!("{} {:?}", frame == other, frame);
    println!("{:#?}", other.v_plane);
    other.y_plane.data_mut()[0] = T::from(99);
    println!("{} {}", frame == other, frame.u_plane == other.u_plane);
    let luma: Plane<T> = other.y_plane.clone();
    println!("{} {}", luma == other.y_plane, luma != frame.y_plane);
    other.y_plane.clone_from(&frame.y_plane);
    println!("{}", frame.eq(&other));
    for plane in [&frame.y_plane, &luma, &other.y_plane] {
        println!("{}", plane.data().as_ptr().addr() % 64);
    }
    let shown = Shown { number: 1, mask: frame.u_plane.clone(), frame: Arc::new(frame) };
    println!("{} {:?}", shown == shown.clone(), Shown { number: 2, ..shown.clone() });
    println!("{}", shown.mask == other.v_plane);
    Ok(())
}
