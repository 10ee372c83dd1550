//! Uses everything that `v_frame` 0.7.0 offers, and prints the result of each call.
//!
//! The program is written for 0.7.0, as a user would write it. With the line of the dependency changed to `v_frame_proved`, and nothing
//! else, it has to build and to print the same lines: run `tools/compare-with-original --drop-in`. `original/README.md` lists what a
//! program for 0.7.0 would have to change, and this program avoids each of these forms: a `match` of the formats or of `FrameError`
//! has a last arm, no trait has methods with the names of methods of frames, and `new_uninit` is used through the traits of `uninit`.
#![allow(clippy::clone_on_copy, clippy::type_complexity, reason = "each trait is used once, and each getter as a function")]

mod bounds;
mod copies;
mod errors;
mod formats;
mod frames;
mod geometry;
mod reads;
mod samples;
mod threads;
mod uninit;
mod values;
mod writes;

use std::error::Error;

fn main() -> Result<(), Box<dyn Error>> {
    formats::print();
    geometry::print();
    frames::print()?;
    typed::<u8>("u8", 8)?;
    typed::<u16>("u16", 10)?;
    errors::print();
    threads::print()?;
    uninit::print()?;
    Ok(())
}

/// Prints the results of generic functions for pixels of type `T`.
fn typed<T: v_frame::pixel::Pixel>(name: &str, depth: u8) -> Result<(), Box<dyn Error>> {
    println!("pixels of {name}");
    bounds::print::<T>();
    samples::print::<T>();
    reads::print::<T>(depth)?;
    writes::print::<T>(depth)?;
    copies::print::<T>(depth)?;
    values::print::<T>(depth)
}
