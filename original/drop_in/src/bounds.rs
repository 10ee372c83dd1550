//! Uses the bounds that a generic function may put on a pixel.

use std::any::type_name;
use std::collections::{BTreeSet, HashSet};
use std::error::Error;
use std::fmt::{Binary, Debug, Display, LowerExp, LowerHex, Octal, UpperExp, UpperHex};
use std::hash::Hash;
use v_frame::pixel::Pixel;

/// Prints pixels of a type in each way that the trait provides.
pub fn print<T: Pixel>() {
    for number in [0, 1, 9, 255] {
        let pixel: T = T::from(number);
        print_formats(pixel);
        println!("{} {:?}", u64::from(pixel.into()), byte_of(pixel));
    }
    for number in [0, 255, 256, u16::MAX] {
        match T::try_from(number) {
            Ok(pixel) => println!("{pixel} {:?}", byte_of(pixel).is_ok()),
            Err(error) => println!("no pixel: {error}"),
        }
    }
    print_set::<T>();
    print_sum::<T>(&[T::from(250), T::from(7), T::default()]);
    println!("{} {}", type_name::<T>(), size_of::<T>());
}

/// Returns the byte of a pixel, or the text of the error.
fn byte_of<T: Pixel>(pixel: T) -> Result<u8, String> {
    pixel.try_into().map_err(|error| text_of(&error))
}

fn text_of(error: &dyn Error) -> String {
    error.to_string()
}

fn print_formats<T>(pixel: T)
where
    T: Display + Debug + Octal + LowerHex + UpperHex + LowerExp + UpperExp + Binary,
{
    println!("{pixel} {pixel:?} {pixel:#o} {pixel:x} {pixel:X} {pixel:e} {pixel:E} {pixel:b} {pixel:>5}");
}

fn print_set<T: Default + Ord + Hash + Copy + From<u8> + Debug + Send + Sync + 'static>() {
    let pixels = [T::from(3), T::default(), T::from(2), T::from(3)];
    println!("{:?} {}", pixels.iter().collect::<BTreeSet<_>>(), pixels.into_iter().collect::<HashSet<T>>().len());
    println!("{:?} {:?}", pixels.iter().max(), pixels[0].clamp(T::from(1), T::from(2)));
}

/// Checks that the compiler infers the type of the number from `Pixel`.
fn print_sum<T: Pixel>(pixels: &[T]) {
    let sum: u64 = pixels.iter().map(|&pixel| pixel.into()).map(u64::from).sum();
    let mean = pixels.iter().map(|pixel| f64::from((*pixel).into())).sum::<f64>() / pixels.len() as f64;
    println!("{sum} {mean:.3} {}", i32::from(pixels[0].into()) - i32::from(pixels[1].into()));
}
