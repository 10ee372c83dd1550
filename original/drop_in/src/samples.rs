//! Declares a user's trait beside `Pixel`, with different names.

use v_frame::frame::Frame;
use v_frame::pixel::Pixel;
use v_frame::plane::Plane;

/// The operations that a user's program needs of a pixel.
trait Sample: Sized {
    const ZERO: Self;
    const BYTES: usize;

    fn from_u8(byte: u8) -> Self;
    fn into_u16(self) -> u16;
    fn try_from_u16(value: u16) -> Option<Self>;
    fn halve_rows(row: &mut [Self]);
    fn sum_of_absolute_differences(one: &[Self], other: &[Self]) -> u64;
}

macro_rules! sample {
    ($type:ty) => {
        impl Sample for $type {
            const ZERO: Self = 0;
            const BYTES: usize = size_of::<$type>();

            fn from_u8(byte: u8) -> Self {
                byte.into()
            }

            fn into_u16(self) -> u16 {
                self.into()
            }

            fn try_from_u16(value: u16) -> Option<Self> {
                Self::try_from(value).ok()
            }

            fn halve_rows(row: &mut [Self]) {
                for pixel in row {
                    *pixel /= 2;
                }
            }

            fn sum_of_absolute_differences(one: &[Self], other: &[Self]) -> u64 {
                one.iter().zip(other).map(|(one, other)| u64::from(one.abs_diff(*other))).sum()
            }
        }
    };
}

sample!(u8);
sample!(u16);

/// A user's call on each plane.
trait Halve {
    fn halve(&mut self);
}

impl<T: Pixel + Sample> Halve for Plane<T> {
    fn halve(&mut self) {
        self.rows_mut().for_each(T::halve_rows);
    }
}

impl<T: Pixel + Sample> Halve for Frame<T> {
    fn halve(&mut self) {
        self.y_plane.halve();
        for plane in [&mut self.u_plane, &mut self.v_plane].into_iter().flatten() {
            plane.halve();
        }
    }
}

/// Prints frames that a user's traits change.
pub fn print<T: Pixel>() {
    if size_of::<T>() == 1 {
        print_halved::<u8>(8);
    } else {
        print_halved::<u16>(12);
    }
}

fn print_halved<T: Pixel + Sample>(depth: u8) {
    let Ok(mut frame) = crate::frames::numbered::<T>(depth) else {
        return;
    };
    let before = frame.clone();
    frame.halve();
    let rows = frame.y_plane.rows().zip(before.y_plane.rows());
    println!("{}", rows.map(|(one, other)| T::sum_of_absolute_differences(one, other)).sum::<u64>());
    println!("{} {} {:?}", T::from_u8(7).into_u16(), T::BYTES, T::try_from_u16(300).map(|pixel| pixel != T::ZERO));
}
