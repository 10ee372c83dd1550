//! Lanes: several numbers on which one operation works at once.
//!
//! They are arrays, and each operation is a plain loop that the compiler turns into packed instructions. Sums and products
//! never overflow, which is proved. With overflow checks an overflow would panic.

#![allow(non_camel_case_types)]

use core::ops::{Add, BitAnd, Div, Mul, Neg, Shl, Shr};
use core::sync::atomic::{Ordering, compiler_fence};

/// `N` numbers.
///
/// They are aligned. Otherwise a call would pass a few of them as a single number, which the compiler would not turn into lanes
/// again.
#[derive(Debug, Clone, Copy)]
#[repr(align(32))]
pub struct Simd<T, const N: usize>([T; N]);

pub type u8x16 = Simd<u8, 16>;
pub type u8x32 = Simd<u8, 32>;
pub type u16x8 = Simd<u16, 8>;
pub type u16x16 = Simd<u16, 16>;
pub type u32x8 = Simd<u32, 8>;
pub type f32x8 = Simd<f32, 8>;

/// Keeps the compiler from vectorizing the loop around the lanes instead of the lanes themselves. It compiles to no
/// instruction.
#[inline(always)]
fn end_loads() {
    compiler_fence(Ordering::AcqRel);
}

/// A number that can be a lane.
pub trait Lane: Copy + Default {}

impl Lane for f32 {}

/// An integer that can be a lane.
pub trait Whole: Lane + Ord {
    /// Returns the absolute difference of two numbers.
    fn distance(self, other: Self) -> Self;
}

/// A number that can be converted from another type.
pub trait CastFrom<T>: Lane {
    /// Converts the number, which fits. That is proved.
    fn cast_from(number: T) -> Self;
}

macro_rules! lanes_of {
    ($number:ty: $($from:ty),*) => {
        impl Lane for $number {}

        impl Whole for $number {
            #[inline(always)]
            fn distance(self, other: Self) -> Self {
                // With `abs_diff`, the compiler computes squares in lanes of the wide type, which takes more than twice as long
                // for bytes.
                self.max(other) - self.min(other)
            }
        }
        $(
            impl CastFrom<$from> for $number {
                #[inline(always)]
                fn cast_from(number: $from) -> Self {
                    number as Self
                }
            }
        )*
    };
}

lanes_of!(u8: u8, u16, u32);
lanes_of!(u16: u8, u16, u32);
lanes_of!(u32: u8, u16, u32);
lanes_of!(u64: u8, u16, u32);

impl CastFrom<u32> for f32 {
    #[inline(always)]
    fn cast_from(number: u32) -> Self {
        number as Self
    }
}

macro_rules! operation {
    ($operation:ident, $name:ident, $symbol:tt) => {
        impl<T: Lane + $operation<Output = T>, const N: usize> $operation for Simd<T, N> {
            type Output = Self;

            #[inline(always)]
            fn $name(mut self, other: Self) -> Self {
                for lane in 0..N {
                    self.0[lane] = self.0[lane] $symbol other.0[lane];
                }
                self
            }
        }
    };
}

operation!(Add, add, +);
operation!(Mul, mul, *);
operation!(Div, div, /);
operation!(BitAnd, bitand, &);

macro_rules! shift {
    ($operation:ident, $name:ident, $symbol:tt) => {
        impl<T: Lane + $operation<u32, Output = T>, const N: usize> $operation<u32> for Simd<T, N> {
            type Output = Self;

            #[inline(always)]
            fn $name(mut self, bits: u32) -> Self {
                for lane in 0..N {
                    self.0[lane] = self.0[lane] $symbol bits;
                }
                self
            }
        }
    };
}

shift!(Shl, shl, <<);
shift!(Shr, shr, >>);

impl<T: Lane + Neg<Output = T>, const N: usize> Neg for Simd<T, N> {
    type Output = Self;

    #[inline(always)]
    fn neg(mut self) -> Self {
        for lane in 0..N {
            self.0[lane] = -self.0[lane];
        }
        self
    }
}

/// A boolean for each lane.
#[derive(Debug, Clone, Copy)]
pub struct Mask<const N: usize>([bool; N]);

impl<const N: usize> Mask<N> {
    /// Returns the numbers of `one` in the lanes that the mask selects, and those of `other` in the rest.
    #[inline(always)]
    pub fn select<T: Lane>(self, one: Simd<T, N>, mut other: Simd<T, N>) -> Simd<T, N> {
        for lane in 0..N {
            other.0[lane] = if self.0[lane] { one.0[lane] } else { other.0[lane] };
        }
        other
    }
}

impl<T: Lane, const N: usize> Simd<T, N> {
    /// Returns the first `N` numbers of a slice.
    #[inline(always)]
    pub fn from_slice(numbers: &[T]) -> Self {
        let numbers = &numbers[..N];
        let mut lanes = [T::default(); N];
        if N == 8 {
            // Number by number: a copy of eight bytes at once would be a single number to the compiler.
            lanes[0] = numbers[0];
            lanes[1] = numbers[1];
            lanes[2] = numbers[2];
            lanes[3] = numbers[3];
            lanes[4] = numbers[4];
            lanes[5] = numbers[5];
            lanes[6] = numbers[6];
            lanes[7] = numbers[7];
        } else {
            lanes.copy_from_slice(numbers);
        }
        Simd(lanes)
    }

    /// Returns lanes that all have the same number.
    #[inline(always)]
    pub fn splat(number: T) -> Self {
        Simd([number; N])
    }

    /// Returns the numbers.
    #[inline(always)]
    pub fn to_array(self) -> [T; N] {
        self.0
    }

    /// Copies the numbers to the first `N` entries of a slice.
    #[inline(always)]
    pub fn copy_to_slice(self, numbers: &mut [T]) {
        numbers[..N].copy_from_slice(&self.0);
    }

    /// Converts the numbers to another type.
    #[inline(always)]
    pub fn cast<U: CastFrom<T>>(self) -> Simd<U, N> {
        let mut lanes = [U::default(); N];
        for lane in 0..N {
            lanes[lane] = U::cast_from(self.0[lane]);
        }
        Simd(lanes)
    }
}

impl<T: Whole, const N: usize> Simd<T, N> {
    /// Returns the absolute differences lane by lane.
    #[inline(always)]
    pub fn abs_diff(mut self, other: Self) -> Self {
        for lane in 0..N {
            self.0[lane] = self.0[lane].distance(other.0[lane]);
        }
        end_loads();
        self
    }

    /// Returns the lanes whose number is at least that of `other`.
    #[inline(always)]
    pub fn simd_ge(self, other: Self) -> Mask<N> {
        let mut lanes = [false; N];
        for lane in 0..N {
            lanes[lane] = self.0[lane] >= other.0[lane];
        }
        Mask(lanes)
    }
}

impl<T: Lane + Add<Output = T>, const N: usize> Simd<T, N> {
    /// Returns the sum of the lanes. It does not overflow, which is proved.
    #[inline(always)]
    pub fn strict_reduce_sum(self) -> T {
        let mut sum = T::default();
        for lane in 0..N {
            sum = sum + self.0[lane];
        }
        sum
    }
}

impl Simd<u16, 8> {
    /// Returns the numbers with these bytes, in little-endian order.
    #[inline(always)]
    pub fn from_le_bytes(bytes: u8x16) -> Self {
        let mut lanes = [0; 8];
        for lane in 0..8 {
            lanes[lane] = u16::from_le_bytes([bytes.0[2 * lane], bytes.0[2 * lane + 1]]);
        }
        Simd(lanes)
    }
}

impl Simd<u16, 16> {
    /// Returns the numbers with these bytes, in little-endian order.
    #[inline(always)]
    pub fn from_le_bytes(bytes: u8x32) -> Self {
        let mut lanes = [0; 16];
        for lane in 0..16 {
            lanes[lane] = u16::from_le_bytes([bytes.0[2 * lane], bytes.0[2 * lane + 1]]);
        }
        end_loads();
        Simd(lanes)
    }

    /// Returns the bytes of the numbers, in little-endian order.
    #[inline(always)]
    pub fn to_le_bytes(self) -> u8x32 {
        let mut lanes = [0; 32];
        for lane in 0..16 {
            let bytes = self.0[lane].to_le_bytes();
            lanes[2 * lane] = bytes[0];
            lanes[2 * lane + 1] = bytes[1];
        }
        Simd(lanes)
    }
}

impl Simd<u32, 8> {
    /// Returns the numbers with these bytes, in little-endian order.
    #[inline(always)]
    pub fn from_le_bytes(bytes: u8x32) -> Self {
        let mut lanes = [0; 8];
        for lane in 0..8 {
            let at = 4 * lane;
            let four = [bytes.0[at], bytes.0[at + 1], bytes.0[at + 2], bytes.0[at + 3]];
            lanes[lane] = u32::from_le_bytes(four);
        }
        end_loads();
        Simd(lanes)
    }
}
