//! Counterparts of items of Rattle's standard library that differ from Rust's: fallible memory allocation, lanes, and
//! conversions of numbers.

#[cfg(feature = "std")]
pub mod buffered;
pub mod conditions;
pub mod lanes;
pub mod memory;
#[cfg(feature = "std")]
pub mod numbers;

pub use memory::AllocError;
