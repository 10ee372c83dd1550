//! Additions for Rust programs.
//!
//! Everything in this directory is written by hand and not generated from proved sources. Reading, copying and measuring pixels
//! is left to the generated code.

pub mod crop;
mod errors;
mod frames;
mod iterators;
pub mod lists;
pub mod names;
#[cfg(feature = "std")]
pub mod quality;
#[cfg(feature = "std")]
mod shown;
pub mod views;
#[cfg(feature = "std")]
pub mod y4m;
