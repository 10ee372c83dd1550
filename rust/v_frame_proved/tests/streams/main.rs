//! Streams that `y4m::Decoder` reads and `y4m::Encoder` writes, with regular and irregular readers and writers, pictures of
//! `streams::Source`, and the contents of its errors.
#![cfg(feature = "std")]

mod causes;
mod copies;
mod decoding;
mod encoding;
mod frames;
mod stepping;

/// A small stream: 3 by 1 pixels in 8-bit 4:2:0, which are 7 bytes for each frame.
pub const SMALL: &[u8] = b"YUV4MPEG2 W3 H1 F25:1 C420jpeg\nFRAME\nabcdefgFRAME\nhijklmnFRAME\nopqrstu";

/// The position of the first byte of SMALL after its header.
pub const FIRST_FRAME: usize = 31;
