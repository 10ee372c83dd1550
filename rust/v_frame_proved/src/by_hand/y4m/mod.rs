//! YUV4MPEG2 streams: raw planar video after a header line that states the size, the frame rate and the color.
//!
//! ```text
//! YUV4MPEG2 W176 H144 F25:1 Ip A1:1 C420jpeg XYSCSS=420JPEG    the header line
//! FRAME                                                        a line before each frame
//! ...                                                          the planar bytes: Y, then U, then V
//! ```
//!
//! A [`Decoder`] reads frames from any reader, and an [`Encoder`] writes frames to any writer. These two types, [`VideoFrame`],
//! [`StreamError`] and the methods that create and change a [`StreamHeader`] are written by hand. Everything else in this
//! module is generated from proved sources, including the functions that read and write the lines and the pixels.
//!
//! ```
//! use v_frame_proved::y4m::{Decoder, Encoder};
//!
//! let input = &b"YUV4MPEG2 W2 H2 F25:1 Cmono\nFRAME\nabcd"[..];
//! let decoder = Decoder::new(input)?;
//! let mut header = decoder.header().clone();
//! header.width = 1;
//! let mut encoder = Encoder::new(Vec::new(), header)?;
//! for frame in decoder {
//!     encoder.write_frame(&frame?.crop(0, 0, 1, 2)?)?;
//! }
//! assert_eq!(encoder.finish()?, b"YUV4MPEG2 W1 H2 F25:1 Cmono\nFRAME\nac");
//! # Ok::<(), Box<dyn std::error::Error>>(())
//! ```

mod decoder;
mod encoder;
mod error;
mod frame;
mod header;
mod kept;

pub use crate::generated::v_frame_y4m::*;
pub use decoder::Decoder;
pub use encoder::Encoder;
pub use error::StreamError;
pub use frame::VideoFrame;
