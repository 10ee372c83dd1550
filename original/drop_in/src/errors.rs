//! Uses errors: their texts and their variants.

use std::collections::HashSet;
use std::error::Error;
use std::hash::Hash;
use v_frame::chroma::ChromaSubsampling;
use v_frame::frame::{FrameBuilder, FrameError};
use v_frame::plane::CopyError;

/// An error of a user's program.
#[derive(Debug, Clone, Copy, PartialEq, Eq, Hash)]
enum ReadError {
    Frame(FrameError),
    Copy(CopyError),
}

impl From<FrameError> for ReadError {
    fn from(error: FrameError) -> Self {
        ReadError::Frame(error)
    }
}

impl From<CopyError> for ReadError {
    fn from(error: CopyError) -> Self {
        ReadError::Copy(error)
    }
}

/// Prints the errors of both types.
pub fn print() {
    let frames = [FrameError::UnsupportedBitDepth { found: 17 }, FrameError::DataTypeMismatch, FrameError::UnsupportedResolution];
    print_errors(frames);
    let copies = [CopyError::DataLength { expected: 12, found: 11 }, CopyError::InvalidStride { stride: 3, width: 4 }];
    print_errors(copies);
    for error in frames {
        println!("{}", reason(error));
    }
    for (depth, length) in [(8, 4), (8, 3), (7, 4), (9, 4)] {
        println!("{:?}", read(depth, length));
    }
    let boxed: Box<dyn Error + Send + Sync> = Box::new(frames[0]);
    println!("{boxed} {:?}", boxed.downcast_ref::<FrameError>());
}

fn print_errors<E: Error + Copy + Eq + Hash, const N: usize>(errors: [E; N]) {
    let different: HashSet<E> = errors.into_iter().chain(errors).collect();
    println!("{}", different.len());
    for error in errors {
        println!("{error} {error:?} {error:#?} {} {}", error.source().is_none(), error == error.clone());
    }
}

/// The last arm is for errors that a later version may add.
#[allow(unreachable_patterns)]
fn reason(error: FrameError) -> String {
    match error {
        FrameError::UnsupportedBitDepth { found } => format!("depth {found}"),
        FrameError::DataTypeMismatch => "type".to_string(),
        FrameError::UnsupportedResolution => "size".to_string(),
        _ => "other".to_string(),
    }
}

/// Reads a plane of bytes, as a user's function would.
fn read(depth: u8, length: usize) -> Result<usize, ReadError> {
    let mut frame = FrameBuilder::new(2, 2, ChromaSubsampling::Monochrome, depth).build::<u8>()?;
    frame.y_plane.copy_from_slice(&[1, 2, 3, 4][..length])?;
    Ok(frame.y_plane.pixels().map(usize::from).sum())
}
