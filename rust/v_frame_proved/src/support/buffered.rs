//! Buffered readers whose memory allocation can fail.

use super::AllocError;
use alloc::vec::Vec;
use std::io::{BufReader, Read};

/// A reader with a buffer in front of it.
pub trait TryBuffered<R>: Sized {
    /// Puts a buffer of 8192 bytes in front of a reader.
    fn try_new(reader: R) -> Result<Self, AllocError>;
}

impl<R: Read> TryBuffered<R> for BufReader<R> {
    fn try_new(reader: R) -> Result<Self, AllocError> {
        const CAPACITY: usize = 8192;
        // The constructor in `std` stops the program if memory runs out, so the allocation is tried first.
        let mut room: Vec<u8> = Vec::new();
        room.try_reserve_exact(CAPACITY).map_err(|_| AllocError)?;
        drop(room);
        Ok(BufReader::with_capacity(CAPACITY, reader))
    }
}
