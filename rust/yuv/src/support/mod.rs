//! The interface of a program to the system, with the names and signatures that the sources use: a handle is passed to every
//! function that opens a file or reads the clock.
//!
//! This module is written by hand over the `std` of Rust.

pub mod env;
pub mod fs;
pub mod path;
pub mod time;

use std::fs::File;
use std::io;
use std::os::fd::AsFd;

/// The handle of a program to the operating system.
///
/// It has its own copies of the standard streams as files. The streams of `std` buffer their output, and report success for a
/// write to a stream that is closed.
pub struct HostRuntime {
    input: File,
    output: File,
    error: File,
}

impl HostRuntime {
    /// Takes the standard streams.
    ///
    /// # Errors
    ///
    /// The error of the system if no more files can be opened.
    pub fn new() -> io::Result<Self> {
        Ok(HostRuntime {
            input: file_of(io::stdin())?,
            output: file_of(io::stdout())?,
            error: file_of(io::stderr())?,
        })
    }

    /// Returns standard input, without a buffer.
    pub fn stdin(&self) -> &File {
        &self.input
    }

    /// Returns standard output, without a buffer.
    pub fn stdout(&self) -> &File {
        &self.output
    }

    /// Returns standard error, without a buffer.
    pub fn stderr(&self) -> &File {
        &self.error
    }
}

/// Returns a stream as a file.
fn file_of(stream: impl AsFd) -> io::Result<File> {
    Ok(File::from(stream.as_fd().try_clone_to_owned()?))
}
