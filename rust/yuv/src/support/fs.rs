//! Files whose names are UTF-8.

use super::HostRuntime;
use super::path::PathBuf;
use std::fs::{self, File, Metadata, Permissions};
use std::io::{self, ErrorKind, Read, Write};
use std::os::unix::fs::OpenOptionsExt;
use std::path;

/// A handle that opens files.
pub trait Files {
    /// An open file.
    type File: Read + Write + OpenFile;

    /// Opens the file with this name.
    fn open_file(&self, options: &OpenOptions, name: &str) -> io::Result<Self::File>;
}

impl Files for HostRuntime {
    type File = File;

    fn open_file(&self, options: &OpenOptions, name: &str) -> io::Result<File> {
        options.0.open(name)
    }
}

/// An open file.
pub trait OpenFile {
    /// Returns the metadata of the file.
    fn metadata(&self) -> io::Result<Metadata>;

    /// Sets the permissions of the file.
    fn set_permissions(&self, permissions: Permissions) -> io::Result<()>;

    /// Truncates the file to `len` bytes, or extends it with zeros.
    fn set_len(&self, len: u64) -> io::Result<()>;

    /// Waits until all data has been written to the disk.
    fn sync_all(&self) -> io::Result<()>;
}

impl OpenFile for File {
    fn metadata(&self) -> io::Result<Metadata> {
        File::metadata(self)
    }

    fn set_permissions(&self, permissions: Permissions) -> io::Result<()> {
        File::set_permissions(self, permissions)
    }

    fn set_len(&self, len: u64) -> io::Result<()> {
        File::set_len(self, len)
    }

    fn sync_all(&self) -> io::Result<()> {
        File::sync_all(self)
    }
}

/// The options for opening a file.
pub struct OpenOptions(fs::OpenOptions);

impl OpenOptions {
    /// Returns options that request nothing.
    pub fn new() -> Self {
        OpenOptions(fs::OpenOptions::new())
    }

    /// Requests that each write appends to the file.
    pub fn append(&mut self, append: bool) -> &mut Self {
        self.0.append(append);
        self
    }

    /// Requests write access.
    pub fn write(&mut self, write: bool) -> &mut Self {
        self.0.write(write);
        self
    }

    /// Requests a new file. Opening fails if the file exists.
    pub fn create_new(&mut self, create_new: bool) -> &mut Self {
        self.0.create_new(create_new);
        self
    }

    /// Limits the permission bits of a new file to those in `mode`.
    pub fn mode(&mut self, mode: u32) -> &mut Self {
        self.0.mode(mode);
        self
    }

    /// Opens the file with this name.
    pub fn open<H: Files>(&self, rt: &H, name: &str) -> io::Result<H::File> {
        rt.open_file(self, name)
    }
}

/// Opens a file for reading.
pub fn open<H: Files>(rt: &H, name: &str) -> io::Result<H::File> {
    let mut options = OpenOptions::new();
    options.0.read(true);
    options.open(rt, name)
}

/// Opens a file for writing. The file is created if it does not exist, and truncated otherwise.
pub fn create<H: Files>(rt: &H, name: &str) -> io::Result<H::File> {
    let mut options = OpenOptions::new();
    options.0.write(true).create(true).truncate(true);
    options.open(rt, name)
}

/// Returns the metadata of a file. Symbolic links are followed.
pub fn metadata<H: Files>(_rt: &H, name: &str) -> io::Result<Metadata> {
    fs::metadata(name)
}

/// Returns the metadata of a file, or of the symbolic link itself.
pub fn symlink_metadata<H: Files>(_rt: &H, name: &str) -> io::Result<Metadata> {
    fs::symlink_metadata(name)
}

/// Returns the absolute name of a file, with all symbolic links resolved.
///
/// # Errors
///
/// The error of the system, or [`ErrorKind::InvalidData`] if the name is not UTF-8.
pub fn canonicalize<H: Files>(_rt: &H, name: &str) -> io::Result<PathBuf> {
    utf8_name(fs::canonicalize(name)?)
}

/// Returns the name that a symbolic link contains.
///
/// # Errors
///
/// The error of the system, or [`ErrorKind::InvalidData`] if the name is not UTF-8.
pub fn read_link<H: Files>(_rt: &H, name: impl AsRef<str>) -> io::Result<PathBuf> {
    utf8_name(fs::read_link(name.as_ref())?)
}

/// Converts a name to UTF-8.
fn utf8_name(name: path::PathBuf) -> io::Result<PathBuf> {
    match name.into_os_string().into_string() {
        Ok(text) => Ok(PathBuf::from(text)),
        Err(_) => Err(io::Error::from(ErrorKind::InvalidData)),
    }
}

/// Removes a file.
pub fn remove_file<H: Files>(_rt: &H, name: &str) -> io::Result<()> {
    fs::remove_file(name)
}

/// Renames a file. An existing file with the new name is replaced.
pub fn rename<H: Files>(_rt: &H, from: &str, to: &str) -> io::Result<()> {
    fs::rename(from, to)
}

/// Returns the error of the system for too many levels of symbolic links. Its kind has no stable name in Rust.
pub fn too_many_links() -> io::Error {
    io::Error::from_raw_os_error(if cfg!(target_os = "linux") { 40 } else { 62 })
}

/// Why a file was not locked.
pub enum TryLockError {
    /// Another open file has a lock of the same file.
    WouldBlock,
    /// The system, or the `std` that this program was built with, cannot lock the file.
    #[allow(dead_code)] // Only tests read the cause.
    Error(io::Error),
}

/// Provides `try_lock` for a `std` without locks of files, which is every `std` before Rust 1.89. A later `std` has a method of
/// this name for files, and the compiler chooses a method of a type before a method of a trait.
#[allow(dead_code)] // Rust 1.89 and later do not use it.
pub trait WithoutLocks {
    /// Returns an error of the kind [`ErrorKind::Unsupported`].
    fn try_lock(&self) -> io::Result<()> {
        Err(io::Error::from(ErrorKind::Unsupported))
    }
}

impl<T> WithoutLocks for T {}

/// Locks a file for this process until it is closed. Does not wait for another lock.
///
/// # Errors
///
/// - [`TryLockError::WouldBlock`] if the file is locked.
/// - [`TryLockError::Error`] if the file cannot be locked, which is always the case if the program was built with a Rust
///   version before 1.89.
pub fn try_lock(file: &File) -> Result<(), TryLockError> {
    // The error of the method in `std` converts to an error of the system, and so does an error of the system itself.
    #[allow(clippy::incompatible_msrv, clippy::useless_conversion, unstable_name_collisions)]
    let locked = file.try_lock().map_err(io::Error::from);
    locked.map_err(|error| match error.kind() {
        ErrorKind::WouldBlock => TryLockError::WouldBlock,
        _ => TryLockError::Error(error),
    })
}
