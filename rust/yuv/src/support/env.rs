//! The arguments of the program.

use super::HostRuntime;
use std::io::{self, ErrorKind};

/// Returns the arguments. The first one is the name of the program.
///
/// # Errors
///
/// [`ErrorKind::InvalidData`] if an argument is not UTF-8.
pub fn args(_rt: &HostRuntime) -> io::Result<impl Iterator<Item = String> + use<>> {
    let mut all = Vec::new();
    for argument in std::env::args_os() {
        match argument.into_string() {
            Ok(text) => all.push(text),
            Err(_) => return Err(io::Error::from(ErrorKind::InvalidData)),
        }
    }
    Ok(all.into_iter())
}
