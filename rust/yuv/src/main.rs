//! The program `yuv`: prints information about raw video streams, compares and copies them, prints statistics, and writes
//! pictures.
//!
//! It runs on Unix only, because it uses inode numbers to recognize files that have two names.
#![forbid(unsafe_code)]
// The sources are translated as they were written for the prover. These lints would suggest other forms.
#![allow(
    clippy::drop_non_drop,
    clippy::enum_variant_names,
    clippy::explicit_auto_deref,
    clippy::large_enum_variant,
    clippy::manual_checked_ops,
    clippy::manual_find,
    clippy::manual_map,
    clippy::manual_ok_err,
    clippy::manual_range_contains,
    clippy::match_like_matches_macro,
    clippy::needless_borrows_for_generic_args,
    clippy::needless_question_mark,
    clippy::needless_range_loop,
    clippy::type_complexity
)]

#[cfg(not(unix))]
compile_error!("`yuv` tells files that have two names by their numbers, which Unix has");

mod support;

// Other programs made from the sources use more of these libraries.
#[allow(dead_code, unused_imports)]
mod generated {
    pub mod yuv;
    pub mod yuv_commands;
    pub mod yuv_comparisons;
    pub mod yuv_copies;
    pub mod yuv_facts;
    pub mod yuv_files;
    pub mod yuv_pictures;
    pub mod yuv_reports;
    pub mod yuv_system;
    pub mod yuv_words;
}

#[cfg(test)]
mod tests;

use std::io::{self, Write};
use std::process::ExitCode;
use support::HostRuntime;

fn main() -> ExitCode {
    match HostRuntime::new() {
        Ok(rt) => generated::yuv::main(rt),
        Err(error) => {
            // If the message cannot be written, the exit status still reports the error.
            let _ = writeln!(io::stderr(), "yuv: {error}");
            ExitCode::from(2)
        }
    }
}
