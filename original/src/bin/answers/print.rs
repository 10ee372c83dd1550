//! Prints rows, frames and the results of builds.

use std::fmt::{Display, Write};
use v_frame::frame::{Frame, FrameError};
use v_frame::pixel::Pixel;
use v_frame::plane::Plane;

/// A buffer with more entries is printed as runs of equal entries.
const LONGEST_LIST: usize = 4096;

/// Prints a list, with a space before each entry.
pub fn print_list<T: Display>(items: &[T], out: &mut String) {
    let _ = write!(out, " {}", items.len());
    for item in items {
        let _ = write!(out, " {item}");
    }
}

/// Prints a row, or `-` for `None`.
pub fn print_row<T: Display>(row: Option<&[T]>, out: &mut String) {
    match row {
        Some(row) => print_list(row, out),
        None => out.push_str(" -"),
    }
}

/// Prints a pixel or a byte, or `-` for `None`.
pub fn print_option<T: Display>(item: Option<T>, out: &mut String) {
    let _ = match item {
        Some(item) => write!(out, " {item}"),
        None => write!(out, " -"),
    };
}

/// Prints the result of a build.
pub fn print_build<T: Pixel>(built: Result<Frame<T>, FrameError>, out: &mut String) {
    match built {
        Ok(frame) => {
            out.push_str("Ok\n");
            print_frame(&frame, out);
        }
        Err(FrameError::UnsupportedBitDepth { found }) => {
            let _ = writeln!(out, "Err UnsupportedBitDepth {found}");
        }
        Err(error) => {
            let _ = writeln!(out, "Err {error:?}");
        }
    }
}

/// Prints the format, the depth, and the geometry and the buffer of each plane.
pub fn print_frame<T: Pixel>(frame: &Frame<T>, out: &mut String) {
    let _ = writeln!(out, "frame {:?} {}", frame.subsampling, frame.bit_depth);
    for index in 0..3 {
        match frame.plane(index) {
            Some(plane) => print_plane(index, plane, out),
            None => {
                let _ = writeln!(out, "plane {index} -");
            }
        }
    }
}

fn print_plane<T: Pixel>(index: usize, plane: &Plane<T>, out: &mut String) {
    let geometry = plane.geometry();
    let _ = writeln!(
        out,
        "plane {index} {} {} {} {} {} {} {} {} {}",
        geometry.width(),
        geometry.height(),
        geometry.stride(),
        geometry.pad_left(),
        geometry.pad_right(),
        geometry.pad_top(),
        geometry.pad_bottom(),
        geometry.subsampling_x(),
        geometry.subsampling_y(),
    );
    let _ = write!(out, "buffer {index}");
    let entries = plane.data();
    if entries.len() > LONGEST_LIST {
        let runs: Vec<&[T]> = entries.chunk_by(|a, b| a == b).collect();
        let _ = write!(out, " runs {} {}", entries.len(), runs.len());
        for run in runs {
            let _ = write!(out, " {} {}", run.len(), run[0]);
        }
    } else {
        out.push_str(" list");
        print_list(entries, out);
    }
    out.push('\n');
}
