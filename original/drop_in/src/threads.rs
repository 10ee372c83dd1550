//! Shares planes and frames between threads.

use crate::frames::numbered;
use std::error::Error;
use std::panic::{RefUnwindSafe, UnwindSafe};
use std::sync::{Arc, Mutex};
use std::thread;
use v_frame::chroma::ChromaSubsampling;
use v_frame::frame::{Frame, FrameBuilder, FrameError};
use v_frame::pixel::Pixel;
use v_frame::plane::{CopyError, Plane, PlaneGeometry, SubsamplingError};

/// Frames of both pixel types, as a decoder returns them.
enum AnyFrame {
    Eight(Frame<u8>),
    More(Frame<u16>),
}

/// Prints sums that threads compute.
pub fn print() -> Result<(), Box<dyn Error>> {
    shared::<Plane<u8>>();
    shared::<Frame<u16>>();
    shared::<(FrameBuilder, ChromaSubsampling, PlaneGeometry)>();
    shared::<(FrameError, CopyError, SubsamplingError)>();
    for frame in [AnyFrame::Eight(numbered(8)?), AnyFrame::More(numbered(12)?)] {
        println!("{}", match frame {
            AnyFrame::Eight(frame) => sum_by_threads(frame),
            AnyFrame::More(frame) => sum_by_threads(frame),
        });
    }
    println!("{}", filled_by_threads(numbered::<u16>(10)?));
    Ok(())
}

/// Compiles only if threads can share the type, and if it can leave a caught panic.
fn shared<T: Send + Sync + Unpin + UnwindSafe + RefUnwindSafe + 'static>() {}

fn sum_by_threads<T: Pixel>(frame: Frame<T>) -> u64 {
    let (frame, sum) = (Arc::new(frame), Arc::new(Mutex::new(0)));
    let threads = (0..3).map(|index| {
        let (frame, sum) = (Arc::clone(&frame), Arc::clone(&sum));
        thread::spawn(move || {
            let pixels = frame.plane(index).into_iter().flat_map(|plane| plane.pixels());
            let part: u64 = pixels.map(|pixel| u64::from(pixel.into())).sum();
            *sum.lock().unwrap_or_else(|broken| broken.into_inner()) += part;
        })
    });
    for thread in threads.collect::<Vec<_>>() {
        let _ = thread.join();
    }
    let sum = sum.lock().unwrap_or_else(|broken| broken.into_inner());
    *sum
}

/// Fills each row of the planes in a separate thread.
fn filled_by_threads<T: Pixel>(mut frame: Frame<T>) -> u64 {
    let Frame { y_plane, u_plane, v_plane, .. } = &mut frame;
    let planes = [Some(y_plane), u_plane.as_mut(), v_plane.as_mut()];
    thread::scope(|scope| {
        for (number, row) in planes.into_iter().flatten().flat_map(Plane::rows_mut).enumerate() {
            scope.spawn(move || row.fill(T::from(number as u8)));
        }
    });
    sum_by_threads(frame)
}
