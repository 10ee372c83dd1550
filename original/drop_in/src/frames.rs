//! Builds frames.

use crate::formats::FORMATS;
use std::error::Error;
use std::num::NonZeroU8;
use v_frame::chroma::ChromaSubsampling;
use v_frame::frame::{Frame, FrameBuilder, FrameError};
use v_frame::pixel::Pixel;
use v_frame::plane::Plane;

/// The setters, each as a function.
const SETTERS: [fn(FrameBuilder, usize) -> FrameBuilder; 4] = [
    FrameBuilder::luma_padding_left,
    FrameBuilder::luma_padding_right,
    FrameBuilder::luma_padding_top,
    FrameBuilder::luma_padding_bottom,
];

/// Builds a frame of 8 by 4 with a border. Each entry of the buffer of a plane has another value.
pub fn numbered<T: Pixel>(depth: u8) -> Result<Frame<T>, FrameError> {
    let mut frame = FrameBuilder::new(8, 4, ChromaSubsampling::Yuv420, depth)
        .luma_padding_left(2)
        .luma_padding_right(4)
        .luma_padding_top(2)
        .luma_padding_bottom(6)
        .build::<T>()?;
    for index in 0..3 {
        let entries = frame.plane_mut(index).into_iter().flat_map(|plane| plane.data_mut());
        for (entry, number) in entries.zip(1u8..) {
            *entry = T::from(number);
        }
    }
    Ok(frame)
}

/// Prints frames of each format, their parts, and the errors of builds.
pub fn print() -> Result<(), Box<dyn Error>> {
    for format in FORMATS {
        let frame = FrameBuilder::new(4, 2, format, 8).build::<u8>()?;
        print_planes(&frame);
        let frame: Frame<u16> = FrameBuilder::new(4, 2, format, 16).luma_padding_top(2).build()?;
        print_planes(&frame);
    }
    for (number, setter) in SETTERS.into_iter().enumerate() {
        let builder = setter(FrameBuilder::new(6, 4, ChromaSubsampling::Yuv422, 12), 2);
        println!("setter {number}: {:?}", builder.build::<u16>()?.y_plane.geometry());
    }
    print_refused();
    print_parts(numbered(8)?)
}

fn print_planes<T: Pixel>(frame: &Frame<T>) {
    println!("{:?} {}", frame.subsampling, frame.bit_depth);
    for index in [0, 1, 2, 3, usize::MAX] {
        let plane: Option<&Plane<T>> = frame.plane(index);
        println!("  {index}: {:?}", plane.map(|it| (it.width(), it.height(), it.data().len(), it.geometry())));
    }
}

/// Prints the errors of builds with these numbers.
fn print_refused() {
    let yuv420 = ChromaSubsampling::Yuv420;
    let bytes = |width, height, depth| FrameBuilder::new(width, height, yuv420, depth).build::<u8>().map(drop);
    let words = |width, height, depth| FrameBuilder::new(width, height, yuv420, depth).build::<u16>().map(drop);
    for depth in [0, 7, 8, 9, 16, 17, u8::MAX] {
        println!("depth {depth}: {:?} {:?}", bytes(4, 4, depth), words(4, 4, depth));
    }
    for (width, height) in [(0, 4), (4, 0), (5, 4), (4, 5), (6, 2)] {
        println!("{width} by {height}: {:?} {:?}", bytes(width, height, 8), words(width, height, 9));
    }
    let padded = FrameBuilder::new(4, 4, yuv420, 8).luma_padding_bottom(3).build::<u8>();
    println!("{:?} {}", padded, padded == Err(FrameError::UnsupportedResolution));
    let odd = FrameBuilder::new(5, 3, ChromaSubsampling::Yuv444, 8).luma_padding_bottom(3).build::<u8>();
    println!("{}", odd.is_ok_and(|it| it.u_plane.is_some_and(|plane| plane.width() == 5)));
}

/// Prints a frame that is taken apart and put together again.
fn print_parts(frame: Frame<u8>) -> Result<(), Box<dyn Error>> {
    let mut gray = Frame { u_plane: None, v_plane: None, subsampling: ChromaSubsampling::Monochrome, ..frame.clone() };
    print_planes(&gray);
    let Frame { y_plane, u_plane, v_plane, subsampling, bit_depth } = frame;
    let depth: NonZeroU8 = bit_depth;
    println!("{subsampling:?} {depth} {:?}", u_plane.as_ref().map(Plane::width));
    gray.u_plane = v_plane;
    gray.v_plane = u_plane.clone();
    gray.bit_depth = NonZeroU8::new(10).ok_or("10 is not 0")?;
    std::mem::swap(&mut gray.u_plane, &mut gray.v_plane);
    println!("{} {:?}", gray.u_plane == u_plane, gray.v_plane.take().map(|plane| plane.height()));
    if let Some(plane) = gray.plane_mut(0) {
        *plane = y_plane;
        plane.row_mut(0).ok_or("no row 0")?.fill(77);
    }
    println!("{:?}", gray.plane_mut(2));
    println!("{}", gray.plane_mut(3).is_none());
    println!("{gray:?}");
    Ok(())
}
