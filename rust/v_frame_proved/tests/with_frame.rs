//! The macro `with_frame!`, with frames of both pixel types, by value and by reference.

#![cfg(feature = "std")]

use v_frame_proved::chroma::ChromaSubsampling;
use v_frame_proved::crop::CropError;
use v_frame_proved::frame::Frame;
use v_frame_proved::pixel::Pixel;
use v_frame_proved::with_frame;
use v_frame_proved::y4m::{Color, StreamHeader, VideoFrame};

/// Returns a blank frame of 4 by 2 pixels in 4:2:0.
fn blank(bit_depth: u8) -> VideoFrame {
    let siting = (bit_depth == 8).then_some(v_frame_proved::y4m::ChromaSiting::Center);
    let color = Color::new(ChromaSubsampling::Yuv420, bit_depth, siting).expect("a color");
    VideoFrame::blank(&StreamHeader::new(4, 2, color)).expect("memory")
}

/// Returns the number of bytes of a pixel and the number of pixels of all planes.
fn sizes<T: Pixel>(frame: &Frame<T>) -> (usize, usize) {
    (size_of::<T>(), frame.planes().map(|plane| plane.pixels().count()).sum())
}

/// Returns the width of a part of a frame. An error leaves the function from inside the macro.
fn part_width(video: &VideoFrame, width: usize) -> Result<usize, CropError> {
    Ok(with_frame!(video, |frame| frame.crop(2, 0, width, 2)?.width()))
}

#[test]
fn the_expression_is_compiled_for_both_pixel_types() {
    for (bit_depth, bytes) in [(8, 1), (10, 2), (16, 2)] {
        let mut video = blank(bit_depth);
        assert_eq!(with_frame!(&video, |frame| sizes(frame)), (bytes, 4 * 2 + 2 * 2));
        with_frame!(&mut video, |frame| for (plane, value) in frame.planes_mut().zip(1..) {
            plane.pixels_mut().for_each(|pixel| *pixel = value);
        });
        let sums = with_frame!(&video, |frame| frame
            .planes()
            .map(|plane| plane.pixels().map(u64::from).sum::<u64>())
            .collect::<Vec<_>>(),);
        assert_eq!(sums, [8, 2 * 2, 2 * 3]);
        assert_eq!((part_width(&video, 2), part_width(&video, 3)), (Ok(2), Err(CropError::Outside)));
        let moved = with_frame!(video, |frame| VideoFrame::from(frame));
        assert_eq!(moved.bit_depth(), bit_depth);
    }
}

#[test]
fn two_frames_must_have_one_pixel_type() {
    let (eight, ten, twelve) = (blank(8), blank(10), blank(12));
    for (a, b, wanted) in [
        (&eight, &eight, Some((8, 8))),
        (&ten, &twelve, Some((10, 12))),
        (&eight, &ten, None),
        (&twelve, &eight, None),
    ] {
        assert_eq!(with_frame!(a, b, |a, b| (a.bit_depth.get(), b.bit_depth.get())), wanted);
    }
    let mut target = blank(10);
    let copied = with_frame!(&mut target, &ten, |target, source| {
        target.y_plane[0][0] = source.y_plane[0][0] + 5;
        u32::from(target.y_plane[0][0])
    });
    assert_eq!(copied, Some(5));
    assert_eq!(with_frame!(eight, ten, |a, b| (a, b).0.width()), None);
}
