//! Frames: building, rejections, comparison, clones and debug texts.

mod support;

use std::num::NonZeroU8;
use support::planes::{FORMATS, Layout, paint, plane_of, sample};
use v_frame_proved::chroma::ChromaSubsampling::{self, Monochrome, Yuv411, Yuv420, Yuv422, Yuv444};
use v_frame_proved::frame::{Frame, FrameBuilder, FrameError};
use v_frame_proved::pixel::Pixel;
use v_frame_proved::plane::{Plane, PlaneGeometry};

/// A width, a height, a format, a bit depth, and the luma padding on the left, right, top and bottom.
type Shape = ((usize, usize), ChromaSubsampling, u8, [usize; 4]);

fn builder(((width, height), format, depth, [left, right, top, bottom]): Shape) -> FrameBuilder {
    FrameBuilder::new(width, height, format, depth)
        .luma_padding_left(left)
        .luma_padding_right(right)
        .luma_padding_top(top)
        .luma_padding_bottom(bottom)
}

fn built<T: Pixel>(shape: Shape) -> Frame<T> {
    builder(shape).build().expect("a frame")
}

/// Returns the sizes of the three planes of a frame.
fn sizes<T: Pixel>(frame: &Frame<T>) -> [Option<(usize, usize)>; 3] {
    [0, 1, 2].map(|index| frame.plane(index).map(|plane| (plane.width(), plane.height())))
}

#[track_caller]
fn check_sizes<T: Pixel>(shape: Shape, chroma: Option<(usize, usize)>) {
    let frame = built::<T>(shape);
    assert_eq!((frame.subsampling, frame.bit_depth.get()), (shape.1, shape.2));
    assert_eq!(sizes(&frame), [Some(shape.0), chroma, chroma], "{shape:?}");
}

#[test]
fn chroma_planes_have_the_size_of_the_format() {
    let size = (1920, 1080);
    for (shape, chroma) in [
        ((size, Yuv420, 8, [0; 4]), Some((960, 540))),
        ((size, Yuv422, 8, [0; 4]), Some((960, 1080))),
        ((size, Yuv411, 8, [0; 4]), Some((480, 1080))),
        ((size, Yuv444, 8, [0; 4]), Some((1920, 1080))),
        ((size, Monochrome, 8, [0; 4]), None),
        ((size, Yuv420, 8, [16, 16, 16, 16]), Some((960, 540))),
        ((size, Yuv420, 8, [8, 16, 4, 12]), Some((960, 540))),
        ((size, Monochrome, 8, [15, 17, 13, 19]), None),
        (((640, 480), Yuv420, 8, [0; 4]), Some((320, 240))),
        (((2, 2), Yuv420, 8, [0; 4]), Some((1, 1))),
        (((4, 2), Yuv422, 8, [0; 4]), Some((2, 2))),
    ] {
        check_sizes::<u8>(shape, chroma);
    }
    for depth in 9..=16 {
        check_sizes::<u16>(((640, 480), Yuv420, depth, [0; 4]), Some((320, 240)));
    }
    check_sizes::<u16>(((3840, 2160), Yuv420, 10, [0; 4]), Some((1920, 1080)));
}

/// Writes the first pixel of the plane with this index.
fn mark<T: Pixel>(frame: &mut Frame<T>, index: usize, value: T) {
    let plane = frame.plane_mut(index).expect("a plane");
    *plane.pixel_mut(0, 0).expect("a pixel") = value;
}

#[test]
fn a_mark_in_each_plane() {
    let mut frame = built::<u8>(((1920, 1080), Yuv420, 8, [0; 4]));
    for (index, value) in [11, 22, 33].into_iter().enumerate() {
        mark(&mut frame, index, value);
    }
    let first = |plane: Option<&Plane<u8>>| plane.and_then(|plane| plane.pixel(0, 0));
    assert_eq!([0, 1, 2, 3].map(|index| first(frame.plane(index))), [Some(11), Some(22), Some(33), None]);
    let fields = [Some(&frame.y_plane), frame.u_plane.as_ref(), frame.v_plane.as_ref()];
    assert_eq!(fields.map(first), [Some(11), Some(22), Some(33)]);
    assert!(frame.plane(3).is_none() && frame.plane_mut(3).is_none());
}

/// A width and a height, the padding on the left, right, top and bottom, and the subsampling ratios.
type Laid = ([usize; 6], [u8; 2]);

/// Tests that a plane is present, has this geometry, and is zero everywhere.
#[track_caller]
fn must_lie<T: Pixel>(plane: Option<&Plane<T>>, ([width, height, left, right, top, bottom], [x, y]): Laid) {
    let plane = plane.expect("a plane");
    assert_eq!(
        plane.geometry(),
        PlaneGeometry::new(width, height, left, right, top, bottom, x, y).expect("a geometry")
    );
    assert_eq!(plane.data(), vec![T::from(0); (left + width + right) * (top + height + bottom)]);
}

#[track_caller]
fn check_layout<T: Pixel>(shape: Shape, luma: Laid, chroma: Laid) {
    let frame = built::<T>(shape);
    must_lie(frame.plane(0), luma);
    must_lie(frame.plane(1), chroma);
    must_lie(frame.plane(2), chroma);
}

#[test]
fn planes_are_padded_and_zero() {
    check_layout::<u8>(((4, 2), Yuv420, 8, [2, 2, 2, 0]), ([4, 2, 2, 2, 2, 0], [1, 1]), ([2, 1, 1, 1, 1, 0], [2, 2]));
    check_layout::<u8>(((8, 2), Yuv411, 8, [4, 8, 1, 0]), ([8, 2, 4, 8, 1, 0], [1, 1]), ([2, 2, 1, 2, 1, 0], [4, 1]));
    check_layout::<u16>(((2, 2), Yuv422, 16, [0; 4]), ([2, 2, 0, 0, 0, 0], [1, 1]), ([1, 2, 0, 0, 0, 0], [2, 1]));
    check_layout::<u16>(((2, 2), Yuv422, 9, [2, 0, 1, 0]), ([2, 2, 2, 0, 1, 0], [1, 1]), ([1, 2, 1, 0, 1, 0], [2, 1]));
    for depth in 8..=16 {
        let shape = ((20, 12), Yuv420, depth, [0, 6, 0, 0]);
        let (luma, chroma) = (([20, 12, 0, 6, 0, 0], [1, 1]), ([10, 6, 0, 3, 0, 0], [2, 2]));
        if depth == 8 { check_layout::<u8>(shape, luma, chroma) } else { check_layout::<u16>(shape, luma, chroma) }
    }
}

#[test]
fn full_chroma_is_built_with_each_padding() {
    for (left, right) in (0..10).flat_map(|left| (0..10).map(move |right| (left, right))) {
        let laid = ([3, 2, left, right, 9 - left, 9 - right], [1, 1]);
        let padding = [left, right, 9 - left, 9 - right];
        check_layout::<u8>(((3, 2), Yuv444, 8, padding), laid, laid);
        check_layout::<u16>(((3, 2), Yuv444, 10, padding), laid, laid);
    }
}

/// Tests that each frame is rejected for the given reason, or built if there is none.
#[track_caller]
fn check_refusals<T: Pixel>(cases: &[(Shape, Option<FrameError>)]) {
    for (shape, reason) in cases {
        assert_eq!(builder(*shape).build::<T>().err(), *reason, "{shape:?}");
    }
}

#[test]
fn frames_are_refused_for_the_first_reason() {
    let size = Some(FrameError::UnsupportedResolution);
    let kind = Some(FrameError::DataTypeMismatch);
    let depth = |found| Some(FrameError::UnsupportedBitDepth { found });
    check_refusals::<u8>(&[
        (((0, 1080), Yuv420, 8, [0; 4]), size),
        (((1921, 1080), Yuv420, 8, [0; 4]), size),
        (((1920, 1081), Yuv420, 8, [0; 4]), size),
        (((1920, 0), Yuv422, 8, [0; 4]), size),
        (((1921, 1080), Yuv422, 8, [0; 4]), size),
        (((1920, 1080), Yuv420, 8, [15, 0, 0, 0]), size),
        (((1920, 1080), Yuv422, 8, [15, 0, 0, 0]), size),
        (((1920, 1080), Yuv444, 8, [15, 0, 0, 0]), None),
        (((6, 2), Yuv411, 8, [0; 4]), size),
        (((8, 2), Yuv411, 8, [2, 8, 1, 0]), size),
        (((8, 2), Yuv411, 8, [4, 6, 1, 0]), size),
        (((8, 2), Yuv411, 8, [4, 8, 3, 0]), None),
        (((2, 2), Yuv422, 8, [0, 0, usize::MAX, 0]), size),
        (((2, 2), Yuv422, 8, [usize::MAX, 0, 0, 0]), size),
        (((4611686018427387904, 1), Monochrome, 8, [0; 4]), size),
        (((1920, 1080), Yuv420, 7, [0; 4]), depth(7)),
        (((1920, 1080), Yuv420, 10, [0; 4]), kind),
        (((4611686018427387903, 1), Monochrome, 8, [0; 4]), Some(FrameError::OutOfMemory)),
    ]);
    check_refusals::<u16>(&[
        (((1920, 1080), Yuv420, 8, [0; 4]), kind),
        (((0, 1080), Yuv420, 17, [0; 4]), depth(17)),
        (((4611686018427387903, 1), Monochrome, 10, [0; 4]), Some(FrameError::OutOfMemory)),
    ]);
}

#[test]
fn refusals_say_why() {
    let found = 7;
    let texts = [
        (
            FrameError::UnsupportedBitDepth { found },
            "only 8-16 bit frame data is supported, tried to create 7 bit frame",
        ),
        (FrameError::DataTypeMismatch, "bit depth did not match requested data type"),
        (FrameError::UnsupportedResolution, "selected chroma subsampling does not support odd resolutions"),
        (FrameError::OutOfMemory, "out of memory"),
    ];
    for (error, text) in texts {
        assert_eq!(error.to_string(), text);
    }
    assert_eq!(format!("{:?}", FrameError::UnsupportedBitDepth { found }), "UnsupportedBitDepth { found: 7 }");
    assert_eq!(v_frame_proved::AllocError.to_string(), "memory allocation failed");
}

/// Returns a frame with a picture in each plane and nines in the padding.
fn painted<T: Pixel>(format: ChromaSubsampling, depth: u8) -> Frame<T> {
    let mut frame = built::<T>(((16, 6), format, depth, [4, 0, 2, 0]));
    for index in 0..3 {
        if let Some(plane) = frame.plane_mut(index) {
            plane.data_mut().fill(T::from(9));
            paint(plane, index);
        }
    }
    frame
}

/// Tests that the clone of a frame is equal to it, and that writing to the clone does not change the frame.
fn check_clone<T: Pixel>(format: ChromaSubsampling, depth: u8) {
    let frame = painted::<T>(format, depth);
    let mut copy = frame.clone();
    assert_eq!(copy, frame);
    assert_eq!(frame.try_clone().expect("memory"), frame);
    for index in 0..3 {
        let pixel = copy.plane(index).map(|plane| plane.pixel(3, 5));
        assert_eq!(pixel, frame.plane(index).map(|plane| plane.pixel(3, 5)));
        if let Some(plane) = copy.plane_mut(index) {
            plane.data_mut().fill(T::from(0));
        }
    }
    assert_ne!(copy, frame);
    assert_eq!(frame.y_plane.pixel(3, 5), Some(sample(0, 3, 5)));
    assert_eq!(frame, painted(format, depth));
}

#[test]
fn frames_of_each_format_and_depth_equal_their_clones() {
    for format in FORMATS {
        check_clone::<u8>(format, 8);
        (9..=16).for_each(|depth| check_clone::<u16>(format, depth));
    }
}

#[test]
fn frames_are_equal_in_all_five_fields() {
    let frame = built::<u16>(((2, 2), Yuv420, 10, [0; 4]));
    assert_eq!(frame, built(((2, 2), Yuv420, 10, [0; 4])));
    let changes: [fn(&mut Frame<u16>); 7] = [
        |frame| frame.subsampling = Yuv444,
        |frame| frame.bit_depth = NonZeroU8::new(12).expect("a depth"),
        |frame| frame.u_plane = None,
        |frame| frame.v_plane = None,
        |frame| mark(frame, 0, 1),
        |frame| mark(frame, 1, 1),
        |frame| mark(frame, 2, 1),
    ];
    for change in changes {
        let mut other = frame.clone();
        change(&mut other);
        assert_ne!(frame, other);
    }
}

#[test]
fn frames_that_differ_in_one_border_entry_are_unequal() {
    let layout: Layout = [2, 2, 0, 1, 0, 0];
    let mut frame = built::<u8>(((2, 2), Monochrome, 8, [0, 1, 0, 0]));
    frame.y_plane = plane_of(layout, &[1, 2, 0, 3, 4, 0]);
    let mut other = frame.clone();
    other.y_plane.data_mut()[2] = 9;
    assert_ne!(frame.y_plane, other.y_plane);
    assert_ne!(frame, other);
}

#[test]
fn frames_show_their_planes() {
    let nine = "Frame { y_plane: Plane { data: [0, 1, 2, 3, 4, ..], geometry: PlaneGeometry { width: 3, height: 3, \
                stride: 3, \
                pad_left: 0, pad_right: 0, pad_top: 0, pad_bottom: 0, subsampling_x: 1, subsampling_y: 1 } }, \
                u_plane: None, v_plane: None, subsampling: Monochrome, bit_depth: 8 }";
    let mut frame = built::<u8>(((3, 3), Monochrome, 8, [0; 4]));
    frame.y_plane.copy_from_slice(&[0, 1, 2, 3, 4, 5, 6, 7, 8]).expect("nine pixels");
    assert_eq!(format!("{frame:?}"), nine);
    let halved = "Frame { y_plane: Plane { data: [0, 0], geometry: PlaneGeometry { width: 2, height: 1, stride: 2, \
                  pad_left: 0, pad_right: 0, pad_top: 0, pad_bottom: 0, subsampling_x: 1, subsampling_y: 1 } }, \
                  u_plane: Some(Plane { data: [0], geometry: PlaneGeometry { width: 1, height: 1, stride: 1, \
                  pad_left: 0, pad_right: 0, pad_top: 0, pad_bottom: 0, subsampling_x: 2, subsampling_y: 1 } }), \
                  v_plane: Some(Plane { data: [0], geometry: PlaneGeometry { width: 1, height: 1, stride: 1, \
                  pad_left: 0, pad_right: 0, pad_top: 0, pad_bottom: 0, subsampling_x: 2, subsampling_y: 1 } }), \
                  subsampling: Yuv422, bit_depth: 8 }";
    assert_eq!(format!("{:?}", built::<u8>(((2, 1), Yuv422, 8, [0; 4]))), halved);
}

#[test]
fn a_first_frame_is_filled_and_read() {
    let mut frame = built::<u8>(((3, 2), Monochrome, 8, [1, 2, 1, 0]));
    frame.y_plane.copy_from_slice(&[10, 20, 30, 40, 50, 60]).expect("six pixels");
    let row_with = |frame: &Frame<u8>, pixel| frame.y_plane.rows().find(|row| row.contains(&pixel)).map(<[u8]>::to_vec);
    assert_eq!(row_with(&frame, 50), Some(vec![40, 50, 60]));
    assert_eq!(row_with(&frame, 0), None);
    frame.y_plane.visible_row_mut(1).fill(0);
    assert_eq!(row_with(&frame, 0), Some(vec![0, 0, 0]));
}

#[test]
fn frames_may_cross_threads() {
    fn crosses<V: Send + Sync>(_: &V) {}
    crosses(&built::<u16>(((2, 2), Yuv420, 10, [0; 4])));
}

#[test]
fn formats_have_the_numbers_of_the_original() {
    assert_eq!([Yuv420, Yuv422, Yuv444, Monochrome, Yuv411].map(|format| format as u8), [0, 1, 2, 3, 4]);
}

/// A trait that a program for the original crate may have added to its frames.
trait FrameExt {
    fn width(&self) -> &'static str;
}

impl<T: Pixel> FrameExt for Frame<T> {
    fn width(&self) -> &'static str {
        "the trait's"
    }
}

#[test]
fn methods_of_frames_come_before_those_of_traits() {
    let frame = built::<u8>(((4, 2), Yuv420, 8, [0; 4]));
    assert_eq!((frame.width(), FrameExt::width(&frame)), (4, "the trait's"));
}
