//! Planar bytes of frames of any size: their number, and reading and writing them.

#![cfg(feature = "std")]

mod support;

use std::io::ErrorKind;
use support::planes::{BORDERED, FORMATS, in_numbered_border, plane_of};
use support::streams::{Then, reader, writer};
use v_frame_proved::chroma::ChromaSubsampling::{self, Monochrome, Yuv411, Yuv420, Yuv422, Yuv444};
use v_frame_proved::frame::{Frame, FrameBuilder, FrameError};
use v_frame_proved::pixel::Pixel;
use v_frame_proved::planar::{Counted, PlanarError, planar_len, read_frame, video_frame, write_frame};
use v_frame_proved::plane::Plane;

/// A width and a height.
type Size = (usize, usize);

fn size_of_plane<T>(plane: &Plane<T>) -> Size {
    (plane.width(), plane.height())
}

/// Returns the padding of a plane on the left, right, top and bottom.
fn border_of<T>(plane: &Plane<T>) -> [usize; 4] {
    let geometry = plane.geometry();
    [geometry.pad_left(), geometry.pad_right(), geometry.pad_top(), geometry.pad_bottom()]
}

/// Luma sizes, formats and chroma sizes.
const SIZES: [(Size, ChromaSubsampling, Option<Size>); 14] = [
    ((1, 1), Yuv420, Some((1, 1))),
    ((1, 1), Yuv411, Some((1, 1))),
    ((1, 1), Monochrome, None),
    ((2, 3), Yuv420, Some((1, 2))),
    ((2, 3), Yuv422, Some((1, 3))),
    ((2, 3), Yuv411, Some((1, 3))),
    ((7, 5), Yuv420, Some((4, 3))),
    ((7, 5), Yuv422, Some((4, 5))),
    ((7, 5), Yuv411, Some((2, 5))),
    ((7, 5), Yuv444, Some((7, 5))),
    ((35, 27), Yuv420, Some((18, 14))),
    ((35, 27), Yuv422, Some((18, 27))),
    ((35, 27), Yuv411, Some((9, 27))),
    ((35, 27), Monochrome, None),
];

fn check_size<T: Pixel>(luma: Size, format: ChromaSubsampling, chroma: Option<Size>, depth: u8) {
    let frame = video_frame::<T>(luma.0, luma.1, format, depth, 3).expect("a frame");
    assert_eq!((frame.subsampling, frame.bit_depth.get()), (format, depth));
    let found = [0, 1, 2].map(|index| frame.plane(index).map(size_of_plane));
    assert_eq!(found, [Some(luma), chroma, chroma], "{luma:?} in {format:?}");
}

#[test]
fn chroma_covers_luma_of_any_size() {
    for (luma, format, chroma) in SIZES {
        check_size::<u8>(luma, format, chroma, 8);
        check_size::<u16>(luma, format, chroma, 10);
    }
}

/// Tests that the padding of a frame is rounded up to a multiple of the subsampling ratio, and that chroma is aligned with
/// luma.
fn check_padding<T: Pixel>(format: ChromaSubsampling, width: usize, padding: usize, depth: u8) {
    let frame = video_frame::<T>(width, 3, format, depth, padding).expect("a frame");
    let (columns, rows) = format.subsample_ratio().map_or((1, 1), |(x, y)| (x.get().into(), y.get().into()));
    let covering = |count: usize, ratio| (0..count).filter(|place| place % ratio == 0).count();
    let divided = |ratio| (padding..).find(|number| number % ratio == 0).expect("a number");
    let (beside, above) = (divided(columns), divided(rows));
    let luma = ((width, 3), [beside, beside, above, above]);
    let [across, down] = [covering(beside, columns), covering(above, rows)];
    let chroma = ((covering(width, columns), covering(3, rows)), [across, across, down, down]);
    let chroma = format.has_chroma().then_some(chroma);
    let found = [0, 1, 2].map(|index| frame.plane(index).map(|plane| (size_of_plane(plane), border_of(plane))));
    assert_eq!(found, [Some(luma), chroma, chroma], "{width} columns of {format:?}, padded by {padding}");
}

#[test]
fn frames_of_each_width_and_padding_have_the_sizes_and_borders_of_their_format() {
    for format in FORMATS {
        for (width, padding) in (1..=80).flat_map(|width| (0..=9).map(move |padding| (width, padding))) {
            check_padding::<u8>(format, width, padding, 8);
            check_padding::<u16>(format, width, padding, 12);
        }
    }
    let frame = video_frame::<u8>(7, 5, Yuv411, 8, 5).expect("a frame");
    assert_eq!([0, 1].map(|index| frame.plane(index).map(border_of)), [Some([8, 8, 5, 5]), Some([2, 2, 5, 5])]);
}

#[test]
fn a_frame_that_divides_is_as_built() {
    for format in [Yuv420, Yuv422, Yuv411, Yuv444, Monochrome] {
        let builder = FrameBuilder::new(8, 6, format, 10).luma_padding_left(4).luma_padding_right(4);
        let built = builder.luma_padding_top(4).luma_padding_bottom(4).build::<u16>();
        assert_eq!(video_frame(8, 6, format, 10, 4), built);
    }
}

#[test]
fn a_frame_has_the_bytes_of_its_planes() {
    // 35 luma pixels and twice 12 chroma pixels, of two bytes each. The padding is not counted.
    assert_eq!(planar_len(&video_frame::<u16>(7, 5, Yuv420, 10, 3).expect("a frame")), 118);
    // Only luma, one byte for each pixel.
    assert_eq!(planar_len(&video_frame::<u8>(7, 5, Monochrome, 8, 0).expect("a frame")), 35);
}

#[test]
fn frames_are_refused_for_the_first_reason() {
    let size = FrameError::UnsupportedResolution;
    for (width, height, depth, padding, reason) in [
        (0, 1, 7, 0, FrameError::UnsupportedBitDepth { found: 7 }),
        (0, 1, 10, 0, FrameError::DataTypeMismatch),
        (0, 1, 8, 0, size),
        (1, 0, 8, 0, size),
        (usize::MAX, 1, 8, 0, size),
        (1, usize::MAX, 8, 0, size),
        (1, 1, 8, usize::MAX, size),
        (1, 1, 8, 18446744073709551614, size),
        (1, 1, 8, 9223372036854775807, size),
        (1, 1, 8, 4611686018427387904, size),
    ] {
        let refused = video_frame::<u8>(width, height, Yuv420, depth, padding).err();
        assert_eq!(refused, Some(reason), "{width} by {height}, {depth} bits, padded by {padding}");
    }
}

/// Returns a 4:2:0 frame of two by two pixels with these bytes: four of luma, and one of each chroma plane.
fn six_bytes([a, b, c, d, u, v]: [u8; 6]) -> Frame<u8> {
    let mut frame = FrameBuilder::new(2, 2, Yuv420, 8).build::<u8>().expect("a frame");
    for (index, bytes) in [&[a, b, c, d][..], &[u], &[v]].into_iter().enumerate() {
        frame.plane_mut(index).expect("a plane").copy_from_slice(bytes).expect("so many pixels");
    }
    frame
}

/// Returns such a frame without the plane U. Its plane V has three by two pixels.
fn without_u(bytes: [u8; 6], v: [u8; 6]) -> Frame<u8> {
    Frame { u_plane: None, v_plane: Some(plane_of([3, 2, 0, 0, 0, 0], &v)), ..six_bytes(bytes) }
}

/// Returns a frame without chroma, of three by two pixels with numbered padding.
fn bordered(pixels: &[u8; 6]) -> Frame<u8> {
    let mut frame = FrameBuilder::new(3, 2, Monochrome, 8).build::<u8>().expect("a frame");
    frame.y_plane = plane_of(BORDERED, &in_numbered_border(BORDERED, pixels));
    frame
}

#[test]
fn a_frame_a_rest_and_the_end() {
    let mut frame = six_bytes([0; 6]);
    let mut reader = Counted::new([1, 2, 3, 4, 5, 6, 7].as_slice());
    for answer in [Ok(true), Err(PlanarError::Truncated { expected: 6, found: 1 }), Ok(false)] {
        assert_eq!(read_frame(&mut reader, &mut frame), answer);
        assert_eq!(frame, six_bytes([1, 2, 3, 4, 5, 6]));
        assert_eq!(reader.failures(), 0);
    }
}

#[test]
fn frames_are_read_in_pieces_whole_or_not_at_all() {
    let bytes = [1, 2, 3, 4, 5, 6, 7];
    let truncated = |found| Err(PlanarError::Truncated { expected: 6, found });
    // The number of bytes, the number of bytes that a call returns, the number of calls that succeed, the result, the number of
    // failures, and the number of bytes that are left.
    for (length, most, calls, answer, failures, left) in [
        (6, 1, 6, Ok(true), 0, 0),
        (7, 4, 2, Ok(true), 0, 1),
        (5, 2, 9, truncated(5), 0, 0),
        (1, 2, 9, truncated(1), 0, 0),
        (6, 3, 1, Err(PlanarError::Read), 1, 3),
        (6, 1, 0, Err(PlanarError::Read), 1, 6),
        (6, 1, 1, Err(PlanarError::Read), 1, 5),
        (6, 1, 5, Err(PlanarError::Read), 1, 1),
    ] {
        for before in [[0; 6], [11, 12, 13, 14, 15, 16]] {
            let mut frame = six_bytes(before);
            let pieces = reader(&bytes[..length], most).fails_after_calls(calls, ErrorKind::Interrupted);
            let mut input = Counted::new(pieces);
            assert_eq!(read_frame(&mut input, &mut frame), answer, "{length} bytes, {calls} calls of {most}");
            assert_eq!((input.failures(), input.get_ref().left.len()), (failures, left));
            assert_eq!(frame, six_bytes(if answer.is_ok() { [1, 2, 3, 4, 5, 6] } else { before }));
        }
    }
}

#[test]
fn borders_are_kept() {
    let mut frame = bordered(&[1, 2, 3, 4, 5, 6]);
    let mut reader = Counted::new([11, 12, 13, 14, 15, 16].as_slice());
    assert_eq!((read_frame(&mut reader, &mut frame), reader.get_ref().len()), (Ok(true), 0));
    assert_eq!(frame, bordered(&[11, 12, 13, 14, 15, 16]));
}

#[test]
fn words_are_read_low_byte_first() {
    let mut frame = FrameBuilder::new(2, 2, Yuv420, 9).build::<u16>().expect("a frame");
    let bytes: Vec<u8> = (1..=12).collect();
    assert_eq!(read_frame(&mut Counted::new(bytes.as_slice()), &mut frame), Ok(true));
    assert_eq!(frame.y_plane.data(), [0x0201, 0x0403, 0x0605, 0x0807]);
    assert_eq!([1, 2].map(|index| frame.plane(index).expect("a plane").data()[0]), [0x0A09, 0x0C0B]);
}

#[test]
fn planes_that_a_user_replaced_are_read_and_written() {
    let mut frame = without_u([0; 6], [0; 6]);
    let mut reader = Counted::new([1, 2, 3, 4, 5, 6, 7, 8, 9, 10, 11, 12].as_slice());
    assert_eq!((read_frame(&mut reader, &mut frame), reader.get_ref().len()), (Ok(true), 2));
    assert_eq!(frame, without_u([1, 2, 3, 4, 0, 0], [5, 6, 7, 8, 9, 10]));
    let mut out = Counted::new(Vec::new());
    assert_eq!(write_frame(&mut out, &without_u([1, 2, 3, 4, 5, 6], [9, 8, 7, 6, 5, 4])), Ok(()));
    assert_eq!(out.into_inner(), [1, 2, 3, 4, 9, 8, 7, 6, 5, 4]);
}

/// Tests the bytes that are written for a frame, and the result of a slow writer that has another behavior after some calls.
fn check_writes<T: Pixel>(frame: &Frame<T>, bytes: &[u8], calls: usize, then: Then, answer: Result<(), PlanarError>) {
    let mut all = Counted::new(Vec::new());
    assert_eq!(write_frame(&mut all, frame), Ok(()));
    assert_eq!(all.into_inner(), bytes);
    let mut out = Counted::new(writer(1).after_calls(calls, then));
    assert_eq!(write_frame(&mut out, frame), answer, "{then:?} after {calls} calls");
    assert_eq!(out.failures(), u64::from(answer == Err(PlanarError::Write)));
    assert_eq!(out.get_ref().taken, bytes[..calls.min(bytes.len())]);
}

#[test]
fn frames_are_written_whole_or_to_a_beginning() {
    let mut words = FrameBuilder::new(2, 1, Monochrome, 10).build::<u16>().expect("a frame");
    words.y_plane.copy_from_slice(&[258, 772]).expect("two pixels");
    let fails = Then::Fails(ErrorKind::Interrupted);
    for (calls, answer) in [(9, Ok(())), (0, Err(PlanarError::Write)), (3, Err(PlanarError::Write))] {
        check_writes(&words, &[2, 1, 4, 3], calls, fails, answer);
    }
    let six = six_bytes([1, 2, 3, 4, 5, 6]);
    for calls in [0, 3] {
        check_writes(&six, &[1, 2, 3, 4, 5, 6], calls, Then::TakesNone, Err(PlanarError::WriteZero));
    }
}

#[test]
fn frames_are_copied_and_changed_one_by_one() {
    let source = [1, 2, 3, 4, 5, 6, 250, 251, 252, 253, 254, 255];
    let (mut reader, mut writer) = (Counted::new(source.as_slice()), Counted::new(Vec::new()));
    let mut frame = bordered(&[0; 6]);
    let mut count = 0;
    while read_frame(&mut reader, &mut frame) == Ok(true) {
        v_frame_proved::ops::map_pixels(&mut frame.y_plane, |pixel| pixel.saturating_add(3));
        assert_eq!(write_frame(&mut writer, &frame), Ok(()));
        count += 1;
    }
    assert_eq!(count, 2);
    assert_eq!(frame, bordered(&[253, 254, 255, 255, 255, 255]));
    assert_eq!(writer.into_inner(), [4, 5, 6, 7, 8, 9, 253, 254, 255, 255, 255, 255]);
}

#[test]
fn errors_say_why() {
    let texts = [
        (PlanarError::Truncated { expected: 6, found: 1 }, "truncated frame, expected 6 bytes, found 1"),
        (PlanarError::TooLarge, "frame too large"),
        (PlanarError::Read, "read failed"),
        (PlanarError::Write, "write failed"),
        (PlanarError::WriteZero, "write took nothing"),
        (PlanarError::OutOfMemory, "out of memory"),
    ];
    for (error, text) in texts {
        assert_eq!(error.to_string(), text);
    }
}
