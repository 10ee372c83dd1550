//! Semi-planar layouts: frames written and read, interleaved chroma, and samples in the top bits of words.

#![cfg(feature = "std")]

mod support;

use std::io::ErrorKind;
use support::cases::{Case, cases, values};
use support::planes::{counted, entry, pixels, weighted};
use support::streams::{Then, reader, writer};
use v_frame_proved::frame::Frame;
use v_frame_proved::pixel::Pixel;
use v_frame_proved::planar::{Counted, PlanarError, video_frame};
use v_frame_proved::plane::{Plane, RowsRef};
use v_frame_proved::semi_planar::{
    SemiPlanarError, SemiPlanarFormat, check_layout, deinterleave, from_top_bits, interleave, read_frame, rows,
    semi_planar_len, to_top_bits, write_frame,
};

const CASES: &str = include_str!("data/semi_planar.txt");

const FORMATS: [SemiPlanarFormat; 7] = [
    SemiPlanarFormat::Nv12,
    SemiPlanarFormat::Nv21,
    SemiPlanarFormat::Nv16,
    SemiPlanarFormat::Nv24,
    SemiPlanarFormat::P010,
    SemiPlanarFormat::P012,
    SemiPlanarFormat::P016,
];

/// Returns a picture whose samples are numbered through Y, U and V. The entries of its padding have other values.
fn picture<T: Pixel>(width: usize, height: usize, format: SemiPlanarFormat) -> Frame<T> {
    let factors: Vec<usize> = values(CASES, "factors");
    let depth = format.bit_depth();
    let mut frame = video_frame::<T>(width, height, format.subsampling(), depth, 2).expect("a frame");
    let mut samples = (0..).map(|i| entry::<u16>(i, factors[0], 0) & (u16::MAX >> (16 - depth)));
    for index in 0..3 {
        let plane = frame.plane_mut(index).expect("a plane");
        for (i, place) in plane.data_mut().iter_mut().enumerate() {
            *place = entry(i + 3, factors[0], 128);
        }
        for (pixel, sample) in plane.pixels_mut().zip(&mut samples) {
            *pixel = T::try_from(sample).expect("a sample");
        }
    }
    frame
}

/// Sets all visible pixels of a plane to zero. The padding is unchanged.
fn blank<T: Pixel>(plane: &mut Plane<T>) {
    plane.rows_mut().for_each(|row| row.fill(T::from(0)));
}

/// Returns the bytes of a frame.
fn bytes_of<T: Pixel>(frame: &Frame<T>, format: SemiPlanarFormat) -> Vec<u8> {
    let mut writer = Counted::new(Vec::new());
    assert_eq!(write_frame(&mut writer, frame, format), Ok(()));
    let bytes = writer.into_inner();
    assert_eq!(semi_planar_len(frame, format), Ok(bytes.len()));
    bytes
}

/// Writes a picture, reads the bytes into a blank one, and compares whole buffers.
fn goes_through<T: Pixel>(case: Case<'_>, (width, height): (usize, usize), format: SemiPlanarFormat) {
    let frame = picture::<T>(width, height, format);
    let bytes = bytes_of(&frame, format);
    case.expect(&[weighted(&bytes)]);
    let mut other = frame.clone();
    (0..3).for_each(|index| blank(other.plane_mut(index).expect("a plane")));
    assert_ne!(other, frame);
    let mut reader = Counted::new(bytes.as_slice());
    for is_there in [true, false] {
        assert_eq!(read_frame(&mut reader, &mut other, format), Ok(is_there), "{case}");
        assert!(other == frame, "{case}");
    }
}

#[test]
fn frames_are_written_and_read() {
    for mut case in cases(CASES, "bytes") {
        let name = case.word();
        let format = FORMATS.into_iter().find(|format| format!("{format:?}") == name).expect("a format");
        let size = (case.number(), case.number());
        match format.sample_size() {
            1 => goes_through::<u8>(case, size, format),
            _ => goes_through::<u16>(case, size, format),
        }
    }
}

#[test]
fn bytes_of_a_small_picture() {
    for case in cases(CASES, "all_bytes") {
        case.expect(&bytes_of(&picture::<u8>(5, 3, SemiPlanarFormat::Nv12), SemiPlanarFormat::Nv12));
    }
}

/// Makes writes fail after each possible number of bytes, and tests that exactly these bytes were written.
fn writes_fail_in_turn<T: Pixel>(format: SemiPlanarFormat) {
    let frame = picture::<T>(5, 3, format);
    let bytes = bytes_of(&frame, format);
    for count in 0..bytes.len() {
        let mut out = Counted::new(writer(5).after_bytes(count, Then::Fails(ErrorKind::StorageFull)));
        let answer = write_frame(&mut out, &frame, format);
        assert_eq!(answer, Err(SemiPlanarError::Planar(PlanarError::Write)), "after {count} bytes");
        assert_eq!((out.last_failure(), out.failures()), (Some(ErrorKind::StorageFull), 1));
        assert_eq!(out.get_ref().taken, bytes[..count]);
    }
}

/// Makes reads fail or end after each possible number of bytes, and tests that the frame is unchanged.
fn reads_fail_in_turn<T: Pixel>(format: SemiPlanarFormat) {
    let mut frame = picture::<T>(5, 3, format);
    let bytes = bytes_of(&frame, format);
    blank(&mut frame.y_plane);
    let before = frame.clone();
    for count in 0..bytes.len() {
        let mut input = Counted::new(reader(&bytes, 5).fails_after_bytes(count, ErrorKind::Interrupted));
        let answer = read_frame(&mut input, &mut frame, format);
        assert_eq!(answer, Err(SemiPlanarError::Planar(PlanarError::Read)), "after {count} bytes");
        assert_eq!((input.last_failure(), input.failures()), (Some(ErrorKind::Interrupted), 1));
        assert_eq!(input.get_ref().left, &bytes[count..]);
        let truncated = PlanarError::Truncated { expected: bytes.len(), found: count };
        let wanted = if count == 0 { Ok(false) } else { Err(SemiPlanarError::Planar(truncated)) };
        assert_eq!(read_frame(&mut Counted::new(&bytes[..count]), &mut frame, format), wanted);
        assert_eq!(frame, before);
    }
}

#[test]
fn failures_after_each_byte() {
    writes_fail_in_turn::<u8>(SemiPlanarFormat::Nv21);
    writes_fail_in_turn::<u16>(SemiPlanarFormat::P012);
    reads_fail_in_turn::<u8>(SemiPlanarFormat::Nv12);
    reads_fail_in_turn::<u16>(SemiPlanarFormat::P010);
}

/// Tests that a frame which does not fit a layout is rejected, and that nothing is written or read.
fn is_refused<T: Pixel>(frame: &mut Frame<T>, format: SemiPlanarFormat, wanted: SemiPlanarError) {
    let before = frame.clone();
    assert_eq!(check_layout(frame, format), Err(wanted));
    let mut out = Counted::new(writer(usize::MAX));
    assert_eq!(write_frame(&mut out, frame, format), Err(wanted));
    assert_eq!(out.get_ref().writes, 0);
    let mut input = Counted::new([7; 200].as_slice());
    assert_eq!(read_frame(&mut input, frame, format), Err(wanted));
    assert_eq!(input.get_ref().len(), 200);
    assert_eq!(*frame, before);
}

#[test]
fn frames_that_are_none_for_a_layout() {
    let mut frame = picture::<u8>(5, 3, SemiPlanarFormat::Nv12);
    is_refused(&mut frame, SemiPlanarFormat::P010, SemiPlanarError::BitDepth);
    is_refused(&mut frame, SemiPlanarFormat::Nv16, SemiPlanarError::Subsampling);
    is_refused(&mut frame, SemiPlanarFormat::Nv24, SemiPlanarError::Subsampling);
    frame.v_plane = picture(7, 3, SemiPlanarFormat::Nv12).v_plane;
    is_refused(&mut frame, SemiPlanarFormat::Nv12, SemiPlanarError::ChromaSize);
    frame.v_plane = None;
    is_refused(&mut frame, SemiPlanarFormat::Nv21, SemiPlanarError::ChromaSize);
    let mut words = picture::<u16>(5, 3, SemiPlanarFormat::P010);
    is_refused(&mut words, SemiPlanarFormat::P012, SemiPlanarError::BitDepth);
    is_refused(&mut words, SemiPlanarFormat::Nv12, SemiPlanarError::BitDepth);
}

/// Interleaves rows in plain buffers and splits them again. The entries outside the rows must not change.
fn lent_rows<T: Pixel>() {
    let first: Vec<T> = pixels(&[1, 2, 3, 90, 4, 5, 6]);
    let second: Vec<T> = pixels(&[11, 12, 13, 91, 92, 14, 15, 16, 93]);
    let mut both = [T::from(0); 14];
    let us = RowsRef::new(&first, 3, 2, 4).expect("rows");
    let vs = RowsRef::new(&second, 3, 2, 5).expect("rows");
    rows::interleave(&us, &vs, &mut both, 6, 2, 7);
    assert_eq!(both[..], pixels::<T>(&[1, 11, 2, 12, 3, 13, 0, 4, 14, 5, 15, 6, 16, 0])[..]);
    let mut first_again: Vec<T> = pixels(&[0, 0, 0, 90, 0, 0, 0]);
    let mut second_again: Vec<T> = pixels(&[0, 0, 0, 91, 92, 0, 0, 0, 93]);
    let source = RowsRef::new(&both, 6, 2, 7).expect("rows");
    rows::deinterleave(&source, 3, 2, &mut first_again, 4, &mut second_again, 5);
    assert_eq!((first_again, second_again), (first, second));
}

#[test]
fn lent_rows_of_both_types() {
    lent_rows::<u8>();
    lent_rows::<u16>();
}

/// Interleaves rows of each length and splits them again. Rows of eight pairs and of whole blocks have their own code.
fn rows_of_each_length<T: Pixel>() {
    for pairs in (1..70).chain([127, 128, 129, 255, 256, 1000]) {
        let [first, second] = [7, 11].map(|factor| (0..pairs).map(|i| entry(i, factor, 0)).collect::<Vec<T>>());
        let wanted: Vec<T> = first.iter().zip(&second).flat_map(|(p, q)| [*p, *q]).collect();
        let mut both = vec![T::from(0); 2 * pairs];
        rows::interleave_row(&mut both, &first, &second);
        assert_eq!(both, wanted, "{pairs} pairs");
        let [mut first_again, mut second_again] = [0; 2].map(|_| vec![T::from(0); pairs]);
        rows::deinterleave_row(&both, &mut first_again, &mut second_again);
        assert_eq!((first_again, second_again), (first, second), "{pairs} pairs");
    }
}

#[test]
fn rows_of_each_length_of_both_types() {
    rows_of_each_length::<u8>();
    rows_of_each_length::<u16>();
}

#[test]
fn planes_are_interleaved_within_their_borders() {
    let (mut u, mut v) = (counted::<u8>([3, 2, 1, 2, 1, 0], 1), counted([3, 2, 0, 0, 0, 0], 101));
    let mut both = counted([6, 2, 2, 1, 0, 1], 201);
    interleave(&v.as_plane_ref(), &u.as_plane_ref(), &mut both);
    let wanted = [
        201, 202, 101, 8, 102, 9, 103, 10, 209, 210, 211, 104, 14, 105, 15, 106, 16, 218, 219, 220, 221, 222, 223, 224,
        225, 226, 227,
    ];
    assert_eq!(both.data(), wanted);
    // If the result is split with U and V exchanged, each plane has the pixels of the other.
    deinterleave(&both.as_plane_ref(), &mut u, &mut v);
    assert_eq!(u.data(), [1, 2, 3, 4, 5, 6, 7, 101, 102, 103, 11, 12, 13, 104, 105, 106, 17, 18]);
    assert_eq!(v.data(), [8, 9, 10, 14, 15, 16]);
}

#[test]
fn samples_move_to_the_top_bits_and_back() {
    let mut plane = counted::<u16>([3, 2, 1, 0, 0, 1], 201);
    plane.copy_from_slice(&[0, 1, 1023, 512, 1025, 3]).expect("six samples");
    to_top_bits(&mut plane, 10);
    assert_eq!(plane.data(), [201, 0, 64, 65472, 205, 32768, 64, 192, 209, 210, 211, 212]);
    from_top_bits(&mut plane, 12);
    assert_eq!(plane.data(), [201, 0, 4, 4092, 205, 2048, 4, 12, 209, 210, 211, 212]);
}

/// Bits below those of a sample are ignored, even if a file has some there.
#[test]
fn bits_below_those_of_samples_are_left_out() {
    for (format, unused) in [(SemiPlanarFormat::P010, 6), (SemiPlanarFormat::P012, 4), (SemiPlanarFormat::P016, 0)] {
        let mut frame = video_frame::<u16>(3, 2, format.subsampling(), format.bit_depth(), 1).expect("a frame");
        let words: [u16; 10] = [65_535, 1, 63, 15, 32_769, 4_660, 43_981, 64_257, 16, 1_023];
        let bytes: Vec<u8> = words.into_iter().flat_map(u16::to_le_bytes).collect();
        assert_eq!(read_frame(&mut Counted::new(bytes.as_slice()), &mut frame, format), Ok(true));
        let found = (0..3).flat_map(|index| frame.plane(index).expect("a plane").pixels());
        let wanted = [0, 1, 2, 3, 4, 5, 6, 8, 7, 9].map(|place| words[place] >> unused);
        assert!(found.eq(wanted), "{format:?}");
    }
    let mut words = [65_535, 1_023, 9, 64, 63, 9, 9];
    rows::from_top_bits(&mut words, 2, 2, 3, 10);
    assert_eq!(words, [1_023, 15, 9, 1, 0, 9, 9]);
    rows::to_top_bits(&mut words, 2, 2, 3, 12);
    assert_eq!(words, [16_368, 240, 9, 16, 0, 9, 9]);
}

/// Reads a frame of more than 2^28 bytes. A limit on the size of frames would be detected here.
#[test]
fn a_large_frame_is_read() {
    let format = SemiPlanarFormat::Nv12;
    let mut frame = video_frame::<u8>(16384, 10924, format.subsampling(), 8, 0).expect("a frame");
    let count = semi_planar_len(&frame, format).expect("a length");
    assert!(count > 1 << 28);
    let mut reader = Counted::new(std::io::repeat(77));
    assert_eq!(read_frame(&mut reader, &mut frame, format), Ok(true));
    for (plane, (width, height)) in [(16384, 10924), (8192, 5462), (8192, 5462)].into_iter().enumerate() {
        let plane = frame.plane(plane).expect("a plane");
        let row = vec![77; width];
        assert_eq!(plane.rows().filter(|shown| *shown == row).count(), height);
    }
}
