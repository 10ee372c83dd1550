//! Copies of pixels and bytes into planes, without gaps and with a stride.

mod support;

use support::draws::draw;
use support::planes::{BORDERED, Layout, blank, bordered, must_be, must_show, showing};
use v_frame_proved::pixel::Pixel;
use v_frame_proved::plane::{CopyError, Plane};

/// The result of a copy with the wrong length.
fn length(expected: usize, found: usize) -> Result<(), CopyError> {
    Err(CopyError::DataLength { expected, found })
}

/// The result of a copy with a stride that is too short.
fn stride(stride: usize, width: usize) -> Result<(), CopyError> {
    Err(CopyError::InvalidStride { stride, width })
}

/// The bytes of a copy and their stride, the result, and the pixels after the copy.
type Copied<'a, T> = (&'a [u8], usize, Result<(), CopyError>, &'a [T]);

/// Copies bytes into a plane, one copy after the other, and compares the results and the pixels.
#[track_caller]
fn check_copies<T: Pixel>(layout: Layout, pixels: &[T], copies: &[Copied<'_, T>]) {
    let mut plane = showing(layout, pixels);
    for (source, stride, answer, after) in copies {
        assert_eq!(plane.copy_from_u8_slice_with_stride(source, *stride), *answer, "{source:?} at {stride}");
        must_be(&plane, layout, after);
    }
}

#[test]
fn bytes_are_copied_without_their_tails() {
    let tails = [10, 20, 30, 99, 99, 40, 50, 60, 99, 99];
    check_copies::<u8>(
        BORDERED,
        &[1, 2, 3, 4, 5, 6],
        &[(&tails[..8], 5, length(10, 8), &[1, 2, 3, 4, 5, 6]), (&tails, 5, Ok(()), &[10, 20, 30, 40, 50, 60])],
    );
}

#[test]
fn strides_and_lengths_that_do_not_fit_change_nothing() {
    check_copies::<u8>(
        [5, 2, 0, 0, 0, 0],
        &[0; 10],
        &[
            (&[1; 8], 4, stride(4, 5), &[0; 10]),
            (&[], 0, stride(0, 5), &[0; 10]),
            (&[1; 11], 5, length(10, 11), &[0; 10]),
            (&[1; 10], 5, Ok(()), &[1; 10]),
            (&[2; 12], 6, Ok(()), &[2; 10]),
        ],
    );
    check_copies::<u8>([2, 2, 0, 0, 0, 0], &[0; 4], &[(&[1; 4], 3, length(6, 4), &[0; 4])]);
}

#[test]
fn strides_whose_length_no_number_holds_change_nothing() {
    check_copies::<u8>(
        [3, 2, 0, 0, 0, 0],
        &[0; 6],
        &[
            (&[1, 2, 3, 4], usize::MAX, length(18446744073709551615, 4), &[0; 6]),
            (&[], 9223372036854775808, length(18446744073709551615, 0), &[0; 6]),
            (&[], 9223372036854775807, length(18446744073709551614, 0), &[0; 6]),
        ],
    );
}

#[test]
fn words_are_copied_by_strides_in_bytes() {
    let tails = [2, 1, 4, 3, 255, 255, 6, 5, 8, 7, 255, 255];
    check_copies::<u16>(
        [2, 2, 0, 0, 0, 0],
        &[0; 4],
        &[
            (&tails[..6], 3, stride(3, 2), &[0; 4]),
            (&tails[..8], 3, stride(3, 2), &[0; 4]),
            (&[], 0, stride(0, 2), &[0; 4]),
            (&tails[..6], 6, length(12, 6), &[0; 4]),
            (&tails, 6, Ok(()), &[0x0102, 0x0304, 0x0506, 0x0708]),
        ],
    );
}

#[test]
fn words_are_copied_packed() {
    let (layout, pixels) = ([2, 2, 1, 0, 0, 1], [0x0102, 0x0304, 0x0506, 0x0708]);
    let mut plane = showing::<u16>(layout, &[0; 4]);
    assert_eq!(plane.copy_from_u8_slice(&[2, 1, 4, 3, 6, 5, 8, 7]), Ok(()));
    must_be(&plane, layout, &pixels);
    assert_eq!(plane.copy_from_u8_slice(&[2, 1, 4, 3]), length(8, 4));
    must_be(&plane, layout, &pixels);
    assert_eq!(plane.copy_from_u8_slice_with_stride(&[2, 1, 4, 3, 99, 6, 5, 8, 7, 99], 5), Ok(()));
    assert_eq!(draw(plane.byte_data(), "ffffffff"), "2/7 1/6 4/5 3/4 6/3 5/2 8/1 7/0");
}

#[test]
fn pixels_of_another_number_change_nothing() {
    let mut plane = showing::<u8>(BORDERED, &[0; 6]);
    for (pixels, found) in [(&[1, 2, 3, 4, 5][..], 5), (&[1; 3], 3), (&[1; 9], 9)] {
        assert_eq!(plane.copy_from_slice(pixels), length(6, found));
        must_be(&plane, BORDERED, &[0; 6]);
    }
    assert_eq!(plane.copy_from_slice(&[1, 2, 3, 4, 5, 6]), Ok(()));
    must_be(&plane, BORDERED, &[1, 2, 3, 4, 5, 6]);
}

/// Returns `count` bytes that begin with `first` and increase by `step`.
fn stepped(first: u8, step: u8, count: usize) -> impl Iterator<Item = u8> {
    (0..count).scan(first, move |next, _| Some(std::mem::replace(next, next.wrapping_add(step))))
}

/// Returns the 16-bit words with these bytes, in little-endian order.
fn words_of(bytes: &[u8]) -> Vec<u16> {
    bytes.chunks_exact(2).map(|pair| u16::from_le_bytes([pair[0], pair[1]])).collect()
}

/// Widths of planes of 16-bit pixels, strides of their two rows in bytes, and the last pixel of the second row.
const WIDTHS: [(usize, usize, u16); 5] =
    [(1, 3, 0x2720), (15, 31, 0xEBE4), (16, 33, 0xF9F2), (17, 35, 0x0700), (33, 67, 0xE7E0)];

#[test]
fn words_of_each_width_are_copied_by_strides() {
    for (width, stride, last) in WIDTHS {
        let layout = [width, 2, 3, 1, 0, 0];
        let rows = [1, 32].map(|first| stepped(first, 7, stride).collect::<Vec<_>>());
        let words = rows.each_ref().map(|row| words_of(&row[..2 * width])).concat();
        let mut planes: [Plane<u16>; 2] = [showing(layout, &vec![0; 2 * width]), bordered(layout)];
        for plane in &mut planes {
            assert_eq!(plane.copy_from_u8_slice_with_stride(&rows.concat(), stride), Ok(()));
            let found = [plane.pixel(0, 0), plane.pixel(0, 1), plane.pixel(width - 1, 1)];
            assert_eq!(found, [Some(0x0801), Some(0x2720), Some(last)], "{width} columns");
        }
        must_be(&planes[0], layout, &words);
        must_show(&planes[1], |x, y| words[y * width + x]);
    }
}

/// Widths of planes of 16-bit pixels, with the first and the last pixel of the second row.
///
/// Byte j of the source is 37 j + 11 modulo 256, and pixel i has the bytes 2 i and 2 i + 1, in little-endian order.
const PACKED: [(usize, u16, u16); 11] = [
    (16, 0xD0AB, 0x2601),
    (17, 0x1AF5, 0xBA95),
    (18, 0x643F, 0x4E29),
    (31, 0x2601, 0xD2AD),
    (32, 0x704B, 0x6641),
    (33, 0xBA95, 0xFAD5),
    (47, 0xC6A1, 0x12ED),
    (48, 0x10EB, 0xA681),
    (49, 0x5A35, 0x3A15),
    (64, 0xB08B, 0xE6C1),
    (65, 0xFAD5, 0x7A55),
];

#[test]
fn packed_words_of_each_width_leave_a_numbered_border() {
    for (width, below, last) in PACKED {
        let layout = [width, 2, 3, 1, 1, 0];
        let mut plane = showing::<u16>(layout, &vec![0; 2 * width]);
        let bytes: Vec<u8> = stepped(11, 37, 4 * width).collect();
        assert_eq!(plane.copy_from_u8_slice(&bytes), Ok(()));
        let found = [plane.pixel(0, 0), plane.pixel(15, 0), plane.pixel(0, 1), plane.pixels().next_back()];
        assert_eq!(found, [Some(0x300B), Some(0x8661), Some(below), Some(last)], "{width} columns");
        must_be(&plane, layout, &words_of(&bytes));
    }
}

#[test]
fn words_of_rows_of_each_length_come_from_their_bytes() {
    for width in 1..50 {
        let bytes: Vec<u8> = stepped(48, 37, 2 * width).collect();
        let mut plane = showing::<u16>([width, 1, 1, 2, 0, 0], &vec![0; width]);
        assert_eq!(plane.copy_from_u8_slice(&bytes), Ok(()));
        must_be(&plane, [width, 1, 1, 2, 0, 0], &words_of(&bytes));
    }
    let mut plane = blank::<u16>([17, 1, 0, 0, 0, 0]);
    assert_eq!(plane.copy_from_u8_slice(&(0..34).collect::<Vec<u8>>()), Ok(()));
    assert_eq!([0, 15, 16].map(|x| plane.data()[x]), [0x0100, 0x1F1E, 0x2120]);
}

/// Copies bytes into a plane and out of it, which gives the same bytes without those after each row.
fn go_through<T: Pixel>() {
    let (width, height) = (24 / size_of::<T>(), 8);
    let mut plane = bordered::<T>([width, height, 2, 0, 0, 0]);
    let source: Vec<u8> = (0..29 * height).map(|place| (place * 7 % 251) as u8).collect();
    assert_eq!(plane.copy_from_u8_slice_with_stride(&source, 29), Ok(()));
    let wanted: Vec<u8> = source.chunks(29).flat_map(|row| &row[..24]).copied().collect();
    assert!(plane.byte_data().eq(wanted.iter().copied()));
    assert!(plane.byte_data().rev().eq(wanted.iter().rev().copied()));
    let mut packed = showing::<T>(BORDERED, &[T::from(0); 6]);
    assert_eq!(packed.copy_from_u8_slice(&wanted[..6 * size_of::<T>()]), Ok(()));
    assert!(packed.byte_data().eq(wanted[..6 * size_of::<T>()].iter().copied()));
}

#[test]
fn bytes_go_through_a_plane() {
    go_through::<u8>();
    go_through::<u16>();
    let mut plane = showing::<u8>(BORDERED, &[1, 2, 3, 4, 5, 6]);
    assert_eq!(plane.copy_from_u8_slice_with_stride(&[9, 8, 7, 99, 6, 5, 4, 99], 4), Ok(()));
    must_be(&plane, BORDERED, &[9, 8, 7, 6, 5, 4]);
    assert_eq!(plane.copy_from_u8_slice_with_stride(&[9, 8, 7, 99, 6, 5, 4, 99], 2), stride(2, 3));
    must_be(&plane, BORDERED, &[9, 8, 7, 6, 5, 4]);
}

#[test]
fn refusals_say_why() {
    let error = length(6, 5).expect_err("a refusal");
    assert_eq!(error.to_string(), "data length mismatch, expected 6, found 5");
    assert_eq!(format!("{error:?}"), "DataLength { expected: 6, found: 5 }");
    let error = stride(3, 2).expect_err("a refusal");
    assert_eq!(error.to_string(), "provided stride 3 was less than the visible width 2");
    assert_eq!(format!("{error:?}"), "InvalidStride { stride: 3, width: 2 }");
}
