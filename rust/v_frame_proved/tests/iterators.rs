//! Iterators over the rows, the pixels and the bytes of planes, called at both ends and after the last item.

mod support;

use std::collections::VecDeque;
use std::fmt::Debug;
use support::draws::{draw, drawn};
use support::planes::{BORDERED, blank, must_be, number_at, paint, plane_of, sample, showing};
use v_frame_proved::pixel::Pixel;
use v_frame_proved::plane::Plane;

#[test]
fn rows_and_pixels_end_past_the_last() {
    let mut plane = showing::<u8>(BORDERED, &[1, 2, 3, 4, 5, 6]);
    let wanted = "[4, 5, 6]/1 [1, 2, 3]/0 -/0";
    assert_eq!([draw(plane.rows(), "bff"), draw(plane.rows_mut(), "bff")], [wanted; 2]);
    let wanted = "1/5 6/4 2/3 5/2 3/1 4/0 -/0";
    assert_eq!([draw(plane.pixels(), "fbfbfbf"), draw(plane.pixels_mut(), "fbfbfbf")], [wanted; 2]);
    must_be(&plane, BORDERED, &[1, 2, 3, 4, 5, 6]);
}

#[test]
fn seven_calls_on_five_rows_leave_the_buffer() {
    let (layout, ten) = ([2, 5, 1, 2, 1, 1], [1, 2, 3, 4, 5, 6, 7, 8, 9, 10]);
    let mut plane = showing::<u8>(layout, &ten);
    let wanted = "[9, 10]/4 [1, 2]/3 [3, 4]/2 [7, 8]/1 [5, 6]/0 -/0 -/0";
    assert_eq!([draw(plane.rows(), "bffbbfb"), draw(plane.rows_mut(), "bffbbfb")], [wanted; 2]);
    let wanted = "1/9 10/8 2/7 9/6 3/5 8/4 4/3";
    assert_eq!([draw(plane.pixels(), "fbfbfbf"), draw(plane.pixels_mut(), "fbfbfbf")], [wanted; 2]);
    must_be(&plane, layout, &ten);
}

#[test]
fn bytes_come_low_byte_first_and_from_both_ends() {
    let plane = plane_of::<u8>([2, 2, 0, 0, 0, 0], &[1, 2, 3, 4]);
    assert_eq!(draw(plane.byte_data(), "fbfb"), "1/3 4/2 2/1 3/0");
    let plane = plane_of::<u16>([2, 1, 0, 0, 0, 0], &[0x0102, 0x0304]);
    assert_eq!(draw(plane.byte_data(), "bffbb"), "3/3 2/2 1/1 4/0 -/0");
    let plane = plane_of::<u16>([2, 2, 0, 0, 0, 0], &[0x0102, 0x0304, 0x0506, 0x0708]);
    assert!(plane.byte_data().eq([2, 1, 4, 3, 6, 5, 8, 7]));
}

#[test]
fn iterators_are_as_long_as_the_plane() {
    for (width, height) in [(10, 5), (1920, 1080)] {
        let plane = blank::<u8>([width, height, 0, 0, 0, 0]);
        assert_eq!((plane.rows().count(), plane.pixels().count()), (height, width * height));
    }
    let layout = [4, 3, 2, 2, 1, 1];
    let bytes = plane_of::<u8>(layout, &(0..40).map(number_at).collect::<Vec<_>>());
    assert_eq!((bytes.byte_data().len(), bytes.byte_data().count()), (12, 12));
    assert_eq!(draw(bytes.byte_data(), "f"), "110/11");
    let words = plane_of::<u16>(layout, &(0..40).map(number_at).collect::<Vec<_>>());
    assert_eq!((words.byte_data().len(), words.byte_data().count()), (24, 24));
    assert_eq!(draw(words.byte_data(), "f"), "10/23");
}

#[test]
fn iterators_are_cloned_and_show_what_is_left() {
    let plane = showing::<u8>(BORDERED, &[1, 2, 3, 4, 5, 6]);
    let mut pixels = plane.pixels();
    assert_eq!(format!("{pixels:?}"), "[1, 2, 3, 4, 5, 6]");
    assert_eq!([pixels.next(), pixels.next_back()], [Some(1), Some(6)]);
    let copy = pixels.clone();
    assert_eq!(pixels.next(), Some(2));
    assert_eq!([pixels.len(), copy.len()], [3, 4]);
    assert_eq!(format!("{copy:?}"), "[2, 3, 4, 5]");
    let mut rows = plane.rows();
    assert_eq!(format!("{rows:?}"), "[[1, 2, 3], [4, 5, 6]]");
    assert_eq!(rows.next(), Some(&[1, 2, 3][..]));
    assert_eq!(format!("{:?}", rows.clone()), "[[4, 5, 6]]");
    assert_eq!(rows.len(), 1);
    let mut bytes = plane.byte_data();
    assert_eq!(bytes.next_back(), Some(6));
    assert_eq!(format!("{:?}", bytes.clone()), "[1, 2, 3, 4, 5]");
}

/// Takes items from both ends of a list.
fn draw_from_list<I: Debug>(items: impl IntoIterator<Item = I>, sides: &str) -> String {
    let mut items: VecDeque<I> = items.into_iter().collect();
    let one = |side| {
        let item = if side == 'f' { items.pop_front() } else { items.pop_back() };
        drawn(&item, items.len())
    };
    sides.chars().map(one).collect::<Vec<_>>().join(" ")
}

/// Tests that the iterators over the rows, the pixels and the bytes of a plane of three columns return the items of a list.
fn check_draws<T: Pixel>() {
    let mut plane: Plane<T> = blank([3, 190, 2, 0, 0, 0]);
    paint(&mut plane, 0);
    let sides = "ffb".repeat(70);
    let pixels: Vec<T> = (0..570).map(|place| sample(0, place % 3, place / 3)).collect();
    let rows = draw_from_list(pixels.chunks(3), &sides);
    assert_eq!([draw(plane.rows(), &sides), draw(plane.rows_mut(), &sides)], [&rows[..], &rows]);
    let bytes = pixels.iter().flat_map(|&pixel| pixel.into().to_le_bytes().into_iter().take(size_of::<T>()));
    assert_eq!(draw(plane.byte_data(), &sides), draw_from_list(bytes, &sides));
    let wanted = draw_from_list(pixels, &sides);
    assert_eq!([draw(plane.pixels(), &sides), draw(plane.pixels_mut(), &sides)], [&wanted[..], &wanted]);
}

#[test]
fn two_hundred_calls_draw_as_from_a_list() {
    check_draws::<u8>();
    check_draws::<u16>();
}
