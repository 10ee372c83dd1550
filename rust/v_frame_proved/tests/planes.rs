//! Planes: reading, writing, debug texts and clones.

mod support;

use support::planes::{BORDERED, Layout, blank, bordered, geometry, in_numbered_border, must_be, plane_of, showing};
use v_frame_proved::pixel::Pixel;
use v_frame_proved::plane::{Plane, PlaneRef, visible_rows_mut};

#[test]
fn a_blank_plane_is_zero_and_a_pixel_past_its_width_shows_in_no_row() {
    let layout = [4, 3, 2, 2, 1, 1];
    let mut plane = blank::<u8>(layout);
    assert_eq!([plane.pixel(5, 3), plane.pixel(6, 3)], [Some(0), None]);
    assert_eq!(plane.data(), [0; 40]);
    *plane.pixel_mut(4, 0).expect("an entry") = 7;
    assert_eq!(plane.pixel(4, 0), Some(7));
    let wanted: Vec<u8> = (0..40).map(|place| if place == 14 { 7 } else { 0 }).collect();
    assert_eq!(plane.data(), wanted);
    assert!(plane.rows().eq([[0; 4]; 3]));
}

#[test]
fn a_pixel_past_the_width_is_in_the_next_row_and_none_is_far_away() {
    let plane = plane_of::<u8>([4, 4, 0, 0, 0, 0], &[1, 2, 3, 4, 5, 6, 7, 8, 9, 10, 11, 12, 13, 14, 15, 16]);
    let places = [(0, 4), (16, 0), (usize::MAX, usize::MAX), (4, 0), (0, 1)];
    assert_eq!(places.map(|(x, y)| plane.pixel(x, y)), [None, None, None, Some(5), Some(5)]);
    let mut plane = plane_of::<u8>([2, 1, 0, 0, 0, 0], &[1, 2]);
    let places = [(0, 9223372036854775808), (usize::MAX, 1), (2, 0)];
    assert_eq!(places.map(|(x, y)| plane.pixel(x, y)), [None; 3]);
    assert_eq!(plane.row(usize::MAX), None);
    assert_eq!(plane.pixel_mut(0, usize::MAX), None);
    assert_eq!(plane.row_mut(usize::MAX), None);
}

#[test]
fn rows_and_pixels_are_written_in_place() {
    let mut plane = blank::<u8>([4, 3, 0, 0, 0, 0]);
    plane.row_mut(1).expect("a row").copy_from_slice(&[0, 1, 2, 3]);
    assert_eq!(plane.data(), [0, 0, 0, 0, 0, 1, 2, 3, 0, 0, 0, 0]);
    assert_eq!(plane.row(100), None);
    let mut plane = blank::<u8>([4, 4, 0, 0, 0, 0]);
    for (x, y, value) in [(0, 0, 10), (2, 1, 20), (3, 3, 30)] {
        *plane.pixel_mut(x, y).expect("a pixel") = value;
        assert_eq!(plane.pixel(x, y), Some(value));
    }
    assert_eq!(plane.data(), [10, 0, 0, 0, 0, 0, 20, 0, 0, 0, 0, 0, 0, 0, 0, 30]);
    assert_eq!([plane.pixel(1, 1), plane.pixel(100, 100)], [Some(0), None]);
}

/// Tests that a new plane of this width, two rows high, has its rows and its stride, and is zero everywhere.
fn check_new<T: Pixel>(width: usize) {
    let plane = blank::<T>([width, 2, 1, 0, 1, 1]);
    let found = [plane.width(), plane.height(), plane.geometry().stride(), plane.rows().len()];
    assert_eq!(found, [width, 2, width + 1, 2]);
    assert!(plane.rows().all(|row| row.len() == width));
    assert_eq!(plane.data(), vec![T::from(0); (width + 1) * 4]);
}

#[test]
fn planes_of_each_width_are_new() {
    for width in 1..34 {
        check_new::<u8>(width);
        check_new::<u16>(width);
    }
    assert_eq!(blank::<u16>([32, 16, 0, 0, 0, 0]).data(), [0; 512]);
    assert_eq!(blank::<u16>(BORDERED).geometry(), geometry(BORDERED));
}

#[test]
fn buffers_begin_at_addresses_that_64_divides() {
    for layout in [[1, 1, 0, 0, 0, 0], [33, 7, 1, 2, 3, 4], [640, 480, 16, 16, 16, 16]] {
        let (bytes, words) = (blank::<u8>(layout), blank::<u16>(layout));
        let addresses =
            [bytes.data().as_ptr().addr(), words.data().as_ptr().addr(), words.clone().data().as_ptr().addr()];
        assert_eq!(addresses.map(|address| address % 64), [0; 3], "{layout:?}");
    }
}

/// Returns a plane with these pixels in which all padding is 200.
fn in_200(pixels: &[u8; 6]) -> Plane<u8> {
    let mut plane = bordered(BORDERED);
    plane.data_mut().fill(200);
    plane.copy_from_slice(pixels).expect("six pixels");
    plane
}

/// Changes a plane with numbered padding and a plane with one value in its padding. Compares the pixels, and tests that the
/// padding is unchanged.
#[track_caller]
fn in_both_borders(change: impl Fn(&mut Plane<u8>), wanted: &[u8; 6]) {
    let pixels = [1, 2, 3, 4, 5, 6];
    let (mut numbered, mut even) = (showing(BORDERED, &pixels), in_200(&pixels));
    change(&mut numbered);
    change(&mut even);
    must_be(&numbered, BORDERED, wanted);
    assert_eq!(even, in_200(wanted));
}

#[test]
fn pixels_are_written_call_by_call() {
    let change = |plane: &mut Plane<u8>| {
        let mut pixels = plane.pixels_mut();
        let last = pixels.next_back().map(|pixel| std::mem::replace(pixel, 9));
        assert_eq!((last, pixels.len()), (Some(6), 5));
        assert_eq!((pixels.next(), pixels.len()), (Some(&mut 1), 4));
        let second = pixels.next().map(|pixel| std::mem::replace(pixel, 7));
        assert_eq!((second, pixels.size_hint()), (Some(2), (3, Some(3))));
    };
    in_both_borders(change, &[1, 7, 3, 4, 5, 9]);
}

#[test]
fn iterators_that_write_nothing_leave_the_buffer() {
    in_both_borders(|plane| _ = (plane.rows_mut().count(), plane.pixels_mut().count()), &[1, 2, 3, 4, 5, 6]);
}

#[test]
fn rows_and_pixels_are_held_and_written_once_their_iterator_is_gone() {
    let rows = |plane: &mut Plane<u8>| {
        let mut rows = plane.rows_mut();
        let (first, last) = (rows.next().expect("a row"), rows.next_back().expect("a row"));
        last[0] = 40;
        first[2] = 30;
    };
    in_both_borders(rows, &[1, 2, 30, 40, 5, 6]);
    let pixels = |plane: &mut Plane<u8>| {
        let mut pixels = plane.pixels_mut();
        let (first, last) = (pixels.next().expect("a pixel"), pixels.next_back().expect("a pixel"));
        *last = 9;
        *first = 7;
    };
    in_both_borders(pixels, &[7, 2, 3, 4, 5, 9]);
}

#[test]
fn held_words_are_written_in_another_order() {
    let layout = [2, 2, 1, 0, 0, 1];
    let mut plane = showing::<u16>(layout, &[1, 2, 3, 4]);
    let mut pixels = plane.pixels_mut();
    let (_last, first, held) =
        (pixels.next_back(), pixels.next().expect("a pixel"), pixels.next_back().expect("a pixel"));
    *held = 20;
    *first = 10;
    assert_eq!(std::mem::replace(first, 11), 10);
    must_be(&plane, layout, &[11, 2, 20, 4]);
}

/// Writes the numbers from 0 on to the pixels of a plane with numbered padding.
fn check_counted(layout: Layout) {
    let size = layout[0] * layout[1];
    let mut plane = showing(layout, &vec![99_u8; size]);
    plane.pixels_mut().zip(0..).for_each(|(pixel, number)| *pixel = number);
    let wanted: Vec<u8> = (0..size as u8).collect();
    assert!(plane.pixels().eq(wanted.iter().copied()));
    must_be(&plane, layout, &wanted);
}

#[test]
fn filled_pixels_are_read_back_in_order() {
    check_counted([4, 3, 2, 2, 1, 1]);
    check_counted([2, 3, 0, 0, 0, 0]);
}

#[test]
fn rows_are_filled_from_both_ends() {
    for layout in [[3, 3, 0, 0, 0, 0], [3, 3, 1, 2, 1, 1]] {
        let mut plane = showing(layout, &[0_u8; 9]);
        let mut rows = plane.rows_mut();
        assert_eq!((rows.len(), rows.size_hint()), (3, (3, Some(3))));
        rows.next().expect("a row").fill(1);
        rows.next_back().expect("a row").fill(3);
        assert_eq!(rows.len(), 1);
        rows.next().expect("a row").fill(2);
        assert_eq!(rows.next(), None);
        must_be(&plane, layout, &[1, 1, 1, 2, 2, 2, 3, 3, 3]);
    }
}

#[test]
fn pixels_are_filled_from_both_ends() {
    let mut plane = blank::<u8>([2, 2, 0, 0, 0, 0]);
    let mut pixels = plane.pixels_mut();
    let fill = |pixel: Option<&mut u8>, value| pixel.map(|pixel| std::mem::replace(pixel, value));
    let found = [
        fill(pixels.next(), 10),
        fill(pixels.next_back(), 40),
        fill(pixels.next(), 20),
        fill(pixels.next(), 30),
        fill(pixels.next(), 50),
    ];
    assert_eq!(found, [Some(0), Some(0), Some(0), Some(0), None]);
    assert_eq!(plane.data(), [10, 20, 30, 40]);
}

#[test]
fn two_rows_are_written_at_once() {
    let mut entries = in_numbered_border::<u8>(BORDERED, &[1, 2, 3, 4, 5, 6]);
    let (row, other) = visible_rows_mut(&mut entries, geometry(BORDERED), 0, 1);
    row.fill(8);
    other.fill(9);
    assert_eq!(entries, in_numbered_border(BORDERED, &[8, 8, 8, 9, 9, 9]));
}

#[test]
fn a_clone_is_a_plane_of_its_own() {
    let mut plane = plane_of::<u8>([3, 3, 0, 0, 0, 0], &[0, 1, 2, 3, 4, 5, 6, 7, 8]);
    let copy = plane.clone();
    *plane.pixel_mut(0, 0).expect("a pixel") = 100;
    assert_eq!(plane.pixel(0, 0), Some(100));
    assert_eq!(copy.data(), [0, 1, 2, 3, 4, 5, 6, 7, 8]);
    let words = plane_of::<u16>([8, 1, 0, 0, 0, 0], &[1, 2, 3, 4, 5, 6, 7, 65535]);
    let mut copy = words.try_clone().expect("memory");
    assert_eq!(copy, words);
    *copy.pixel_mut(5, 0).expect("a pixel") = 0;
    assert_ne!(copy, words);
    let bordered = plane_of::<u8>([2, 2, 0, 1, 0, 0], &[1, 2, 9, 3, 4, 8]);
    assert_eq!(bordered.clone(), bordered);
}

/// The debug text of a geometry without padding.
fn shown_geometry(width: usize, height: usize) -> String {
    format!(
        "geometry: PlaneGeometry {{ width: {width}, height: {height}, stride: {width}, pad_left: 0, pad_right: 0, \
         pad_top: 0, pad_bottom: 0, subsampling_x: 1, subsampling_y: 1 }}"
    )
}

#[test]
fn planes_show_five_entries_at_most_and_their_geometry() {
    let planes: [(usize, usize, &[u8], &str); 4] = [
        (3, 1, &[0, 7, 0], "[0, 7, 0]"),
        (5, 1, &[1, 2, 3, 4, 5], "[1, 2, 3, 4, 5]"),
        (12, 1, &[0, 0, 0, 0, 42, 0, 0, 0, 0, 0, 123, 0], "[0, 0, 0, 0, 42, ..]"),
        (3, 3, &[0, 1, 2, 3, 4, 5, 6, 7, 8], "[0, 1, 2, 3, 4, ..]"),
    ];
    for (width, height, buffer, data) in planes {
        let plane = plane_of([width, height, 0, 0, 0, 0], buffer);
        assert_eq!(format!("{plane:?}"), format!("Plane {{ data: {data}, {} }}", shown_geometry(width, height)));
    }
    let lent = PlaneRef::new(geometry([2, 1, 0, 0, 0, 0]), [5_u8, 6].as_slice()).expect("a plane");
    assert_eq!(format!("{lent:?}"), format!("PlaneRef {{ data: [5, 6], {} }}", shown_geometry(2, 1)));
}
