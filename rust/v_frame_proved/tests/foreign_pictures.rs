//! Pictures in plain buffers with a stride: compared, changed and encoded, and tested against plain loops. The entries between
//! the rows must not change.
use v_frame_proved::ops::{pad_buffer, rows};
use v_frame_proved::plane::{PlaneGeometry, RowsRef, copy_rows, decode_rows, encode_rows};

/// Pseudorandom numbers of a linear congruential generator.
struct Draws(u64);

impl Draws {
    fn next(&mut self) -> u16 {
        self.0 = self.0.wrapping_mul(6_364_136_223_846_793_005).wrapping_add(1_442_695_040_888_963_407);
        (self.0 >> 40) as u16
    }

    fn samples(&mut self, count: usize) -> Vec<u16> {
        (0..count).map(|_| self.next()).collect()
    }
}

#[test]
fn comparisons_are_those_of_plain_loops() {
    let mut draws = Draws(2026);
    for _ in 0..300 {
        let (width, height) = (1 + usize::from(draws.next() % 140), 1 + usize::from(draws.next() % 6));
        let stride = width + usize::from(draws.next() % 5);
        let length = stride * (height - 1) + width;
        let (a, b) = (draws.samples(length), draws.samples(length));
        let first = RowsRef::new(&a, width, height, stride).unwrap();
        let second = RowsRef::new(&b, width, height, stride).unwrap();
        let pairs = || (0..height).flat_map(|y| a[stride * y..][..width].iter().zip(&b[stride * y..][..width]));
        let squares: u128 = pairs().map(|(&p, &q)| u128::from(p.abs_diff(q)).pow(2)).sum();
        let differences: u128 = pairs().map(|(&p, &q)| u128::from(p.abs_diff(q))).sum();
        let place = pairs().position(|(p, q)| p != q).map(|at| (at % width, at / width));
        assert_eq!(rows::sum_of_squared_errors(first, second), squares);
        assert_eq!(rows::sum_of_absolute_differences(first, second), differences);
        assert_eq!(rows::first_difference(first, second), place);
        assert_eq!(rows::first_difference(first, first), None);
    }
}

#[test]
fn changes_leave_what_lies_between_the_rows() {
    let mut buffer = [9u8; 11];
    rows::fill(&mut buffer, 3, 2, 5, 7);
    assert_eq!(buffer, [7, 7, 7, 9, 9, 7, 7, 7, 9, 9, 9]);
    let source = RowsRef::new(&[1, 2, 3, 4, 5, 6], 3, 2, 3).unwrap();
    copy_rows(source, &mut buffer, 3, 2, 5);
    assert_eq!(buffer, [1, 2, 3, 9, 9, 4, 5, 6, 9, 9, 9]);
    let shown = RowsRef::new(&buffer, 3, 2, 5).unwrap();
    assert_eq!(shown.rows().collect::<Vec<_>>(), [[1, 2, 3], [4, 5, 6]]);
}

#[test]
fn a_border_repeats_the_pixels_nearest_to_it() {
    let mut buffer = [0u8, 0, 0, 0, 0, 1, 2, 0, 0, 3, 4, 0, 9];
    let geometry = PlaneGeometry::new(2, 2, 1, 1, 1, 0, 1, 1).unwrap();
    assert_eq!(geometry.alloc_size(), 12);
    pad_buffer(&mut buffer[..12], geometry);
    assert_eq!(buffer, [1, 1, 2, 2, 1, 1, 2, 2, 3, 3, 4, 4, 9]);
}

#[test]
fn half_the_size_is_rounded_upwards_at_a_half() {
    let mut half = [0; 2];
    rows::downscale(RowsRef::new(&[0u16, 1, 5, 5, 1, 0, 5, 6], 4, 2, 4).unwrap(), &mut half, 2, 1, 2);
    assert_eq!(half, [1, 5]);
}

#[test]
fn pixels_of_two_bytes_have_the_low_one_first() {
    let words = [0x0102u16, 0xfffe];
    let mut bytes = [0u8; 4];
    encode_rows(RowsRef::new(&words, 2, 1, 2).unwrap(), &mut bytes, 4, 1, 4);
    assert_eq!(bytes, [2, 1, 0xfe, 0xff]);
    let mut back = [0u16; 2];
    decode_rows(RowsRef::new(&bytes, 4, 1, 4).unwrap(), &mut back, 2, 1, 2);
    assert_eq!(back, words);
}

#[test]
fn rows_that_do_not_fit_are_no_picture() {
    let samples = [0u8; 16];
    for (width, height, stride) in [(0, 2, 4), (4, 0, 4), (4, 2, 3), (5, 4, 4), (4, 4, 5), (2, usize::MAX, usize::MAX)] {
        assert!(RowsRef::new(&samples, width, height, stride).is_none());
    }
    let picture = RowsRef::new(&samples, 4, 2, 4).unwrap();
    assert!(picture.region(1, 1, 4, 1).is_none());
    assert_eq!(picture.region(1, 1, 3, 1).unwrap().width(), 3);
}
