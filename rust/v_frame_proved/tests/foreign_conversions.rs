//! Conversions, blends and statistics of pictures in plain buffers. The entries between the rows must not change. Each test
//! runs with both pixel types.

#![cfg(feature = "std")]

use v_frame_proved::convert::{Component, rows as conversions};
use v_frame_proved::ops::rows as changes;
use v_frame_proved::pixel::Pixel;
use v_frame_proved::plane::RowsRef;
use v_frame_proved::resize::rows as sizes;
use v_frame_proved::rgb::{Bgr, Bgra, ColorOrder, ColorRange, Rgb, RgbMatrix, Rgba, Standard, YuvMatrix, rows as colors};
use v_frame_proved::semi_planar::rows as semi_planar;
use v_frame_proved::statistics::rows as counts;
use v_frame_proved::turn::rows as turns;

/// Returns rows with two entries between them.
fn strided<T: Copy>(rows: &[&[T]], between: T) -> Vec<T> {
    let spread: Vec<T> = rows.iter().flat_map(|row| row.iter().copied().chain([between; 2])).collect();
    spread[..spread.len() - 2].to_vec()
}

fn picture<T>(buffer: &[T], width: usize, height: usize) -> RowsRef<'_, T> {
    RowsRef::new(buffer, width, height, width + 2).unwrap()
}

/// Returns the rows that a call writes over rows of sevens, given the buffer and its stride. Tests that the entries between
/// them do not change.
fn written<T: Pixel>(width: usize, height: usize, call: impl FnOnce(&mut [T], usize)) -> Vec<Vec<T>> {
    let [before, between] = [7, 8].map(T::from);
    let row = vec![before; width];
    let mut buffer = strided(&vec![row.as_slice(); height], between);
    call(&mut buffer, width + 2);
    assert!(buffer.chunks(width + 2).all(|piece| piece[width..].iter().all(|&it| it == between)));
    buffer.chunks(width + 2).map(|piece| piece[..width].to_vec()).collect()
}

/// Returns two pictures of three by two pixels.
fn two<T: Pixel>() -> [Vec<T>; 2] {
    [0, 100].map(|base| {
        let row = |from: u8| [from, from + 1, from + 2].map(T::from);
        strided(&[&row(base + 1), &row(base + 4)], T::from(9))
    })
}

/// Converts rows of integers to rows of pixels.
fn shown<T: Pixel>(rows: &[&[u8]]) -> Vec<Vec<T>> {
    rows.iter().map(|row| row.iter().map(|&it| T::from(it)).collect()).collect()
}

/// Defines a test of a function for each pixel type.
macro_rules! of_both {
    ($($name:ident)*) => {$(
        #[test]
        fn $name() {
            each::$name::<u8>(8);
            each::$name::<u16>(10);
        }
    )*};
}

of_both! { turned resized blended in_another_range interleaved counted }

mod each {
    use super::*;

    pub fn turned<T: Pixel>(_depth: u8) {
        let [numbered, _] = two::<T>();
        let source = picture(&numbered, 3, 2);
        let tall = |call: fn(_, &mut [T], usize, usize, usize)| written(2, 3, |it, s| call(source, it, 2, 3, s));
        let wide = |call: fn(_, &mut [T], usize, usize, usize)| written(3, 2, |it, s| call(source, it, 3, 2, s));
        assert_eq!(tall(turns::transpose), shown(&[&[1, 4], &[2, 5], &[3, 6]]));
        assert_eq!(tall(turns::rotate_90), shown(&[&[4, 1], &[5, 2], &[6, 3]]));
        assert_eq!(tall(turns::rotate_270), shown(&[&[3, 6], &[2, 5], &[1, 4]]));
        assert_eq!(wide(turns::flip_vertical), shown(&[&[4, 5, 6], &[1, 2, 3]]));
        assert_eq!(wide(turns::flip_horizontal), shown(&[&[3, 2, 1], &[6, 5, 4]]));
        assert_eq!(wide(turns::rotate_180), shown(&[&[6, 5, 4], &[3, 2, 1]]));
    }

    pub fn resized<T: Pixel>(_depth: u8) {
        let [numbered, _] = two::<T>();
        let source = picture(&numbered, 3, 2);
        let wide = written(5, 2, |it, s| conversions::upscale(source, it, 5, 2, s, 2, 1));
        assert_eq!(wide, shown(&[&[1, 1, 2, 2, 3], &[4, 4, 5, 5, 6]]));
        let tall = written(3, 3, |it, s| conversions::upscale(source, it, 3, 3, s, 1, 2));
        assert_eq!(tall, shown(&[&[1, 2, 3], &[1, 2, 3], &[4, 5, 6]]));
        let half = written(2, 1, |it, s| conversions::downscale_to_edge(source, it, 2, 1, s));
        assert_eq!(half, shown(&[&[3, 5]]));
        let narrow = written(2, 2, |it, s| conversions::halve_columns(source, it, 2, 2, s));
        assert_eq!(narrow, shown(&[&[2, 3], &[5, 6]]));
        assert_eq!(written(1, 2, |it, s| sizes::resize_area(source, it, 1, 2, s)), shown(&[&[2], &[5]]));
        assert_eq!(written(1, 1, |it, s| sizes::resize_nearest(source, it, 1, 1, s)), shown(&[&[5]]));
    }

    pub fn blended<T: Pixel>(depth: u8) {
        let [numbered, over] = two::<T>();
        let (source, over) = (picture(&numbered, 3, 2), picture(&over, 3, 2));
        let quarter = written(3, 2, |it, s| changes::blend(over, it, 3, 2, s, 64));
        assert_eq!(quarter, shown(&[&[31, 31, 31], &[31, 32, 32]]));
        let mask = strided::<u8>(&[&[0, 255, 51], &[0, 255, 0]], 9);
        let mask = picture(&mask, 3, 2);
        let masked = written(3, 2, |it, s| changes::blend_with_mask(over, mask, it, 3, 2, s));
        assert_eq!(masked, shown(&[&[7, 102, 26], &[7, 105, 7]]));
        let difference = written(3, 2, |it, s| changes::difference(source, it, 3, 2, s, 2, depth));
        assert_eq!(difference, shown(&[&[12, 10, 8], &[6, 4, 2]]));
    }

    pub fn in_another_range<T: Pixel>(_depth: u8) {
        let [numbered, _] = two::<T>();
        let source = picture(&numbered, 3, 2);
        let full = written(3, 2, |it, s| conversions::to_full_range(source, it, 3, 2, s, Component::Luma, 8));
        assert_eq!(full, shown(&[&[0, 0, 0], &[0, 0, 0]]));
        let limited = written(3, 2, |it, s| conversions::to_limited_range(source, it, 3, 2, s, Component::Luma, 8));
        assert_eq!(limited, shown(&[&[17, 18, 19], &[19, 20, 21]]));
    }

    pub fn interleaved<T: Pixel>(_depth: u8) {
        let [numbered, over] = two::<T>();
        let (source, over) = (picture(&numbered, 3, 2), picture(&over, 3, 2));
        let both = written(6, 2, |it, s| semi_planar::interleave(source, over, it, 6, 2, s));
        assert_eq!(both, shown(&[&[1, 101, 2, 102, 3, 103], &[4, 104, 5, 105, 6, 106]]));
        let joined = both.concat();
        let joined = RowsRef::new(&joined, 6, 2, 6).unwrap();
        let mut second = vec![];
        let first = written(3, 2, |first, s| {
            second = written(3, 2, |second, t| semi_planar::deinterleave(joined, 3, 2, first, s, second, t));
        });
        assert_eq!(first, shown(&[&[1, 2, 3], &[4, 5, 6]]));
        assert_eq!(second, shown(&[&[101, 102, 103], &[104, 105, 106]]));
    }

    pub fn counted<T: Pixel>(_depth: u8) {
        let [numbered, over] = two::<T>();
        let (source, over) = (picture(&numbered, 3, 2), picture(&over, 3, 2));
        let found = counts::statistics(source);
        assert_eq!((found.count, found.sum, found.sum_of_squares), (6, 21, 91));
        assert_eq!((found.minimum, found.maximum), (T::from(1), T::from(6)));
        let pairs = counts::pair_sums(source, over);
        assert_eq!((pairs.first, pairs.second, pairs.first_squares, pairs.products), (21, 621, 91, 2191));
        assert_eq!(pairs.second_squares, (101u128..=106).map(|it| it * it).sum::<u128>());
        assert_eq!(counts::count_pixels(source, |p| T::from(2) <= p && p <= T::from(5)), 4);
    }
}

#[test]
fn depths() {
    let words = strided::<u16>(&[&[0, 505, 506], &[1023, 1024, 65535]], 9);
    let source = picture(&words, 3, 2);
    let narrow = written::<u8>(3, 2, |it, s| conversions::convert_depth(source, it, 3, 2, s, 10, 8));
    assert_eq!(narrow, [[0, 126, 127], [255, 255, 255]]);
    let wide = written::<u16>(3, 2, |it, s| conversions::convert_depth(source, it, 3, 2, s, 10, 12));
    assert_eq!(wide, [[0, 2020, 2024], [4092, 4092, 4092]]);
    let bytes = RowsRef::new(&[0u8, 255], 2, 1, 2).unwrap();
    assert_eq!(written::<u16>(2, 1, |it, s| conversions::convert_depth(bytes, it, 2, 1, s, 8, 10)), [[0, 1020]]);
}

/// Converts two colors to planes and back. A step of a plane changes a channel by at most two.
fn comes_back<O: ColorOrder>(bytes: usize) {
    let pixels: Vec<u8> = [[200, 60, 60, 255], [50, 180, 70, 255]].iter().flat_map(|it| it[..bytes].to_vec()).collect();
    let source = RowsRef::new(&pixels, 2 * bytes, 1, 2 * bytes).unwrap();
    let (standard, range) = (Standard::Bt601, ColorRange::Full);
    let [mut y, mut u, mut v] = [[0u8; 2]; 3];
    colors::rgb_to_yuv444::<O>(source, &mut y, &mut u, &mut v, 2, 1, (2, 2, 2), YuvMatrix::new(standard, range));
    let [y, u, v] = [&y, &u, &v].map(|plane| RowsRef::new(plane, 2, 1, 2).unwrap());
    let matrix = RgbMatrix::new(standard, range);
    let back = written::<u8>(2 * bytes, 1, |it, s| colors::yuv444_to_rgb::<O>(y, u, v, it, 2 * bytes, 1, s, matrix));
    assert!(back[0].iter().zip(&pixels).all(|(a, b)| a.abs_diff(*b) <= 2), "{back:?}");
}

#[test]
fn colors_become_planes_and_colors_again() {
    comes_back::<Rgb>(3);
    comes_back::<Bgr>(3);
    comes_back::<Rgba>(4);
    comes_back::<Bgra>(4);
}

#[test]
fn histograms() {
    let bytes = strided::<u8>(&[&[7, 7, 255], &[0, 7, 0]], 9);
    let found = counts::histogram(picture(&bytes, 3, 2));
    assert_eq!((found[0], found[7], found[9], found[255]), (2, 3, 0, 1));
    let words = strided::<u16>(&[&[7, 1023], &[1024, 65535]], 9);
    let mut found = vec![5; 1024];
    counts::histogram_into(picture(&words, 2, 2), &mut found);
    assert_eq!((found[7], found[9], found[1023], found.iter().sum::<u64>()), (1, 0, 1, 2));
    counts::histogram_into(picture(&words, 2, 2), &mut []);
}
