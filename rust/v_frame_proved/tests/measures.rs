//! SSIM, mean squared errors, PSNR and differences, to the last digit.

#![cfg(feature = "std")]

mod support;

use support::cases::{Case, cases, values};
use support::planes::{entry, plane_of};
use v_frame_proved::chroma::ChromaSubsampling::{self, Yuv420, Yuv422};
use v_frame_proved::frame::{Frame, FrameBuilder};
use v_frame_proved::measures::{
    Mean, StreamQuality, count_above, frame_mean_squared_error, frame_ssim, frames_have_one_size, greatest_difference,
    mean_squared_error, peak_ratio, psnr, rows, ssim,
};
use v_frame_proved::pixel::Pixel;
use v_frame_proved::plane::Plane;

const CASES: &str = include_str!("data/measures.txt");

/// Returns the pixels of a picture: the first one, a similar one whose low three bits are changed, or a different one.
fn picture<T: Pixel>(name: &str, columns: usize, rows: usize, depth: u8) -> Vec<T> {
    let factors: Vec<usize> = values(CASES, "factors");
    let factor = if name == "Far" { factors[1] } else { factors[0] };
    let value = |i: usize| {
        let change = if name == "Near" { i % columns * (i / columns) % 8 } else { 0 };
        (entry::<u16>(i, factor, 0) ^ change as u16) & (u16::MAX >> (16 - depth))
    };
    (0..columns * rows).map(|i| T::try_from(value(i)).expect("a value of the type")).collect()
}

fn plane<T: Pixel>(name: &str, columns: usize, rows: usize, depth: u8) -> Plane<T> {
    plane_of([columns, rows, 0, 0, 0, 0], &picture(name, columns, rows, depth))
}

/// Returns whether two numbers of decibels are equal, up to the last digits of a logarithm.
fn are_near(a: f64, b: f64) -> bool {
    (a - b).abs() < 1e-9
}

fn measures<T: Pixel>(case: &Case<'_>, name: &str, (columns, rows): (usize, usize), depth: u8) {
    let (first, second) = (plane::<T>("First", columns, rows, depth), plane::<T>(name, columns, rows, depth));
    let (a, b) = (first.as_plane_ref(), second.as_plane_ref());
    let wanted: Vec<f64> = case.wanted();
    let error = mean_squared_error(&a, &b);
    assert_eq!((ssim(&a, &b, depth), error), (Some(wanted[0]), wanted[1]), "{case}");
    assert!(are_near(psnr(error, depth), wanted[2]), "{case}: {}", psnr(error, depth));
    let greatest = greatest_difference(&a, &b);
    let found = [count_above(&a, &b, 3), greatest.difference.into(), greatest.x, greatest.y];
    assert_eq!(found.map(|number| number as f64), wanted[3..], "{case}");
    assert!(mean_squared_error(&a, &a) < error, "{case}");
    let (a, b) = (a.as_rows_ref(), b.as_rows_ref());
    assert_eq!((rows::ssim(&a, &b, depth), rows::mean_squared_error(&a, &b)), (Some(wanted[0]), error), "{case}");
    assert_eq!(rows::greatest_difference(&a, &b), greatest, "{case}");
    assert_eq!(rows::count_above(&a, &b, 3) as f64, wanted[3], "{case}");
}

#[test]
fn planes_are_measured() {
    for mut case in cases(CASES, "plane") {
        let (name, size, depth) = (case.word(), (case.number(), case.number()), case.number());
        if depth == 8 { measures::<u8>(&case, name, size, depth) } else { measures::<u16>(&case, name, size, depth) }
    }
}

#[test]
fn planes_below_8_by_8_have_no_similarity() {
    for (columns, rows) in [(7, 8), (8, 7)] {
        let plane = plane::<u8>("First", columns, rows, 8);
        assert_eq!(ssim(&plane.as_plane_ref(), &plane.as_plane_ref(), 8), None);
    }
}

/// A faster computation is used if both pictures have only small values.
#[test]
fn pictures_of_small_and_of_large_values_are_exchanged() {
    let (small, large) = (plane::<u16>("First", 72, 12, 8), plane::<u16>("Far", 72, 12, 16));
    let (small, large) = (small.as_plane_ref(), large.as_plane_ref());
    let found = ssim(&small, &large, 16).expect("windows");
    assert_eq!(ssim(&large, &small, 16), Some(found));
    assert!(found > 0.0 && found < 1.0, "{found}");
}

/// A single large value is enough to make the values of a picture large, in the first row as well as in the last.
#[test]
fn one_large_value_stands_in_any_row() {
    let with = |name: &str, large: u16, is_turned: bool| {
        let mut pixels = picture::<u16>(name, 72, 12, 8);
        pixels[3] = large;
        let rows: Vec<&[u16]> = if is_turned { pixels.chunks(72).rev().collect() } else { pixels.chunks(72).collect() };
        plane_of([72, 12, 0, 0, 0, 0], &rows.concat())
    };
    let found = [false, true].map(|is_turned| {
        let (a, b) = (with("First", 60000, is_turned), with("Near", 50000, is_turned));
        ssim(&a.as_plane_ref(), &b.as_plane_ref(), 16).expect("windows")
    });
    assert!((found[0] - found[1]).abs() < 1e-6, "{found:?}");
}

fn blank<T: Pixel>(size: usize, format: ChromaSubsampling, depth: u8) -> Frame<T> {
    FrameBuilder::new(size, size, format, depth).build().expect("a frame")
}

/// Returns a 4:2:0 frame of 16 by 16 pixels with these pictures.
fn frame(names: [&str; 3]) -> Frame<u8> {
    let mut frame = blank(16, Yuv420, 8);
    for (index, name) in names.into_iter().enumerate() {
        let plane = frame.plane_mut(index).expect("a plane");
        let pixels = picture(name, plane.width(), plane.height(), 8);
        plane.copy_from_slice(&pixels).expect("so many pixels");
    }
    frame
}

#[test]
fn frames_are_measured() {
    let (a, b) = (frame(["First"; 3]), frame(["Near", "Near", "Far"]));
    assert!(frames_have_one_size(&a, &b));
    for mut case in cases(CASES, "frame") {
        let found = match case.word() {
            "ssim" => frame_ssim(&a, &b).expect("windows"),
            _ => frame_mean_squared_error(&a, &b),
        };
        case.expect(&[found.y, found.u.expect("Cb"), found.v.expect("Cr"), found.all]);
    }
}

#[test]
fn frames_without_windows_or_of_other_sizes() {
    let (a, b) = (blank::<u16>(16, Yuv420, 10), blank(16, Yuv422, 10));
    assert!(!frames_have_one_size(&a, &b));
    assert_eq!(peak_ratio(frame_mean_squared_error(&a, &a).all, 10), f64::INFINITY);
    let small = blank::<u8>(14, Yuv420, 8);
    assert!(frames_have_one_size(&small, &small));
    assert!(frame_ssim(&small, &small).is_none());
}

#[test]
fn means_of_a_stream() {
    let mut mean = Mean::new();
    assert_eq!(mean.value(), None);
    mean.add(0.8259626791157104);
    assert_eq!(mean.value(), Some(0.8259626791157104));
    let mut quality = StreamQuality::new();
    assert_eq!((quality.mean_of_errors(), quality.mean_of_psnr()), (None, None));
    quality.add(1.0, 8);
    quality.add(100.0, 8);
    assert_eq!(quality.mean_of_errors(), Some(50.5));
    // The mean of 48.1308036... and 28.1308036... The PSNR of the mean error is 31.0978898...
    assert!(are_near(quality.mean_of_psnr().expect("frames"), 38.130_803_608_679_11));
    assert!(are_near(psnr(50.5, 8), 31.097_889_827_492_49));
    assert_eq!(peak_ratio(2.0, 8), 32512.5);
}

/// The PSNR of an error of 7 is 20 log10(2^depth - 1) - 10 log10(7), computed in Python.
#[test]
fn means_of_streams_of_each_depth() {
    let cases = [
        (8, 39.67982320853653),
        (9, 45.71743760255168),
        (10, 51.74653227410063),
        (12, 63.79409772178617),
        (14, 75.83688822496156),
        (16, 87.87848567516242),
    ];
    for (depth, wanted) in cases {
        let mut quality = StreamQuality::new();
        quality.add(7.0, depth);
        assert!(are_near(quality.mean_of_psnr().expect("a frame"), wanted), "{depth} bits: {quality:?}");
    }
}
