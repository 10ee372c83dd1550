//! PSNR, SSIM and squared errors of the module `quality`, which rejects meaningless measures. Expected values are those of
//! ffmpeg, or exact fractions.
#![cfg(feature = "std")]

use v_frame_proved::chroma::ChromaSubsampling::{Monochrome, Yuv420, Yuv444};
use v_frame_proved::frame::{Frame, FrameBuilder};
use v_frame_proved::measures;
use v_frame_proved::plane::{Plane, PlaneGeometry};
use v_frame_proved::quality::{MeasureError, frame_mean_squared_error, frame_psnr, frame_ssim, psnr, ssim};
use v_frame_proved::y4m::{Decoder, VideoFrame};

/// Returns a plane of these pixels.
fn plane<T: v_frame_proved::pixel::Pixel>(width: usize, height: usize, pixel: impl Fn(usize, usize) -> T) -> Plane<T> {
    let mut plane = Plane::new(PlaneGeometry::unpadded(width, height, 1, 1).unwrap()).unwrap();
    for (y, row) in plane.rows_mut().enumerate() {
        for (x, entry) in row.iter_mut().enumerate() {
            *entry = pixel(x, y);
        }
    }
    plane
}

/// Returns the number after `name` in a line of `psnr.txt`.
fn number(line: &str, name: &str) -> f64 {
    let (_, rest) = line.split_once(name).unwrap();
    rest.split_whitespace().next().unwrap().parse().unwrap()
}

#[test]
fn psnr_of_two_files_is_as_ffmpeg_says() {
    let clean = Decoder::new(&include_bytes!("data/420_35x27.y4m")[..]).unwrap();
    let noisy = Decoder::new(&include_bytes!("data/420_35x27_noisy.y4m")[..]).unwrap();
    let lines: Vec<&str> = include_str!("data/psnr.txt").lines().collect();
    let frames: Vec<_> = clean.zip(noisy).map(|(a, b)| (a.unwrap(), b.unwrap())).collect();
    assert_eq!((frames.len(), lines.len()), (3, 3));
    for ((clean, noisy), line) in frames.iter().zip(lines) {
        let found = clean.psnr(noisy).unwrap();
        let planes = [
            (found.all, "psnr_avg:"),
            (found.y, "psnr_y:"),
            (found.u.unwrap(), "psnr_u:"),
            (found.v.unwrap(), "psnr_v:"),
        ];
        for (found, name) in planes {
            assert!((found - number(line, name)).abs() <= 0.005, "{name}{found} in {line}");
        }
        let ssim = clean.ssim(noisy).unwrap();
        assert!(ssim.all > 0.0 && ssim.all < 1.0);
        assert_eq!(clean.ssim(clean).unwrap().all, 1.0);
    }
}

#[test]
fn numbers_of_planes_are_those_of_the_formulas() {
    let (a, b) = (plane(8, 8, |x, y| (7 * x + 5 * y) as u8), plane(8, 8, |x, y| (7 * x + 5 * y + x * y % 3) as u8));
    assert!((psnr(&a, &b, 8).unwrap() - 48.339304998410306).abs() < 1e-12);
    assert!((ssim(&a, &b, 8).unwrap() - 0.9991691155391733).abs() < 1e-6);
    let deep = |plane: &Plane<u8>| self::plane(8, 8, |x, y| 4 * u16::from(plane[y][x]));
    let (a, b) = (deep(&a), deep(&b));
    assert!((psnr(a.as_plane_ref(), &b, 10).unwrap() - 48.36481423741516).abs() < 1e-12);
    assert!((ssim(&a, b.as_plane_ref(), 10).unwrap() - 0.9991694136674228).abs() < 1e-6);
    assert_eq!(psnr(&a, &a, 16), Ok(f64::INFINITY));
    assert_eq!(ssim(&a, &a, 9), Ok(1.0));
}

#[test]
fn depths_that_the_pixels_cannot_have_are_refused() {
    let (bytes, words) = (plane(8, 8, |_, _| 1u8), plane(8, 8, |_, _| 1u16));
    for found in 0..=u8::MAX {
        let refused = Err(MeasureError::UnsupportedBitDepth { found });
        if found != 8 {
            assert_eq!((psnr(&bytes, &bytes, found), ssim(&bytes, &bytes, found)), (refused, refused));
        }
        if !(9..=16).contains(&found) {
            assert_eq!((psnr(&words, &words, found), ssim(&words, &words, found)), (refused, refused));
        } else {
            assert_eq!(ssim(&words, &words, found), Ok(1.0));
        }
    }
}

#[test]
fn measures_take_any_depth() {
    assert_eq!(measures::psnr(1.0, 0), f64::NEG_INFINITY);
    assert!(measures::psnr(0.0, 0).is_nan());
    let flat = plane(8, 8, |_, _| 7u8);
    assert!(measures::ssim(&flat, &flat, 0).is_some_and(f64::is_nan));
    let (dark, light) = (plane(8, 8, |x, _| x as u16), plane(8, 8, |_, y| y as u16));
    for depth in [17, u8::MAX] {
        assert_eq!(measures::psnr(1.0, depth), measures::psnr(1.0, 16));
        assert_eq!(measures::ssim(&dark, &light, depth), measures::ssim(&dark, &light, 16));
    }
}

#[test]
fn sizes_that_differ_or_hold_no_window_are_refused() {
    let whole = plane(8, 8, |_, _| 1u8);
    for (width, height) in [(7, 8), (8, 7), (4, 16), (16, 4), (1, 1)] {
        let other = plane(width, height, |_, _| 1u8);
        assert_eq!(psnr(&whole, &other, 8), Err(MeasureError::SizesDiffer));
        assert_eq!(ssim(&other, &whole, 8), Err(MeasureError::SizesDiffer));
        assert_eq!(ssim(&other, &other, 8), Err(MeasureError::TooSmall));
        assert_eq!(psnr(&other, &other, 8), Ok(f64::INFINITY));
    }
    // The bit depth is tested first.
    let other = plane(7, 8, |_, _| 1u8);
    assert_eq!(ssim(&whole, &other, 9), Err(MeasureError::UnsupportedBitDepth { found: 9 }));
}

/// Returns a blank frame of `u16` pixels.
fn frame(width: usize, format: v_frame_proved::chroma::ChromaSubsampling, depth: u8) -> Frame<u16> {
    FrameBuilder::new(width, 16, format, depth).build().unwrap()
}

#[test]
fn frames_that_differ_in_kind_are_refused() {
    let first = frame(16, Yuv420, 10);
    let cases = [
        (frame(16, Yuv420, 12), MeasureError::DepthsDiffer { first: 10, second: 12 }),
        (frame(18, Yuv420, 10), MeasureError::SizesDiffer),
        (frame(16, Yuv444, 10), MeasureError::SizesDiffer),
        (frame(16, Monochrome, 10), MeasureError::SizesDiffer),
    ];
    for (second, error) in cases {
        assert_eq!(frame_mean_squared_error(&first, &second), Err(error));
        assert_eq!(frame_psnr(&first, &second), Err(error));
        assert_eq!(frame_ssim(&first, &second), Err(error));
    }
    let mut third = frame(16, Yuv420, 10);
    third.y_plane[15][3] = 512;
    // One squared error of 2^18 among 384 pixels: 10 log10(1023^2 * 384 / 2^18).
    assert!((frame_psnr(&first, &third).unwrap().all - 31.855425698401895).abs() < 1e-9);
    assert_eq!(frame_psnr(&first, &third).unwrap().u, Some(f64::INFINITY));
    let errors = frame_mean_squared_error(&first, &third).unwrap();
    assert_eq!((errors.y, errors.u, errors.v), (1024.0, Some(0.0), Some(0.0)));
    assert!((errors.all - 262_144.0 / 384.0).abs() < 1e-9);
    assert_eq!(VideoFrame::from(first.clone()).mean_squared_error(&third.clone().into()), Ok(errors));
    let narrow = frame(14, Yuv420, 10);
    assert_eq!(frame_ssim(&narrow, &narrow), Err(MeasureError::TooSmall));
    let mut shallow = (first.clone(), third);
    (shallow.0.bit_depth, shallow.1.bit_depth) = (8.try_into().unwrap(), 8.try_into().unwrap());
    let error = MeasureError::UnsupportedBitDepth { found: 8 };
    assert_eq!(frame_psnr(&shallow.0, &shallow.1), Err(error));
    assert_eq!(frame_mean_squared_error(&shallow.0, &shallow.1), Err(error));
    let bytes = FrameBuilder::new(16, 16, Yuv420, 8).build::<u8>().unwrap();
    let error = MeasureError::DepthsDiffer { first: 10, second: 8 };
    let (first, bytes) = (VideoFrame::from(first), VideoFrame::from(bytes));
    assert_eq!(first.mean_squared_error(&bytes), Err(error));
    assert_eq!(first.psnr(&bytes), Err(error));
    assert_eq!(first.ssim(&bytes), Err(error));
    assert_eq!([&first, &bytes].map(VideoFrame::subsampling), [Yuv420; 2]);
}

#[test]
fn errors_say_what_differs() {
    let texts = [
        (MeasureError::UnsupportedBitDepth { found: 17 }, "the pixels can't have a bit depth of 17"),
        (MeasureError::DepthsDiffer { first: 8, second: 10 }, "bit depths of 8 and 10 differ"),
        (MeasureError::SizesDiffer, "the sizes or the formats differ"),
        (MeasureError::TooSmall, "a plane is smaller than 8 by 8"),
    ];
    for (error, text) in texts {
        assert_eq!(error.to_string(), text);
    }
}

#[test]
fn depths_that_differ_are_the_first_reason() {
    let (mut first, second) = (frame(16, Yuv420, 10), frame(18, Yuv420, 12));
    first.bit_depth = 8.try_into().unwrap();
    let error = MeasureError::DepthsDiffer { first: 8, second: 12 };
    assert_eq!(frame_psnr(&first, &second), Err(error));
    assert_eq!(frame_ssim(&first, &second), Err(error));
    assert_eq!(frame_mean_squared_error(&first, &second), Err(error));
}

/// Tests that the greatest difference of two planes is found with its position, wherever it is, and whichever plane has the
/// larger value.
fn the_greatest_difference_is_found<T: v_frame_proved::pixel::Pixel>(base: T, more: T, most: T, difference: u16) {
    for width in (1..20).chain(31..35).chain(63..67) {
        for at in 0..2 * width {
            let a = plane(width, 2, |_, _| base);
            let b = plane(width, 2, |x, y| match y * width + x {
                place if place == at => most,
                place if place == (at + 1) % (2 * width) => more,
                _ => base,
            });
            let wanted = measures::GreatestDifference { difference, x: at % width, y: at / width };
            assert_eq!(measures::greatest_difference(&a, &b), wanted, "{width}");
            assert_eq!(measures::greatest_difference(&b, &a), wanted, "{width}");
        }
    }
}

#[test]
fn greatest_differences_are_found_at_each_place() {
    the_greatest_difference_is_found::<u8>(3, 9, 255, 252);
    the_greatest_difference_is_found::<u16>(259, 3, 65535, 65276);
}
