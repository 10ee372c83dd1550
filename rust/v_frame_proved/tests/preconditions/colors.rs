//! Conversions between YUV and RGB.

use crate::case::{Case, case};
use crate::pictures::{plane, rows, to_rgb, to_rgb_exactly, to_yuv};
use v_frame_proved::rgb::{self, Bgra, ChromaU, ColorRange, Luma, Rgb, Standard};

pub const CASES: &[Case] = &[
    case!(
        rgb::yuv444_to_rgb::<Rgb>, "2 rows of 6 entries, 6 apart, do not fit 11 entries",
        plane(2, 2), plane(2, 2), plane(2, 2), &mut [0; 11], 6, 2, 6, to_rgb()
    ),
    case!(
        rgb::yuv444_to_rgb::<Rgb>, "width (5) is not O::BYTES (3) times the width of y (2)",
        plane(2, 2), plane(2, 2), plane(2, 2), &mut [0; 12], 5, 2, 6, to_rgb()
    ),
    case!(
        rgb::yuv444_to_rgb::<Rgb>, "the height of y (3) is not height (2)",
        plane(2, 3), plane(2, 2), plane(2, 2), &mut [0; 12], 6, 2, 6, to_rgb()
    ),
    case!(
        rgb::yuv444_to_rgb::<Rgb>, "the widths of u (3) and y (2) are not equal",
        plane(2, 2), plane(3, 2), plane(2, 2), &mut [0; 12], 6, 2, 6, to_rgb()
    ),
    case!(
        rgb::yuv444_to_rgb::<Rgb>, "the height of u (3) is not height (2)",
        plane(2, 2), plane(2, 3), plane(2, 2), &mut [0; 12], 6, 2, 6, to_rgb()
    ),
    case!(
        rgb::yuv444_to_rgb::<Rgb>, "the widths of v (1) and y (2) are not equal",
        plane(2, 2), plane(2, 2), plane(1, 2), &mut [0; 12], 6, 2, 6, to_rgb()
    ),
    case!(
        rgb::yuv444_to_rgb::<Rgb>, "the height of v (1) is not height (2)",
        plane(2, 2), plane(2, 2), plane(2, 1), &mut [0; 12], 6, 2, 6, to_rgb()
    ),
    case!(
        rgb::rows::yuv444_to_rgb::<Rgb>, "2 rows of 6 entries, 6 apart, do not fit 11 entries",
        rows(2, 2), rows(2, 2), rows(2, 2), &mut [0; 11], 6, 2, 6, to_rgb()
    ),
    case!(
        rgb::rows::yuv444_to_rgb::<Rgb>, "width (5) is not O::BYTES (3) times the width of y (2)",
        rows(2, 2), rows(2, 2), rows(2, 2), &mut [0; 12], 5, 2, 6, to_rgb()
    ),
    case!(
        rgb::rows::yuv444_to_rgb::<Rgb>, "the height of y (3) is not height (2)",
        rows(2, 3), rows(2, 2), rows(2, 2), &mut [0; 12], 6, 2, 6, to_rgb()
    ),
    case!(
        rgb::rows::yuv444_to_rgb::<Rgb>, "the widths of u (3) and y (2) are not equal",
        rows(2, 2), rows(3, 2), rows(2, 2), &mut [0; 12], 6, 2, 6, to_rgb()
    ),
    case!(
        rgb::rows::yuv444_to_rgb::<Rgb>, "the height of u (3) is not height (2)",
        rows(2, 2), rows(2, 3), rows(2, 2), &mut [0; 12], 6, 2, 6, to_rgb()
    ),
    case!(
        rgb::rows::yuv444_to_rgb::<Rgb>, "the widths of v (1) and y (2) are not equal",
        rows(2, 2), rows(2, 2), rows(1, 2), &mut [0; 12], 6, 2, 6, to_rgb()
    ),
    case!(
        rgb::rows::yuv444_to_rgb::<Rgb>, "the height of v (1) is not height (2)",
        rows(2, 2), rows(2, 2), rows(2, 1), &mut [0; 12], 6, 2, 6, to_rgb()
    ),
    case!(
        rgb::rows::yuv444_to_rgb_exactly::<u8, Rgb>, "2 rows of 6 entries, 6 apart, do not fit 11 entries",
        rows(2, 2), rows(2, 2), rows(2, 2), &mut [0; 11], 6, 2, 6, &to_rgb_exactly()
    ),
    case!(
        rgb::rows::yuv444_to_rgb_exactly::<u8, Rgb>, "width (5) is not O::BYTES (3) times the width of y (2)",
        rows(2, 2), rows(2, 2), rows(2, 2), &mut [0; 12], 5, 2, 6, &to_rgb_exactly()
    ),
    case!(
        rgb::rows::yuv444_to_rgb_exactly::<u8, Rgb>, "the height of y (3) is not height (2)",
        rows(2, 3), rows(2, 2), rows(2, 2), &mut [0; 12], 6, 2, 6, &to_rgb_exactly()
    ),
    case!(
        rgb::rows::yuv444_to_rgb_exactly::<u8, Rgb>, "the widths of u (3) and y (2) are not equal",
        rows(2, 2), rows(3, 2), rows(2, 2), &mut [0; 12], 6, 2, 6, &to_rgb_exactly()
    ),
    case!(
        rgb::rows::yuv444_to_rgb_exactly::<u8, Rgb>, "the height of u (3) is not height (2)",
        rows(2, 2), rows(2, 3), rows(2, 2), &mut [0; 12], 6, 2, 6, &to_rgb_exactly()
    ),
    case!(
        rgb::rows::yuv444_to_rgb_exactly::<u8, Rgb>, "the widths of v (1) and y (2) are not equal",
        rows(2, 2), rows(2, 2), rows(1, 2), &mut [0; 12], 6, 2, 6, &to_rgb_exactly()
    ),
    case!(
        rgb::rows::yuv444_to_rgb_exactly::<u8, Rgb>, "the height of v (1) is not height (2)",
        rows(2, 2), rows(2, 2), rows(2, 1), &mut [0; 12], 6, 2, 6, &to_rgb_exactly()
    ),
    case!(rgb::ExactMatrix::new, "depth (7) is below 8", Standard::Bt601, ColorRange::Full, 7),
    case!(rgb::ExactMatrix::new, "depth (17) is above 16", Standard::Bt601, ColorRange::Full, 17),
    case!(
        rgb::rgb_to_channel::<Rgb, ChromaU>, "width of source (5) is not O::BYTES (3) times the width of plane (2)",
        rows(5, 2), &mut plane(2, 2), to_yuv()
    ),
    case!(
        rgb::rgb_to_channel::<Rgb, ChromaU>, "the heights of source (3) and plane (2) are not equal",
        rows(6, 3), &mut plane(2, 2), to_yuv()
    ),
    case!(
        rgb::rgb_to_yuv444::<Bgra>, "width of source (7) is not O::BYTES (4) times the width of y (2)",
        rows(7, 2), &mut plane(2, 2), &mut plane(2, 2), &mut plane(2, 2), to_yuv()
    ),
    case!(
        rgb::rgb_to_yuv444::<Bgra>, "the heights of source (3) and y (2) are not equal",
        rows(8, 3), &mut plane(2, 2), &mut plane(2, 2), &mut plane(2, 2), to_yuv()
    ),
    case!(
        rgb::rgb_to_yuv444::<Bgra>, "the widths of u (3) and y (2) are not equal",
        rows(8, 2), &mut plane(2, 2), &mut plane(3, 2), &mut plane(2, 2), to_yuv()
    ),
    case!(
        rgb::rgb_to_yuv444::<Bgra>, "the heights of u (3) and y (2) are not equal",
        rows(8, 2), &mut plane(2, 2), &mut plane(2, 3), &mut plane(2, 2), to_yuv()
    ),
    case!(
        rgb::rgb_to_yuv444::<Bgra>, "the widths of v (1) and y (2) are not equal",
        rows(8, 2), &mut plane(2, 2), &mut plane(2, 2), &mut plane(1, 2), to_yuv()
    ),
    case!(
        rgb::rgb_to_yuv444::<Bgra>, "the heights of v (1) and y (2) are not equal",
        rows(8, 2), &mut plane(2, 2), &mut plane(2, 2), &mut plane(2, 1), to_yuv()
    ),
    case!(
        rgb::rows::rgb_to_yuv444::<Rgb>, "2 rows of 2 entries, 2 apart, do not fit 3 entries",
        rows(6, 2), &mut [0; 3], &mut [0; 5], &mut [0; 6], 2, 2, (2, 3, 4), to_yuv()
    ),
    case!(
        rgb::rows::rgb_to_yuv444::<Rgb>, "2 rows of 2 entries, 3 apart, do not fit 4 entries",
        rows(6, 2), &mut [0; 4], &mut [0; 4], &mut [0; 6], 2, 2, (2, 3, 4), to_yuv()
    ),
    case!(
        rgb::rows::rgb_to_yuv444::<Rgb>, "2 rows of 2 entries, 4 apart, do not fit 5 entries",
        rows(6, 2), &mut [0; 4], &mut [0; 5], &mut [0; 5], 2, 2, (2, 3, 4), to_yuv()
    ),
    case!(
        rgb::rows::rgb_to_yuv444::<Rgb>, "width of source (5) is not O::BYTES (3) times width (2)",
        rows(5, 2), &mut [0; 4], &mut [0; 5], &mut [0; 6], 2, 2, (2, 3, 4), to_yuv()
    ),
    case!(
        rgb::rows::rgb_to_yuv444::<Rgb>, "height of source (3) is not height (2)",
        rows(6, 3), &mut [0; 4], &mut [0; 5], &mut [0; 6], 2, 2, (2, 3, 4), to_yuv()
    ),
    case!(
        rgb::rows::rgb_to_channel::<Rgb, Luma>, "2 rows of 2 entries, 2 apart, do not fit 3 entries",
        rows(6, 2), &mut [0; 3], 2, 2, 2, to_yuv()
    ),
    case!(
        rgb::rows::rgb_to_channel::<Rgb, Luma>, "width of source (5) is not O::BYTES (3) times width (2)",
        rows(5, 2), &mut [0; 4], 2, 2, 2, to_yuv()
    ),
    case!(
        rgb::rows::rgb_to_channel::<Rgb, Luma>, "height of source (3) is not height (2)",
        rows(6, 3), &mut [0; 4], 2, 2, 2, to_yuv()
    ),
];
