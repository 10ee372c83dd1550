//! Conversions of bit depths, ranges, chroma and fixed ratios.

use crate::case::{Case, case};
use crate::pictures::{frame, frame_of_small_chroma, plane, rows, words};
use v_frame_proved::chroma::ChromaSubsampling::Yuv420;
use v_frame_proved::convert::Component::{Chroma, Luma};
use v_frame_proved::convert::Scale::{Double, Half, Quarter, Same};
use v_frame_proved::convert;

pub const CASES: &[Case] = &[
    case!(
        convert::upscale, "width of source (2) is not the width of target (3) divided by ratio_x (1), rounded up",
        plane(2, 3), &mut plane(3, 3), 1, 1
    ),
    case!(
        convert::upscale, "width of source (3) is not the width of target (3) divided by ratio_x (0), rounded up",
        plane(3, 3), &mut plane(3, 3), 0, 1
    ),
    case!(
        convert::upscale, "height of source (2) is not the height of target (5) divided by ratio_y (2), rounded up",
        plane(3, 2), &mut plane(3, 5), 1, 2
    ),
    case!(
        convert::upscale, "height of source (3) is not the height of target (3) divided by ratio_y (0), rounded up",
        plane(3, 3), &mut plane(3, 3), 1, 0
    ),
    case!(
        convert::downscale_to_edge, "width of target (3) is not half the width of source (7), rounded up",
        plane(7, 5), &mut plane(3, 3)
    ),
    case!(
        convert::downscale_to_edge, "height of target (2) is not half the height of source (5), rounded up",
        plane(7, 5), &mut plane(4, 2)
    ),
    case!(
        convert::halve_columns, "width of target (3) is not half the width of source (7), rounded up",
        plane(7, 5), &mut plane(3, 5)
    ),
    case!(
        convert::halve_columns, "the heights of target (3) and source (5) are not equal",
        plane(7, 5), &mut plane(4, 3)
    ),
    case!(
        convert::convert_depth, "the widths of source (5) and target (4) are not equal",
        plane(5, 3), &mut plane(4, 3), 8, 8
    ),
    case!(
        convert::convert_depth, "the heights of source (2) and target (3) are not equal",
        plane(4, 2), &mut plane(4, 3), 8, 8
    ),
    case!(
        convert::convert_depth, "from (7) is below 8 or above the bits of a pixel of 1 bytes",
        plane(4, 3), &mut words(4, 3), 7, 10
    ),
    case!(
        convert::convert_depth, "from (9) is below 8 or above the bits of a pixel of 1 bytes",
        plane(4, 3), &mut words(4, 3), 9, 10
    ),
    case!(
        convert::convert_depth, "from (17) is below 8 or above the bits of a pixel of 2 bytes",
        words(4, 3), &mut plane(4, 3), 17, 8
    ),
    case!(
        convert::convert_depth, "to (7) is below 8 or above the bits of a pixel of 2 bytes",
        plane(4, 3), &mut words(4, 3), 8, 7
    ),
    case!(
        convert::convert_depth, "to (9) is below 8 or above the bits of a pixel of 1 bytes",
        words(4, 3), &mut plane(4, 3), 16, 9
    ),
    case!(
        convert::convert_frame, "a frame of 4x4 at 8 bits cannot be converted into this one of 6x4 at 8 bits",
        &frame(4, 4, Yuv420), &mut frame(6, 4, Yuv420)
    ),
    case!(
        convert::convert_frame, "a frame of 4x4 at 8 bits cannot be converted into this one of 4x6 at 8 bits",
        &frame(4, 4, Yuv420), &mut frame(4, 6, Yuv420)
    ),
    case!(
        convert::convert_frame, "a frame of 4x4 at 8 bits cannot be converted into this one of 4x4 at 8 bits",
        &frame_of_small_chroma(), &mut frame(4, 4, Yuv420)
    ),
    case!(
        convert::map_into, "the widths of source (5) and target (4) are not equal",
        plane(5, 3), &mut plane(4, 3), |pixel: u8| pixel
    ),
    case!(
        convert::map_into, "the heights of source (2) and target (3) are not equal",
        plane(4, 2), &mut plane(4, 3), |pixel: u8| pixel
    ),
    case!(convert::subsampled_size, "ratio is 0", 5, 0),
    case!(
        convert::to_full_range, "the widths of source (5) and target (4) are not equal",
        plane(5, 3), &mut plane(4, 3), Luma, 8
    ),
    case!(
        convert::to_full_range, "the heights of source (2) and target (3) are not equal",
        plane(4, 2), &mut plane(4, 3), Luma, 8
    ),
    case!(
        convert::to_full_range, "depth (7) is below 8 or above the bits of a pixel of 1 bytes",
        plane(4, 3), &mut plane(4, 3), Luma, 7
    ),
    case!(
        convert::to_full_range, "depth (17) is below 8 or above the bits of a pixel of 2 bytes",
        words(4, 3), &mut words(4, 3), Chroma, 17
    ),
    case!(
        convert::to_limited_range, "the widths of source (5) and target (4) are not equal",
        plane(5, 3), &mut plane(4, 3), Luma, 8
    ),
    case!(
        convert::to_limited_range, "the heights of source (2) and target (3) are not equal",
        plane(4, 2), &mut plane(4, 3), Luma, 8
    ),
    case!(
        convert::to_limited_range, "depth (7) is below 8 or above the bits of a pixel of 1 bytes",
        plane(4, 3), &mut plane(4, 3), Luma, 7
    ),
    case!(
        convert::to_limited_range, "depth (17) is below 8 or above the bits of a pixel of 2 bytes",
        words(4, 3), &mut words(4, 3), Chroma, 17
    ),
    case!(
        convert::resample, "width of source (7) and the width of target (3) do not belong together at the scale Half",
        plane(7, 5), &mut plane(3, 5), Half, Same, 8, 8
    ),
    case!(
        convert::resample, "height of source (5) and the height of target (8) do not belong together at the scale Double",
        plane(7, 5), &mut plane(7, 8), Same, Double, 8, 8
    ),
    case!(convert::resample, "down is Scale::Quarter", plane(7, 5), &mut plane(7, 2), Same, Quarter, 8, 8),
    case!(
        convert::resample, "from (9) is below 8 or above the bits of a pixel of 1 bytes",
        plane(7, 5), &mut plane(7, 5), Same, Same, 9, 8
    ),
    case!(
        convert::resample, "to (17) is below 8 or above the bits of a pixel of 2 bytes",
        plane(7, 5), &mut words(7, 5), Same, Same, 8, 17
    ),
    case!(
        convert::rows::upscale, "3 rows of 4 entries, 4 apart, do not fit 11 entries",
        rows(2, 3), &mut [0; 11], 4, 3, 4, 2, 1
    ),
    case!(
        convert::rows::upscale, "width of source (3) is not width (4) divided by ratio_x (2), rounded up",
        rows(3, 3), &mut [0; 12], 4, 3, 4, 2, 1
    ),
    case!(
        convert::rows::upscale, "width of source (4) is not width (4) divided by ratio_x (0), rounded up",
        rows(4, 3), &mut [0; 12], 4, 3, 4, 0, 1
    ),
    case!(
        convert::rows::upscale, "height of source (1) is not height (3) divided by ratio_y (2), rounded up",
        rows(2, 1), &mut [0; 12], 4, 3, 4, 2, 2
    ),
    case!(
        convert::rows::upscale, "height of source (3) is not height (3) divided by ratio_y (0), rounded up",
        rows(2, 3), &mut [0; 12], 4, 3, 4, 2, 0
    ),
    case!(
        convert::rows::convert_depth, "3 rows of 4 entries, 4 apart, do not fit 11 entries",
        rows(4, 3), &mut [0_u8; 11], 4, 3, 4, 8, 8
    ),
    case!(
        convert::rows::convert_depth, "the width of source (5) is not width (4)",
        rows(5, 3), &mut [0_u8; 12], 4, 3, 4, 8, 8
    ),
    case!(
        convert::rows::convert_depth, "the height of source (2) is not height (3)",
        rows(4, 2), &mut [0_u8; 12], 4, 3, 4, 8, 8
    ),
    case!(
        convert::rows::convert_depth, "from (9) is below 8 or above the bits of a pixel of 1 bytes",
        rows(4, 3), &mut [0_u16; 12], 4, 3, 4, 9, 10
    ),
    case!(
        convert::rows::convert_depth, "to (7) is below 8 or above the bits of a pixel of 2 bytes",
        rows(4, 3), &mut [0_u16; 12], 4, 3, 4, 8, 7
    ),
    case!(
        convert::rows::downscale_to_edge, "3 rows of 4 entries, 4 apart, do not fit 11 entries",
        rows(7, 5), &mut [0; 11], 4, 3, 4
    ),
    case!(
        convert::rows::downscale_to_edge, "width (3) is not half the width of source (7), rounded up",
        rows(7, 5), &mut [0; 12], 3, 3, 4
    ),
    case!(
        convert::rows::downscale_to_edge, "height (2) is not half the height of source (5), rounded up",
        rows(7, 5), &mut [0; 12], 4, 2, 4
    ),
    case!(
        convert::rows::halve_columns, "3 rows of 4 entries, 4 apart, do not fit 11 entries",
        rows(7, 3), &mut [0; 11], 4, 3, 4
    ),
    case!(
        convert::rows::halve_columns, "width (3) is not half the width of source (7), rounded up",
        rows(7, 3), &mut [0; 12], 3, 3, 4
    ),
    case!(
        convert::rows::halve_columns, "height (2) is not the height of source (3)",
        rows(7, 3), &mut [0; 12], 4, 2, 4
    ),
    case!(
        convert::rows::map_into, "3 rows of 4 entries, 4 apart, do not fit 11 entries",
        rows(4, 3), &mut [0_u8; 11], 4, 3, 4, |pixel: u8| pixel
    ),
    case!(
        convert::rows::map_into, "the width of source (5) is not width (4)",
        rows(5, 3), &mut [0_u8; 12], 4, 3, 4, |pixel: u8| pixel
    ),
    case!(
        convert::rows::map_into, "the height of source (2) is not height (3)",
        rows(4, 2), &mut [0_u8; 12], 4, 3, 4, |pixel: u8| pixel
    ),
    case!(
        convert::rows::to_full_range, "3 rows of 4 entries, 4 apart, do not fit 11 entries",
        rows(4, 3), &mut [0; 11], 4, 3, 4, Chroma, 8
    ),
    case!(
        convert::rows::to_full_range, "the width of source (5) is not width (4)",
        rows(5, 3), &mut [0; 12], 4, 3, 4, Chroma, 8
    ),
    case!(
        convert::rows::to_full_range, "the height of source (2) is not height (3)",
        rows(4, 2), &mut [0; 12], 4, 3, 4, Chroma, 8
    ),
    case!(
        convert::rows::to_full_range, "depth (9) is below 8 or above the bits of a pixel of 1 bytes",
        rows(4, 3), &mut [0; 12], 4, 3, 4, Chroma, 9
    ),
    case!(
        convert::rows::to_limited_range, "3 rows of 4 entries, 4 apart, do not fit 11 entries",
        rows(4, 3), &mut [0; 11], 4, 3, 4, Chroma, 8
    ),
    case!(
        convert::rows::to_limited_range, "the width of source (5) is not width (4)",
        rows(5, 3), &mut [0; 12], 4, 3, 4, Chroma, 8
    ),
    case!(
        convert::rows::to_limited_range, "the height of source (2) is not height (3)",
        rows(4, 2), &mut [0; 12], 4, 3, 4, Chroma, 8
    ),
    case!(
        convert::rows::to_limited_range, "depth (9) is below 8 or above the bits of a pixel of 1 bytes",
        rows(4, 3), &mut [0; 12], 4, 3, 4, Chroma, 9
    ),
    case!(
        convert::rows::resample, "3 rows of 4 entries, 4 apart, do not fit 11 entries",
        rows(7, 3), &mut [0_u8; 11], 4, 3, 4, Half, Same, 8, 8
    ),
    case!(
        convert::rows::resample, "width of source (7) and width (4) do not belong together at the scale Quarter",
        rows(7, 3), &mut [0_u8; 12], 4, 3, 4, Quarter, Same, 8, 8
    ),
    case!(
        convert::rows::resample, "height of source (3) and height (2) do not belong together at the scale Same",
        rows(7, 3), &mut [0_u8; 12], 4, 2, 4, Half, Same, 8, 8
    ),
    case!(convert::rows::resample, "down is Scale::Quarter", rows(7, 12), &mut [0_u8; 12], 4, 3, 4, Half, Quarter, 8, 8),
    case!(
        convert::rows::resample, "from (7) is below 8 or above the bits of a pixel of 1 bytes",
        rows(7, 3), &mut [0_u8; 12], 4, 3, 4, Half, Same, 7, 8
    ),
    case!(
        convert::rows::resample, "to (9) is below 8 or above the bits of a pixel of 1 bytes",
        rows(7, 3), &mut [0_u8; 12], 4, 3, 4, Half, Same, 8, 9
    ),
];
