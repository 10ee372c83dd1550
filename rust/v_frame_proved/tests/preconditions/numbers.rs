//! Measures, statistics and resizing.

use crate::case::{Case, case};
use crate::pictures::{LONG, frame, plane, rows, rows_of_nothing, rows_of_words, words};
use v_frame_proved::chroma::ChromaSubsampling::{Monochrome, Yuv420};
use v_frame_proved::{measures, resize, statistics};

pub const CASES: &[Case] = &[
    case!(measures::count_above, "the widths of a (5) and b (4) are not equal", plane(5, 3), plane(4, 3), 3),
    case!(measures::count_above, "the heights of a (2) and b (3) are not equal", plane(4, 2), plane(4, 3), 3),
    case!(measures::greatest_difference, "the widths of a (5) and b (4) are not equal", plane(5, 3), plane(4, 3)),
    case!(measures::greatest_difference, "the heights of a (2) and b (3) are not equal", plane(4, 2), plane(4, 3)),
    case!(measures::mean_squared_error, "the widths of a (5) and b (4) are not equal", plane(5, 3), plane(4, 3)),
    case!(measures::mean_squared_error, "the heights of a (2) and b (3) are not equal", plane(4, 2), plane(4, 3)),
    case!(
        measures::frame_mean_squared_error, "the planes of frames of 4x4 and 6x4 are not the same or not of one size",
        &frame(4, 4, Yuv420), &frame(6, 4, Yuv420)
    ),
    case!(
        measures::frame_mean_squared_error, "the planes of frames of 4x4 and 4x4 are not the same",
        &frame(4, 4, Yuv420), &frame(4, 4, Monochrome)
    ),
    case!(
        measures::frame_ssim, "the planes of frames of 4x4 and 6x4 are not the same or not of one size",
        &frame(4, 4, Yuv420), &frame(6, 4, Yuv420)
    ),
    case!(
        measures::frame_ssim, "the planes of frames of 4x4 and 4x4 are not the same",
        &frame(4, 4, Yuv420), &frame(4, 4, Monochrome)
    ),
    case!(measures::ssim, "the widths of a (5) and b (4) are not equal", plane(5, 3), plane(4, 3), 8),
    case!(measures::ssim, "the heights of a (2) and b (3) are not equal", plane(4, 2), plane(4, 3), 8),
    case!(measures::rows::count_above, "the widths of a (5) and b (4) are not equal", rows(5, 3), rows(4, 3), 3),
    case!(measures::rows::count_above, "the heights of a (2) and b (3) are not equal", rows(4, 2), rows(4, 3), 3),
    case!(measures::rows::greatest_difference, "the widths of a (5) and b (4) are not equal", rows(5, 3), rows(4, 3)),
    case!(measures::rows::greatest_difference, "the heights of a (2) and b (3) are not equal", rows(4, 2), rows(4, 3)),
    case!(measures::rows::mean_squared_error, "the widths of a (5) and b (4) are not equal", rows(5, 3), rows(4, 3)),
    case!(measures::rows::mean_squared_error, "the heights of a (2) and b (3) are not equal", rows(4, 2), rows(4, 3)),
    case!(measures::rows::ssim, "the widths of a (5) and b (4) are not equal", rows(5, 3), rows(4, 3), 8),
    case!(measures::rows::ssim, "the heights of a (2) and b (3) are not equal", rows(4, 2), rows(4, 3), 8),
    case!(
        statistics::count_pairs, "the widths of a (5) and b (4) are not equal",
        plane(5, 3), plane(4, 3), |one, other| one < other
    ),
    case!(
        statistics::count_pairs, "the heights of a (2) and b (3) are not equal",
        plane(4, 2), plane(4, 3), |one, other| one < other
    ),
    case!(statistics::pair_sums, "the widths of a (5) and b (4) are not equal", plane(5, 3), plane(4, 3)),
    case!(statistics::pair_sums, "the heights of a (2) and b (3) are not equal", plane(4, 2), plane(4, 3)),
    case!(
        statistics::rows::count_pairs, "the widths of a (5) and b (4) are not equal",
        rows(5, 3), rows(4, 3), |one, other| one < other
    ),
    case!(
        statistics::rows::count_pairs, "the heights of a (2) and b (3) are not equal",
        rows(4, 2), rows(4, 3), |one, other| one < other
    ),
    case!(statistics::rows::pair_sums, "the widths of a (5) and b (4) are not equal", rows(5, 3), rows(4, 3)),
    case!(statistics::rows::pair_sums, "the heights of a (2) and b (3) are not equal", rows(4, 2), rows(4, 3)),
    case!(statistics::histogram_of_depth, "bit_depth (17) is above 16", words(4, 3), 17),
    case!(statistics::rows::histogram_of_depth, "bit_depth (17) is above 16", rows_of_words(4, 3), 17),
    case!(
        resize::rows::resize_area, "3 rows of 4 entries, 4 apart, do not fit 11 entries",
        rows(5, 2), &mut [0; 11], 4, 3, 4
    ),
    case!(
        resize::rows::resize_nearest, "3 rows of 4 entries, 4 apart, do not fit 11 entries",
        rows(5, 2), &mut [0; 11], 4, 3, 4
    ),
    case!(
        resize::rows::resize_nearest, "width (4611686018427387904) is not below 2^62",
        rows_of_nothing(1, 1), &mut [(); LONG], LONG, 1, LONG
    ),
    case!(
        resize::rows::resize_nearest, "height (4611686018427387904) is not below 2^62",
        rows_of_nothing(1, 1), &mut [(); LONG], 1, LONG, 1
    ),
    case!(
        resize::rows::resize_nearest, "the width of source (4611686018427387904) is not below 2^62",
        rows_of_nothing(LONG, 1), &mut [()], 1, 1, 1
    ),
    case!(
        resize::rows::resize_nearest, "the height of source (4611686018427387904) is not below 2^62",
        rows_of_nothing(1, LONG), &mut [()], 1, 1, 1
    ),
];
