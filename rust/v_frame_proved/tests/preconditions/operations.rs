//! Changes, comparisons and blends.

use crate::case::{Case, case};
use crate::pictures::{geometry, plane, rows, words};
use v_frame_proved::ops;

pub const CASES: &[Case] = &[
    case!(
        ops::pad_buffer, "a buffer of 11 entries is not that of PlaneGeometry { width: 4, height: 3",
        &mut [0_u8; 11], geometry(4, 3)
    ),
    case!(
        ops::combine_pixels, "the widths of other (5) and plane (4) are not equal",
        &mut plane(4, 3), plane(5, 3), |pixel, _| pixel
    ),
    case!(
        ops::combine_pixels, "the heights of other (2) and plane (3) are not equal",
        &mut plane(4, 3), plane(4, 2), |pixel, _| pixel
    ),
    case!(
        ops::copy_region, "x (2) plus the width of source (3) is above the width of target (4)",
        plane(3, 3), &mut plane(4, 3), 2, 0
    ),
    case!(
        ops::copy_region, "x (18446744073709551615) plus the width of source (3) is above the width of target (4)",
        plane(3, 3), &mut plane(4, 3), usize::MAX, 0
    ),
    case!(
        ops::copy_region, "y (1) plus the height of source (3) is above the height of target (3)",
        plane(3, 3), &mut plane(4, 3), 1, 1
    ),
    case!(
        ops::copy_region, "y (18446744073709551615) plus the height of source (3) is above the height of target (3)",
        plane(3, 3), &mut plane(4, 3), 1, usize::MAX
    ),
    case!(ops::blend_region, "weight (257) is above 256", plane(3, 3), &mut plane(4, 3), 1, 0, 257),
    case!(
        ops::blend_region, "x (2) plus the width of source (3) is above the width of target (4)",
        plane(3, 3), &mut plane(4, 3), 2, 0, 256
    ),
    case!(
        ops::blend_region, "y (1) plus the height of source (3) is above the height of target (3)",
        plane(3, 3), &mut plane(4, 3), 1, 1, 256
    ),
    case!(
        ops::blend_region_with_mask, "x (2) plus the width of source (3) is above the width of target (4)",
        plane(3, 3), plane(3, 3), &mut plane(4, 3), 2, 0
    ),
    case!(
        ops::blend_region_with_mask, "y (1) plus the height of source (3) is above the height of target (3)",
        plane(3, 3), plane(3, 3), &mut plane(4, 3), 1, 1
    ),
    case!(
        ops::blend_region_with_mask, "the widths of mask (4) and source (3) are not equal",
        plane(3, 3), plane(4, 3), &mut plane(4, 3), 1, 0
    ),
    case!(
        ops::blend_region_with_mask, "the heights of mask (2) and source (3) are not equal",
        plane(3, 3), plane(3, 2), &mut plane(4, 3), 1, 0
    ),
    case!(ops::difference, "the widths of other (5) and plane (4) are not equal", plane(5, 3), &mut plane(4, 3), 1, 8),
    case!(ops::difference, "the heights of other (2) and plane (3) are not equal", plane(4, 2), &mut plane(4, 3), 1, 8),
    case!(ops::difference, "depth (9) is above 8 times size_of::<T>() (1)", plane(4, 3), &mut plane(4, 3), 1, 9),
    case!(ops::difference, "depth (17) is above 8 times size_of::<T>() (2)", words(4, 3), &mut words(4, 3), 1, 17),
    case!(ops::downscale, "width of source (7) is not twice the width of target (4)", plane(7, 6), &mut plane(4, 3)),
    case!(ops::downscale, "height of source (7) is not twice the height of target (3)", plane(8, 7), &mut plane(4, 3)),
    case!(ops::sum_of_absolute_differences, "the widths of a (5) and b (4) are not equal", plane(5, 3), plane(4, 3)),
    case!(ops::sum_of_absolute_differences, "the heights of a (2) and b (3) are not equal", plane(4, 2), plane(4, 3)),
    case!(ops::sum_of_squared_errors, "the widths of a (5) and b (4) are not equal", plane(5, 3), plane(4, 3)),
    case!(ops::sum_of_squared_errors, "the heights of a (2) and b (3) are not equal", plane(4, 2), plane(4, 3)),
    case!(ops::first_difference, "the widths of a (5) and b (4) are not equal", plane(5, 3), plane(4, 3)),
    case!(ops::first_difference, "the heights of a (2) and b (3) are not equal", plane(4, 2), plane(4, 3)),
    case!(ops::rows::fill, "3 rows of 4 entries, 4 apart, do not fit 11 entries", &mut [0_u8; 11], 4, 3, 4, 1),
    case!(
        ops::rows::map_pixels, "3 rows of 4 entries, 4 apart, do not fit 11 entries",
        &mut [0_u8; 11], 4, 3, 4, |pixel| pixel
    ),
    case!(
        ops::rows::combine_pixels, "3 rows of 4 entries, 4 apart, do not fit 11 entries",
        &mut [0; 11], 4, 3, 4, rows(4, 3), |pixel, _| pixel
    ),
    case!(
        ops::rows::combine_pixels, "the width of other (5) is not width (4)",
        &mut [0; 12], 4, 3, 4, rows(5, 3), |pixel, _| pixel
    ),
    case!(
        ops::rows::combine_pixels, "the height of other (2) is not height (3)",
        &mut [0; 12], 4, 3, 4, rows(4, 2), |pixel, _| pixel
    ),
    case!(
        ops::rows::downscale, "3 rows of 4 entries, 4 apart, do not fit 11 entries",
        rows(8, 6), &mut [0; 11], 4, 3, 4
    ),
    case!(ops::rows::downscale, "width of source (7) is not twice width (4)", rows(7, 6), &mut [0; 12], 4, 3, 4),
    case!(ops::rows::downscale, "height of source (7) is not twice height (3)", rows(8, 7), &mut [0; 12], 4, 3, 4),
    case!(
        ops::rows::sum_of_absolute_differences, "the widths of a (5) and b (4) are not equal",
        rows(5, 3), rows(4, 3)
    ),
    case!(
        ops::rows::sum_of_absolute_differences, "the heights of a (2) and b (3) are not equal",
        rows(4, 2), rows(4, 3)
    ),
    case!(ops::rows::sum_of_squared_errors, "the widths of a (5) and b (4) are not equal", rows(5, 3), rows(4, 3)),
    case!(ops::rows::sum_of_squared_errors, "the heights of a (2) and b (3) are not equal", rows(4, 2), rows(4, 3)),
    case!(ops::rows::first_difference, "the widths of a (5) and b (4) are not equal", rows(5, 3), rows(4, 3)),
    case!(ops::rows::first_difference, "the heights of a (2) and b (3) are not equal", rows(4, 2), rows(4, 3)),
    case!(
        ops::rows::copy_region_clipped, "3 rows of 4 entries, 4 apart, do not fit 11 entries",
        rows(4, 3), &mut [0; 11], 4, 3, 4, 0, 0
    ),
    case!(
        ops::rows::blend, "3 rows of 4 entries, 4 apart, do not fit 11 entries",
        rows(4, 3), &mut [0; 11], 4, 3, 4, 256
    ),
    case!(ops::rows::blend, "the width of source (5) is not width (4)", rows(5, 3), &mut [0; 12], 4, 3, 4, 256),
    case!(ops::rows::blend, "the height of source (2) is not height (3)", rows(4, 2), &mut [0; 12], 4, 3, 4, 256),
    case!(ops::rows::blend, "weight (257) is above 256", rows(4, 3), &mut [0; 12], 4, 3, 4, 257),
    case!(
        ops::rows::blend_with_mask, "3 rows of 4 entries, 4 apart, do not fit 11 entries",
        rows(4, 3), rows(4, 3), &mut [0; 11], 4, 3, 4
    ),
    case!(
        ops::rows::blend_with_mask, "the width of source (5) is not width (4)",
        rows(5, 3), rows(4, 3), &mut [0; 12], 4, 3, 4
    ),
    case!(
        ops::rows::blend_with_mask, "the height of source (2) is not height (3)",
        rows(4, 2), rows(4, 3), &mut [0; 12], 4, 3, 4
    ),
    case!(
        ops::rows::blend_with_mask, "the width of mask (5) is not width (4)",
        rows(4, 3), rows(5, 3), &mut [0; 12], 4, 3, 4
    ),
    case!(
        ops::rows::blend_with_mask, "the height of mask (2) is not height (3)",
        rows(4, 3), rows(4, 2), &mut [0; 12], 4, 3, 4
    ),
    case!(
        ops::rows::difference, "3 rows of 4 entries, 4 apart, do not fit 11 entries",
        rows(4, 3), &mut [0; 11], 4, 3, 4, 1, 8
    ),
    case!(ops::rows::difference, "the width of other (5) is not width (4)", rows(5, 3), &mut [0; 12], 4, 3, 4, 1, 8),
    case!(ops::rows::difference, "the height of other (2) is not height (3)", rows(4, 2), &mut [0; 12], 4, 3, 4, 1, 8),
    case!(
        ops::rows::difference, "depth (9) is above 8 times size_of::<T>() (1)",
        rows(4, 3), &mut [0; 12], 4, 3, 4, 1, 9
    ),
];
