//! Interleaved chroma, and samples in the top bits.

use crate::case::{Case, case};
use crate::pictures::{plane, rows, words};
use v_frame_proved::semi_planar;

pub const CASES: &[Case] = &[
    case!(
        semi_planar::interleave, "width of target (5) is not twice the width of first (2)",
        plane(2, 3), plane(2, 3), &mut plane(5, 3)
    ),
    case!(
        semi_planar::interleave, "the heights of target (4) and first (3) are not equal",
        plane(2, 3), plane(2, 3), &mut plane(4, 4)
    ),
    case!(
        semi_planar::interleave, "the widths of second (3) and first (2) are not equal",
        plane(2, 3), plane(3, 3), &mut plane(4, 3)
    ),
    case!(
        semi_planar::interleave, "the heights of second (2) and first (3) are not equal",
        plane(2, 3), plane(2, 2), &mut plane(4, 3)
    ),
    case!(
        semi_planar::deinterleave, "width of source (5) is not twice the width of first (2)",
        plane(5, 3), &mut plane(2, 3), &mut plane(2, 3)
    ),
    case!(
        semi_planar::deinterleave, "the heights of source (4) and first (3) are not equal",
        plane(4, 4), &mut plane(2, 3), &mut plane(2, 3)
    ),
    case!(
        semi_planar::deinterleave, "the widths of second (3) and first (2) are not equal",
        plane(4, 3), &mut plane(2, 3), &mut plane(3, 3)
    ),
    case!(
        semi_planar::deinterleave, "the heights of second (2) and first (3) are not equal",
        plane(4, 3), &mut plane(2, 3), &mut plane(2, 2)
    ),
    case!(
        semi_planar::rows::interleave_row, "length of row (5) is not twice the length of first (2)",
        &mut [0_u8; 5], &[1; 2], &[2; 2]
    ),
    case!(
        semi_planar::rows::interleave_row, "the lengths of second (3) and first (2) are not equal",
        &mut [0_u8; 4], &[1; 2], &[2; 3]
    ),
    case!(
        semi_planar::rows::deinterleave_row, "length of row (5) is not twice the length of first (2)",
        &[1_u8; 5], &mut [0; 2], &mut [0; 2]
    ),
    case!(
        semi_planar::rows::deinterleave_row, "the lengths of second (3) and first (2) are not equal",
        &[1_u8; 4], &mut [0; 2], &mut [0; 3]
    ),
    case!(
        semi_planar::rows::interleave, "3 rows of 4 entries, 4 apart, do not fit 11 entries",
        rows(2, 3), rows(2, 3), &mut [0; 11], 4, 3, 4
    ),
    case!(
        semi_planar::rows::interleave, "width (3) is not twice the width of first (2)",
        rows(2, 3), rows(2, 3), &mut [0; 12], 3, 3, 4
    ),
    case!(
        semi_planar::rows::interleave, "height (2) is not the height of first (3)",
        rows(2, 3), rows(2, 3), &mut [0; 12], 4, 2, 4
    ),
    case!(
        semi_planar::rows::interleave, "the widths of second (3) and first (2) are not equal",
        rows(2, 3), rows(3, 3), &mut [0; 12], 4, 3, 4
    ),
    case!(
        semi_planar::rows::interleave, "the heights of second (2) and first (3) are not equal",
        rows(2, 3), rows(2, 2), &mut [0; 12], 4, 3, 4
    ),
    case!(
        semi_planar::rows::deinterleave, "width of source (5) is not twice width (2)",
        rows(5, 2), 2, 2, &mut [0; 4], 2, &mut [0; 5], 3
    ),
    case!(
        semi_planar::rows::deinterleave, "height of source (3) is not height (2)",
        rows(4, 3), 2, 2, &mut [0; 4], 2, &mut [0; 5], 3
    ),
    case!(
        semi_planar::rows::deinterleave, "2 rows of 2 entries, 2 apart, do not fit 3 entries",
        rows(4, 2), 2, 2, &mut [0; 3], 2, &mut [0; 5], 3
    ),
    case!(
        semi_planar::rows::deinterleave, "2 rows of 2 entries, 3 apart, do not fit 4 entries",
        rows(4, 2), 2, 2, &mut [0; 4], 2, &mut [0; 4], 3
    ),
    case!(
        semi_planar::rows::to_top_bits, "3 rows of 4 entries, 4 apart, do not fit 11 entries",
        &mut [0; 11], 4, 3, 4, 10
    ),
    case!(semi_planar::rows::to_top_bits, "bit_depth is 0", &mut [0; 12], 4, 3, 4, 0),
    case!(semi_planar::rows::to_top_bits, "bit_depth (17) is above 16", &mut [0; 12], 4, 3, 4, 17),
    case!(
        semi_planar::rows::from_top_bits, "3 rows of 4 entries, 4 apart, do not fit 11 entries",
        &mut [0; 11], 4, 3, 4, 10
    ),
    case!(semi_planar::rows::from_top_bits, "bit_depth is 0", &mut [0; 12], 4, 3, 4, 0),
    case!(semi_planar::rows::from_top_bits, "bit_depth (17) is above 16", &mut [0; 12], 4, 3, 4, 17),
    case!(semi_planar::to_top_bits, "bit_depth is 0", &mut words(4, 3), 0),
    case!(semi_planar::to_top_bits, "bit_depth (17) is above 16", &mut words(4, 3), 17),
    case!(semi_planar::from_top_bits, "bit_depth is 0", &mut words(4, 3), 0),
    case!(semi_planar::from_top_bits, "bit_depth (17) is above 16", &mut words(4, 3), 17),
];
