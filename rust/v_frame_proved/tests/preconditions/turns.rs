//! Flips and rotations.

use crate::case::{Case, case};
use crate::pictures::{plane, rows};
use v_frame_proved::turn::Turn::{FlipHorizontal, FlipVertical, Rotate90, Rotate180, Rotate270, Transpose};
use v_frame_proved::turn;

pub const CASES: &[Case] = &[
    case!(turn::flip_vertical, "the widths of source (5) and target (4) are not equal", plane(5, 3), &mut plane(4, 3)),
    case!(turn::flip_vertical, "the heights of source (2) and target (3) are not equal", plane(4, 2), &mut plane(4, 3)),
    case!(
        turn::flip_horizontal, "the widths of source (5) and target (4) are not equal",
        plane(5, 3), &mut plane(4, 3)
    ),
    case!(
        turn::flip_horizontal, "the heights of source (2) and target (3) are not equal",
        plane(4, 2), &mut plane(4, 3)
    ),
    case!(turn::rotate_180, "the widths of source (5) and target (4) are not equal", plane(5, 3), &mut plane(4, 3)),
    case!(turn::rotate_180, "the heights of source (2) and target (3) are not equal", plane(4, 2), &mut plane(4, 3)),
    case!(turn::transpose, "the height of source (3) is not the width of target (2)", plane(4, 3), &mut plane(2, 4)),
    case!(turn::transpose, "the width of source (4) is not the height of target (5)", plane(4, 3), &mut plane(3, 5)),
    case!(turn::rotate_90, "the height of source (3) is not the width of target (2)", plane(4, 3), &mut plane(2, 4)),
    case!(turn::rotate_90, "the width of source (4) is not the height of target (5)", plane(4, 3), &mut plane(3, 5)),
    case!(turn::rotate_270, "the height of source (3) is not the width of target (2)", plane(4, 3), &mut plane(2, 4)),
    case!(turn::rotate_270, "the width of source (4) is not the height of target (5)", plane(4, 3), &mut plane(3, 5)),
    case!(
        turn::turn_plane, "a plane of 4x3 cannot be shown in one of 3x4 by FlipVertical",
        plane(4, 3), &mut plane(3, 4), FlipVertical
    ),
    case!(
        turn::turn_plane, "a plane of 4x3 cannot be shown in one of 3x4 by FlipHorizontal",
        plane(4, 3), &mut plane(3, 4), FlipHorizontal
    ),
    case!(
        turn::turn_plane, "a plane of 4x3 cannot be shown in one of 3x4 by Rotate180",
        plane(4, 3), &mut plane(3, 4), Rotate180
    ),
    case!(
        turn::turn_plane, "a plane of 4x3 cannot be shown in one of 4x3 by Transpose",
        plane(4, 3), &mut plane(4, 3), Transpose
    ),
    case!(
        turn::turn_plane, "a plane of 4x3 cannot be shown in one of 4x3 by Rotate90",
        plane(4, 3), &mut plane(4, 3), Rotate90
    ),
    case!(
        turn::turn_plane, "a plane of 4x3 cannot be shown in one of 4x3 by Rotate270",
        plane(4, 3), &mut plane(4, 3), Rotate270
    ),
    case!(
        turn::rows::turn, "3 rows of 4 entries, 4 apart, do not fit 11 entries",
        rows(4, 3), &mut [0; 11], 4, 3, 4, FlipVertical
    ),
    case!(
        turn::rows::turn, "a picture of 4x3 cannot be shown in one of 3x4 by Rotate180",
        rows(4, 3), &mut [0; 12], 3, 4, 3, Rotate180
    ),
    case!(
        turn::rows::turn, "a picture of 4x3 cannot be shown in one of 4x3 by Rotate90",
        rows(4, 3), &mut [0; 12], 4, 3, 4, Rotate90
    ),
    case!(
        turn::rows::flip_vertical, "3 rows of 4 entries, 4 apart, do not fit 11 entries",
        rows(4, 3), &mut [0; 11], 4, 3, 4
    ),
    case!(turn::rows::flip_vertical, "the width of source (5) is not width (4)", rows(5, 3), &mut [0; 12], 4, 3, 4),
    case!(turn::rows::flip_vertical, "the height of source (2) is not height (3)", rows(4, 2), &mut [0; 12], 4, 3, 4),
    case!(
        turn::rows::flip_vertical_in_place, "3 rows of 4 entries, 4 apart, do not fit 11 entries",
        &mut [0_u8; 11], 4, 3, 4
    ),
    case!(
        turn::rows::flip_horizontal, "3 rows of 4 entries, 4 apart, do not fit 11 entries",
        rows(4, 3), &mut [0; 11], 4, 3, 4
    ),
    case!(turn::rows::flip_horizontal, "the width of source (5) is not width (4)", rows(5, 3), &mut [0; 12], 4, 3, 4),
    case!(turn::rows::flip_horizontal, "the height of source (2) is not height (3)", rows(4, 2), &mut [0; 12], 4, 3, 4),
    case!(
        turn::rows::flip_horizontal_in_place, "3 rows of 4 entries, 4 apart, do not fit 11 entries",
        &mut [0_u8; 11], 4, 3, 4
    ),
    case!(
        turn::rows::rotate_180, "3 rows of 4 entries, 4 apart, do not fit 11 entries",
        rows(4, 3), &mut [0; 11], 4, 3, 4
    ),
    case!(turn::rows::rotate_180, "the width of source (5) is not width (4)", rows(5, 3), &mut [0; 12], 4, 3, 4),
    case!(turn::rows::rotate_180, "the height of source (2) is not height (3)", rows(4, 2), &mut [0; 12], 4, 3, 4),
    case!(
        turn::rows::rotate_180_in_place, "3 rows of 4 entries, 4 apart, do not fit 11 entries",
        &mut [0_u8; 11], 4, 3, 4
    ),
    case!(
        turn::rows::transpose, "3 rows of 4 entries, 4 apart, do not fit 11 entries",
        rows(3, 4), &mut [0; 11], 4, 3, 4
    ),
    case!(turn::rows::transpose, "the height of source (5) is not width (4)", rows(3, 5), &mut [0; 12], 4, 3, 4),
    case!(turn::rows::transpose, "the width of source (2) is not height (3)", rows(2, 4), &mut [0; 12], 4, 3, 4),
    case!(
        turn::rows::rotate_90, "3 rows of 4 entries, 4 apart, do not fit 11 entries",
        rows(3, 4), &mut [0; 11], 4, 3, 4
    ),
    case!(turn::rows::rotate_90, "the height of source (5) is not width (4)", rows(3, 5), &mut [0; 12], 4, 3, 4),
    case!(turn::rows::rotate_90, "the width of source (2) is not height (3)", rows(2, 4), &mut [0; 12], 4, 3, 4),
    case!(
        turn::rows::rotate_270, "3 rows of 4 entries, 4 apart, do not fit 11 entries",
        rows(3, 4), &mut [0; 11], 4, 3, 4
    ),
    case!(turn::rows::rotate_270, "the height of source (5) is not width (4)", rows(3, 5), &mut [0; 12], 4, 3, 4),
    case!(turn::rows::rotate_270, "the width of source (2) is not height (3)", rows(2, 4), &mut [0; 12], 4, 3, 4),
];
