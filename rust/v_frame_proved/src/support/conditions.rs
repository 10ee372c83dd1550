//! Tests of preconditions that no public function tests.
//!
//! This module is written by hand. `tools/to_rust/conditions.md` lists each test with the definition that it implements.

/// Returns whether a rectangle with the size (width, height) at the position (column, row) is inside a picture of the size
/// `picture` and not empty. It implements `IsInside` of `v_frame_raster/specs/Geometry.antt` and `IsInsideTable` of
/// `StridedRows.antt`.
#[inline]
pub(crate) fn is_inside(
    place: (usize, usize),
    size: (usize, usize),
    picture: (usize, usize),
) -> bool {
    is_span_inside(place.0, size.0, picture.0) && is_span_inside(place.1, size.1, picture.1)
}

/// Returns whether `length` columns or rows from `start` on are at least one, and end within `count`.
#[inline]
fn is_span_inside(start: usize, length: usize, count: usize) -> bool {
    length > 0 && length <= count && start <= count - length
}

/// Returns whether the size (width, height) of a target is that of the source, or that size with width and height exchanged. It
/// implements `PlaneFits` of `v_frame_turn/specs/Frames.antt`.
#[inline]
pub(crate) fn has_turned_size(
    exchanged: bool,
    source: (usize, usize),
    target: (usize, usize),
) -> bool {
    if exchanged {
        source.1 == target.0 && source.0 == target.1
    } else {
        source == target
    }
}

#[cfg(test)]
mod tests {
    use super::{has_turned_size, is_inside};

    #[test]
    fn rectangles_inside_are_those_of_the_definition() {
        let numbers = [0, 1, 2, 3, 4, usize::MAX - 1, usize::MAX];
        for x in numbers {
            for width in numbers {
                for columns in numbers {
                    let expected = width > 0 && x as u128 + width as u128 <= columns as u128;
                    assert_eq!(is_inside((x, 0), (width, 1), (columns, 1)), expected);
                    assert_eq!(is_inside((0, x), (1, width), (1, columns)), expected);
                }
            }
        }
    }

    #[test]
    fn turned_sizes_are_exchanged() {
        assert!(has_turned_size(false, (2, 3), (2, 3)));
        assert!(!has_turned_size(false, (2, 3), (3, 2)));
        assert!(!has_turned_size(false, (2, 3), (2, 4)));
        assert!(has_turned_size(true, (2, 3), (3, 2)));
        assert!(!has_turned_size(true, (2, 3), (2, 3)));
        assert!(!has_turned_size(true, (2, 3), (3, 4)));
    }

    #[test]
    fn turned_sizes_are_those_of_the_definition() {
        let sizes = [(2, 3), (3, 2), (2, 4), (4, 2), (3, 4), (4, 3)];
        for source in sizes {
            for target in sizes {
                assert_eq!(has_turned_size(false, source, target), source == target);
                assert_eq!(has_turned_size(true, source, target), (source.1, source.0) == target);
            }
        }
    }
}
