//! Planes and rows over borrowed buffers.

mod support;

use support::planes::{BORDERED, blank, geometry, in_numbered_border, showing};
use v_frame_proved::ops::rows::sum_of_squared_errors;
use v_frame_proved::plane::{PlaneRef, RowsRef};

#[test]
fn an_array_is_read_as_a_plane() {
    let entries = in_numbered_border::<u8>(BORDERED, &[1, 2, 3, 4, 5, 6]);
    let plane = PlaneRef::new(geometry(BORDERED), &entries).expect("a plane");
    assert_eq!((plane.data(), plane.geometry()), (&entries[..], geometry(BORDERED)));
    assert_eq!((plane.width(), plane.height()), (3, 2));
    assert_eq!((plane.row(1), plane.row(2)), (Some(&[4, 5, 6][..]), None));
    assert_eq!(plane.visible_row(1), [4, 5, 6]);
    assert!(plane.visible_region(1, 0, 2, 2).rows().eq([[2, 3], [5, 6]]));
    assert_eq!([(3, 0), (2, 1), (5, 1)].map(|(x, y)| plane.pixel(x, y)), [Some(110), Some(6), None]);
    assert!(plane.rows().eq([[1, 2, 3], [4, 5, 6]]));
    assert!(plane.pixels().eq(1..=6));
    assert!(plane.byte_data().eq(1..=6));
}

#[test]
fn a_region_reaches_into_the_border() {
    let entries = in_numbered_border::<u8>(BORDERED, &[1, 2, 3, 4, 5, 6]);
    let plane = PlaneRef::new(geometry(BORDERED), &entries).expect("a plane");
    let shown = |x, y, width, height| Some(plane.region_with_border(x, y, width, height)?.pixels().collect::<Vec<_>>());
    assert_eq!(shown(-1, -1, 3, 2), Some(vec![100, 101, 102, 106, 1, 2]));
    assert_eq!(shown(2, 1, 3, 1), Some(vec![6, 116, 117]));
    assert_eq!(shown(0, 0, 3, 2), Some(vec![1, 2, 3, 4, 5, 6]));
    assert_eq!(shown(-1, -1, 6, 3), Some(entries.clone()));
    for (x, y) in [(-2, 0), (0, -2), (5, 0), (0, 2), (isize::MIN, 0), (isize::MAX, 0), (0, isize::MAX)] {
        assert_eq!(shown(x, y, 1, 1), None, "at {x}, {y}");
    }
    for (width, height) in [(0, 1), (1, 0), (6, 1), (1, 3), (usize::MAX, 1), (1, usize::MAX)] {
        assert_eq!(shown(0, 0, width, height), None, "{width} by {height}");
    }
}

#[test]
fn visible_rows_are_lent_for_writing() {
    let mut plane = showing::<u8>(BORDERED, &[1, 2, 3, 4, 5, 6]);
    let before = plane.data().to_vec();
    let stride = plane.geometry().stride();
    let lent = plane.visible_mut();
    assert_eq!((lent.width, lent.height, lent.stride), (3, 2, stride));
    assert_eq!((&lent.entries[..3], &lent.entries[stride..stride + 3]), (&[1, 2, 3][..], &[4, 5, 6][..]));
    lent.entries[stride] = 9;
    let lent = plane.visible_region_mut(1, 0, 2, 2);
    assert_eq!((lent.width, lent.height, lent.stride), (2, 2, stride));
    assert_eq!((&lent.entries[..2], &lent.entries[stride..stride + 2]), (&[2, 3][..], &[5, 6][..]));
    lent.entries[stride + 1] = 8;
    assert!(plane.rows().eq([[1, 2, 3], [9, 5, 8]]));
    assert_eq!(plane.data().iter().zip(&before).filter(|(new, old)| new != old).count(), 2);
}

#[test]
fn a_buffer_of_another_length_is_no_plane() {
    for (length, is_plane) in [(0, false), (17, false), (18, true), (19, false)] {
        assert_eq!(PlaneRef::new(geometry(BORDERED), &vec![0_u8; length]).is_some(), is_plane, "{length} entries");
    }
}

#[test]
fn rows_need_no_entry_after_the_last() {
    let sizes = [
        (7, [3, 2, 4], true),
        (8, [3, 2, 4], true),
        (6, [3, 2, 4], false),
        (6, [3, 2, 3], true),
        (8, [3, 2, 2], false),
        (8, [0, 2, 4], false),
        (8, [3, 0, 4], false),
        (8, [8, 1, usize::MAX], true),
        (8, [1, 2, usize::MAX], false),
        (8, [2, 3, usize::MAX / 2 + 1], false),
    ];
    for (length, [width, height, stride], are_rows) in sizes {
        let found = RowsRef::new(&[0_u8; 8][..length], width, height, stride).is_some();
        assert_eq!(found, are_rows, "{width} by {height}, {stride} apart, in {length} entries");
    }
}

#[test]
fn rows_are_read() {
    let rows = RowsRef::new(&[1_u16, 2, 3, 20, 4, 5, 6], 3, 2, 4).expect("rows");
    assert_eq!((rows.width(), rows.height()), (3, 2));
    assert_eq!((rows.row(1), rows.row(2)), (Some(&[4, 5, 6][..]), None));
    let corner = rows.region(1, 0, 2, 2).expect("a region");
    assert_eq!((corner.row(0), corner.row(1)), (Some(&[2, 3][..]), Some(&[5, 6][..])));
    for (x, y, width, height) in [(1, 1, 2, 2), (0, 0, 4, 1), (usize::MAX, 0, 2, 1), (0, 0, 0, 1)] {
        assert!(rows.region(x, y, width, height).is_none(), "{width} by {height} at {x}, {y}");
    }
}

#[test]
fn a_plane_is_compared_with_rows_that_end_at_its_width() {
    let plane = showing::<u8>(BORDERED, &[1, 2, 3, 150, 200, 255]);
    let rows = RowsRef::new(&[3_u8, 2, 1, 9, 9, 255, 0, 0], 3, 2, 5).expect("rows");
    assert_eq!(sum_of_squared_errors(&plane.as_plane_ref().as_rows_ref(), &rows), 116_058);
    assert!(RowsRef::new(&[3_u8, 2, 1, 9, 9, 255, 0, 0], 3, 2, 6).is_none());
}

#[test]
fn planes_may_cross_threads() {
    fn crosses<V: Send + Sync>(_: &V) {}
    let plane = blank::<u16>(BORDERED);
    crosses(&plane);
    crosses(&plane.as_plane_ref());
    crosses(&plane.as_plane_ref().as_rows_ref());
}
