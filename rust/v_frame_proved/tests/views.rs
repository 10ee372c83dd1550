//! Views as values, types that can be read as a plane or as rows, planes as lists of rows, and frames as lists of planes.

use std::panic::{AssertUnwindSafe, catch_unwind};
use v_frame_proved::chroma::ChromaSubsampling::{self, Monochrome, Yuv411, Yuv420, Yuv422, Yuv444};
use v_frame_proved::crop::CropError;
use v_frame_proved::frame::{Frame, FrameBuilder};
use v_frame_proved::pixel::Pixel;
use v_frame_proved::plane::{Plane, PlaneGeometry, PlaneRef, RowsRef};
use v_frame_proved::views::{AsPlaneRef, AsRowsRef};

/// Returns a plane of 3 by 2 pixels, 10 y + x + 1, with `border` padding pixels of 99 on each side.
fn plane(border: usize) -> Plane<u8> {
    let geometry = PlaneGeometry::new(3, 2, border, border, border, border, 1, 1).unwrap();
    let mut plane = Plane::new(geometry).unwrap();
    plane.data_mut().fill(99);
    plane.copy_from_slice(&[1, 2, 3, 11, 12, 13]).unwrap();
    plane
}

/// Returns a frame without padding whose sample at (x, y) of plane p is 100 p + 10 y + x.
fn frame(width: usize, height: usize, format: ChromaSubsampling) -> Frame<u16> {
    let mut frame = FrameBuilder::new(width, height, format, 10).build::<u16>().unwrap();
    for (p, plane) in frame.planes_mut().enumerate() {
        for (y, row) in plane.into_iter().enumerate() {
            for (x, pixel) in row.iter_mut().enumerate() {
                *pixel = (100 * p + 10 * y + x) as u16;
            }
        }
    }
    frame
}

/// A function of a user for every type that can be read as a plane.
fn sum<T: Pixel>(plane: impl AsPlaneRef<Pixel = T>) -> u64 {
    plane.as_plane_ref().pixels().map(|pixel| u64::from(pixel.into())).sum()
}

/// A function of a user for every type that can be read as rows, which takes a reference.
fn sum_of_rows<T: Pixel>(rows: &impl AsRowsRef<Pixel = T>) -> u64 {
    rows.as_rows_ref().rows().flatten().map(|&pixel| u64::from(pixel.into())).sum()
}

/// A picture type of a user.
struct Picture(Vec<u8>);

impl AsPlaneRef for Picture {
    type Pixel = u8;

    fn as_plane_ref(&self) -> PlaneRef<'_, u8> {
        PlaneRef::new(PlaneGeometry::unpadded(3, 2, 1, 1).unwrap(), &self.0).unwrap()
    }
}

#[test]
fn views_are_copied_and_stay_usable() {
    let plane = plane(1);
    let view = plane.as_plane_ref();
    let rows = view.as_rows_ref();
    let (second_view, second_rows) = (view, rows);
    assert_eq!((view.row(1), second_view.row(1)), (plane.row(1), plane.row(1)));
    assert_eq!((rows.row(0), second_rows.row(0)), (plane.row(0), plane.row(0)));
    let outlives = {
        let inner = view;
        inner.visible_row(0)
    };
    assert_eq!(outlives, [1, 2, 3]);
}

#[test]
fn whatever_shows_a_picture_is_read_alike() {
    let plane = plane(2);
    let view = plane.as_plane_ref();
    let rows = RowsRef::from(&plane);
    let picture = Picture(vec![1, 2, 3, 11, 12, 13]);
    let frame = frame(4, 2, Yuv420);
    let (by_reference, of_reference) = (&view, &&plane);
    assert_eq!([sum(&plane), sum(view), sum(by_reference), sum(of_reference), sum(&picture)], [42; 5]);
    assert_eq!([sum_of_rows(&plane), sum_of_rows(&view), sum_of_rows(&rows), sum_of_rows(&&rows)], [42; 4]);
    assert_eq!(sum_of_rows(&picture), 42);
    assert_eq!(frame.plane(1).map(sum), Some(100 + 101));
    assert_eq!(sum(&frame.y_plane), 6 + 46);
    assert_eq!(PlaneRef::from(&plane), view);
    assert_eq!(RowsRef::from(view), rows);
}

#[test]
fn plane_views_are_equal_with_their_borders_and_rows_without() {
    let (first, mut second) = (plane(1), plane(1));
    assert_eq!(first.as_plane_ref(), second.as_plane_ref());
    second.data_mut()[0] = 98;
    assert_ne!(first.as_plane_ref(), second.as_plane_ref());
    let turned = PlaneGeometry::new(2, 3, 1, 1, 1, 1, 1, 1).unwrap();
    assert_ne!(PlaneRef::new(turned, first.data()).unwrap(), first.as_plane_ref());
    assert_eq!(RowsRef::from(&first), RowsRef::from(&second));
    assert_eq!(RowsRef::from(&first), RowsRef::from(&plane(0)));
    second[1][2] = 14;
    assert_ne!(RowsRef::from(&first), RowsRef::from(&second));
    let flat = [1, 2, 3, 11, 12, 13];
    let sizes = [(3, 2, true), (2, 3, false), (6, 1, false), (1, 6, false), (3, 1, false)];
    for (width, height, equal) in sizes {
        let rows = RowsRef::new(&flat, width, height, width).unwrap();
        assert_eq!(rows == RowsRef::from(&first), equal, "{width}x{height}");
    }
}

#[test]
fn planes_are_lists_of_rows() {
    let mut plane = plane(1);
    let rows: [&[u8]; 2] = [&[1, 2, 3], &[11, 12, 13]];
    assert_eq!((&plane).into_iter().collect::<Vec<_>>(), rows);
    assert_eq!(plane.as_plane_ref().into_iter().collect::<Vec<_>>(), rows);
    assert_eq!(RowsRef::from(&plane).rows().rev().collect::<Vec<_>>(), [rows[1], rows[0]]);
    assert_eq!(RowsRef::from(&plane).rows().len(), 2);
    for row in &mut plane {
        row.reverse();
    }
    plane[0][1] = 7;
    assert_eq!((&plane[0], &plane[1]), (&[3, 7, 1][..], &[13, 12, 11][..]));
    assert_eq!(plane.as_plane_ref()[1], plane[1]);
    assert_eq!(RowsRef::from(&plane)[0], plane[0]);
    assert_eq!(plane.data().iter().filter(|&&pixel| pixel == 99).count(), 5 * 4 - 6);
}

#[test]
fn rows_below_the_last_one_panic() {
    let mut plane = plane(3);
    for y in [2, 3, usize::MAX] {
        assert!(catch_unwind(|| plane[y].len()).is_err());
        assert!(catch_unwind(|| plane.as_plane_ref()[y].len()).is_err());
        assert!(catch_unwind(|| RowsRef::from(&plane)[y].len()).is_err());
    }
    assert!(catch_unwind(AssertUnwindSafe(|| plane[2][0] = 1)).is_err());
}

#[test]
fn frames_are_lists_of_the_planes_that_exist() {
    let cases: [(ChromaSubsampling, &[(usize, usize)]); 5] = [
        (Monochrome, &[(8, 4)]),
        (Yuv420, &[(8, 4), (4, 2), (4, 2)]),
        (Yuv422, &[(8, 4), (4, 4), (4, 4)]),
        (Yuv411, &[(8, 4), (2, 4), (2, 4)]),
        (Yuv444, &[(8, 4), (8, 4), (8, 4)]),
    ];
    for (format, sizes) in cases {
        let mut frame = frame(8, 4, format);
        assert_eq!((frame.width(), frame.height()), (8, 4));
        let found: Vec<_> = frame.planes().map(|plane| (plane.width(), plane.height())).collect();
        assert_eq!(found, sizes, "{format:?}");
        assert_eq!(frame.planes().next_back().unwrap()[0][0], 100 * (sizes.len() as u16 - 1));
        assert_eq!(frame.planes_mut().count(), sizes.len());
    }
    let mut without_u = frame(8, 4, Yuv420);
    without_u.u_plane = None;
    assert_eq!(without_u.planes().map(|plane| plane[0][0]).collect::<Vec<_>>(), [0, 200]);
}

#[test]
fn crops_are_rectangles_of_all_planes() {
    // The format, the rectangle, the size of chroma, the first and the last luma pixel, and those of U.
    let cases = [
        (Monochrome, (3, 1, 2, 3), (0, 0), (13, 34), (0, 0)),
        (Yuv420, (2, 2, 4, 2), (2, 1), (22, 35), (111, 112)),
        (Yuv420, (2, 2, 3, 1), (2, 1), (22, 24), (111, 112)),
        (Yuv420, (0, 0, 8, 4), (4, 2), (0, 37), (100, 113)),
        (Yuv422, (6, 3, 1, 1), (1, 1), (36, 36), (133, 133)),
        (Yuv411, (4, 1, 3, 2), (1, 2), (14, 26), (111, 121)),
        (Yuv444, (5, 3, 2, 1), (2, 1), (35, 36), (135, 136)),
    ];
    for (format, (x, y, width, height), chroma, luma_ends, u_ends) in cases {
        let part = frame(8, 4, format).crop(x, y, width, height).unwrap();
        assert_eq!((part.width(), part.height()), (width, height));
        assert_eq!((part.subsampling, part.bit_depth.get()), (format, 10));
        let ends = |plane: &Plane<u16>| (plane.data()[0], plane.data()[plane.data().len() - 1]);
        assert_eq!(ends(&part.y_plane), luma_ends);
        assert_eq!(part.u_plane.is_some(), format.has_chroma());
        for (plane, offset) in [(&part.u_plane, 0), (&part.v_plane, 100)] {
            let Some(plane) = plane else { continue };
            assert_eq!((plane.width(), plane.height()), chroma, "{format:?}");
            assert_eq!(ends(plane), (u_ends.0 + offset, u_ends.1 + offset), "{format:?}");
        }
    }
}

#[test]
fn crops_outside_or_inside_a_chroma_sample_are_refused() {
    let max = usize::MAX;
    let misaligned = |columns, rows| CropError::Misaligned { columns, rows };
    let cases = [
        (Yuv420, (1, 0, 2, 2), misaligned(2, 2)),
        (Yuv420, (0, 1, 2, 2), misaligned(2, 2)),
        (Yuv422, (1, 1, 2, 2), misaligned(2, 1)),
        (Yuv411, (2, 0, 2, 2), misaligned(4, 1)),
        (Yuv420, (0, 0, 9, 4), CropError::Outside),
        (Yuv420, (0, 0, 8, 5), CropError::Outside),
        (Yuv420, (8, 0, 1, 1), CropError::Outside),
        (Yuv420, (0, 0, 0, 1), CropError::Outside),
        (Yuv420, (0, 0, 1, 0), CropError::Outside),
        (Yuv444, (max, 0, 2, 1), CropError::Outside),
        (Monochrome, (1, 1, max, max), CropError::Outside),
    ];
    for (format, (x, y, width, height), error) in cases {
        assert_eq!(frame(8, 4, format).crop(x, y, width, height), Err(error), "{format:?} {x} {y} {width} {height}");
    }
    let mut small_chroma = frame(8, 4, Yuv444);
    small_chroma.v_plane = Some(Plane::new(PlaneGeometry::unpadded(2, 2, 1, 1).unwrap()).unwrap());
    assert_eq!(small_chroma.crop(0, 0, 3, 2), Err(CropError::Outside));
    assert!(small_chroma.crop(0, 0, 2, 2).is_ok());
}

#[test]
fn crops_have_the_ratios_of_their_planes_and_no_border() {
    for (format, columns, rows) in [(Yuv420, 2, 2), (Yuv422, 2, 1), (Yuv411, 4, 1), (Yuv444, 1, 1)] {
        let builder = FrameBuilder::new(8, 4, format, 8).luma_padding_left(4).luma_padding_right(8);
        let mut frame = builder.luma_padding_top(2).luma_padding_bottom(4).build::<u8>().unwrap();
        for plane in frame.planes_mut() {
            plane.data_mut().fill(99);
            plane.pixels_mut().zip(0..).for_each(|(pixel, number)| *pixel = number);
        }
        let part = frame.crop(4, 2, 4, 2).unwrap();
        for ((part, whole), (columns, rows)) in part.planes().zip(frame.planes()).zip([(1, 1), (columns, rows), (columns, rows)]) {
            let (width, height) = (4 / columns, 2 / rows);
            let geometry = PlaneGeometry::unpadded(width, height, columns as u8, rows as u8).unwrap();
            assert_eq!(part.geometry(), geometry, "{format:?}");
            let shown = whole.as_plane_ref().region(width, height, width, height).unwrap();
            assert_eq!(RowsRef::from(part), shown.as_rows_ref(), "{format:?}");
        }
    }
}

#[test]
fn crops_are_refused_for_the_first_reason() {
    let misaligned = CropError::Misaligned { columns: 4, rows: 1 };
    for (x, y, width, height) in [(1, 0, 8, 1), (2, 0, 0, 1), (9, 9, 1, 1)] {
        assert_eq!(frame(8, 4, Yuv411).crop(x, y, width, height), Err(misaligned));
    }
    let texts = [
        (misaligned, "the rectangle begins inside a chroma sample of 4 columns and 1 rows"),
        (CropError::Outside, "the rectangle is empty or not inside the frame"),
        (CropError::from(v_frame_proved::AllocError), "out of memory"),
    ];
    for (error, text) in texts {
        assert_eq!(error.to_string(), text);
    }
}
