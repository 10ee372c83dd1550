//! Functions that write pixels, on planes, on regions of planes, on lent buffers and on types of a user.

mod support;

use std::panic::{AssertUnwindSafe, catch_unwind};
use support::planes::{blank, paint, sample};
use v_frame_proved::convert::{self, Component};
use v_frame_proved::ops;
use v_frame_proved::pixel::Pixel;
use v_frame_proved::plane::{Plane, PlaneRef, RowsRef, VisibleMut};
use v_frame_proved::resize;
use v_frame_proved::rgb::{self, ColorRange, Luma, Rgb, Standard, YuvMatrix};
use v_frame_proved::turn::{self, Turn};
use v_frame_proved::views::{AsRowsMut, AsRowsRef};

/// A picture of a user, whose rows are stored with a stride of 20 behind three other entries.
struct Own<T> {
    entries: Vec<T>,
    width: usize,
    height: usize,
}

impl<T> AsRowsMut for Own<T> {
    type Pixel = T;

    fn width(&self) -> usize {
        self.width
    }

    fn height(&self) -> usize {
        self.height
    }

    fn visible_mut(&mut self) -> VisibleMut<'_, T> {
        VisibleMut::new(&mut self.entries[3..], self.width, self.height, 20).expect("it fits")
    }
}

/// Calls a function with a plane, a region of a larger plane, a lent buffer and a type of a user, each with the same pixels, and
/// tests that all of them have the same pixels afterwards, and that no other entry was changed. `$target` is the name of the
/// target in the call.
macro_rules! check {
    ($kind:ty, $width:expr, $height:expr, |$target:ident| $call:expr) => {{
        let (width, height): (usize, usize) = ($width, $height);
        let start: Vec<$kind> = (0..width * height).map(|place| sample(1, place % width, place / width)).collect();
        let mut plane = Plane::from_slice(width, height, &start).expect("a plane");
        {
            let $target = &mut plane;
            $call;
        }
        let wanted = plane.into_vec();

        // A region of a plane with a border, in which everything else must stay.
        let mut plane: Plane<$kind> = blank([width + 5, height + 3, 2, 1, 1, 2]);
        paint(&mut plane, 2);
        let mut other = plane.clone();
        for (y, row) in start.chunks(width).enumerate() {
            other[y + 1][3..][..width].copy_from_slice(row);
        }
        let mut expected = plane;
        for (y, row) in wanted.chunks(width).enumerate() {
            expected[y + 1][3..][..width].copy_from_slice(row);
        }
        {
            let $target = &mut other.visible_region_mut(3, 1, width, height);
            $call;
        }
        assert!(other == expected);

        // A region of a region, by references in a box.
        for (y, row) in start.chunks(width).enumerate() {
            other[y + 1][3..][..width].copy_from_slice(row);
        }
        {
            let mut outer = other.visible_region_mut(1, 0, width + 3, height + 2);
            let boxed: &mut Box<&mut VisibleMut<'_, $kind>> = &mut Box::new(&mut outer);
            let $target = &mut boxed.visible_region_mut(2, 1, width, height);
            $call;
        }
        assert!(other == expected);

        // A buffer whose last row ends at its width.
        let stride = width + 2;
        let mut buffer = vec![<$kind>::from(77_u8); stride * height - 2];
        let mut copy = buffer.clone();
        for y in 0..height {
            buffer[stride * y..][..width].copy_from_slice(&start[width * y..][..width]);
            copy[stride * y..][..width].copy_from_slice(&wanted[width * y..][..width]);
        }
        {
            let $target = &mut VisibleMut::new(&mut buffer, width, height, stride).expect("it fits");
            $call;
        }
        assert!(buffer == copy);

        let mut own = Own { entries: vec![<$kind>::from(77_u8); 20 * height + 3], width, height };
        for (row, start) in own.visible_mut().rows_mut().zip(start.chunks(width)) {
            row.copy_from_slice(start);
        }
        {
            let $target = &mut own;
            $call;
        }
        let mut copy = vec![<$kind>::from(77_u8); 20 * height + 3];
        for (y, row) in wanted.chunks(width).enumerate() {
            copy[20 * y + 3..][..width].copy_from_slice(row);
        }
        assert!(own.entries == copy);
    }};
}

/// Returns a plane of this size with a picture.
fn picture<T: Pixel>(width: usize, height: usize) -> Plane<T> {
    let mut plane = blank([width, height, 1, 0, 0, 1]);
    paint(&mut plane, 0);
    plane
}

/// Tests the functions that every pixel type has.
fn check_all<T: Pixel + From<u8>>() {
    let (same, double) = (picture::<T>(8, 6), picture::<T>(16, 12));
    let mask = picture::<u8>(8, 6);
    let depth = if size_of::<T>() == 1 { 8 } else { 10 };
    check!(T, 8, 6, |target| ops::fill(target, T::from(5)));
    check!(T, 8, 6, |target| ops::map_pixels(target, |pixel| T::from(if pixel > T::from(9) { 1 } else { 2 })));
    check!(T, 8, 6, |target| ops::combine_pixels(target, &same, |a, b| a.max(b)));
    check!(T, 8, 6, |target| ops::copy_region(&same, target, 0, 0));
    check!(T, 10, 9, |target| ops::copy_region(&same, target, 2, 3));
    check!(T, 8, 6, |target| ops::copy_region_clipped(&same, target, -3, 4));
    check!(T, 9, 8, |target| ops::blend_region(&same, target, 1, 2, 100));
    check!(T, 9, 8, |target| ops::blend_region_with_mask(&same, &mask, target, 1, 2));
    check!(T, 8, 6, |target| ops::difference(&same, target, 3, depth));
    check!(T, 8, 6, |target| ops::downscale(&double, target));
    check!(T, 8, 6, |target| convert::upscale(&picture::<T>(4, 3), target, 2, 2));
    check!(T, 4, 3, |target| convert::downscale_to_edge(&same, target));
    check!(T, 4, 6, |target| convert::halve_columns(&same, target));
    check!(T, 8, 6, |target| convert::to_full_range(&same, target, Component::Luma, depth));
    check!(T, 8, 6, |target| convert::to_limited_range(&same, target, Component::Chroma, depth));
    check!(T, 5, 7, |target| resize::resize_area(&same, target));
    check!(T, 5, 7, |target| resize::resize_nearest(&same, target));
    check!(T, 8, 6, |target| turn::flip_vertical(&same, target));
    check!(T, 8, 6, |target| turn::flip_horizontal(&same, target));
    check!(T, 8, 6, |target| turn::rotate_180(&same, target));
    check!(T, 6, 8, |target| turn::rotate_90(&same, target));
    check!(T, 6, 8, |target| turn::rotate_270(&same, target));
    check!(T, 6, 8, |target| turn::transpose(&same, target));
    check!(T, 8, 6, |target| turn::turn_plane(&same, target, Turn::FlipVertical));
    check!(T, 7, 6, |target| turn::flip_vertical_in_place(target));
    check!(T, 7, 6, |target| turn::flip_horizontal_in_place(target));
    check!(T, 7, 5, |target| turn::rotate_180_in_place(target));
}

#[test]
fn targets_of_every_kind_get_the_same_pixels() {
    check_all::<u8>();
    check_all::<u16>();
    check!(u16, 8, 6, |target| convert::convert_depth(&picture::<u8>(8, 6), target, 8, 10));
    check!(u8, 8, 6, |target| convert::convert_depth(&picture::<u16>(8, 6), target, 10, 8));
    let matrix = YuvMatrix::new(Standard::Bt709, ColorRange::Limited);
    let colors: Vec<u8> = (0..8 * 6 * 3).map(|place| (place * 5 % 256) as u8).collect();
    let colors = RowsRef::new(&colors, 24, 6, 24).expect("it fits");
    check!(u8, 8, 6, |target| rgb::rgb_to_channel::<Rgb, Luma>(&colors, target, matrix));
}

#[cfg(feature = "std")]
#[test]
fn targets_of_semi_planar_functions_get_the_same_pixels() {
    use v_frame_proved::semi_planar;
    let (first, second) = (picture::<u16>(4, 6), picture::<u16>(4, 6));
    check!(u16, 8, 6, |target| semi_planar::interleave(&first, &second, target));
    check!(u16, 8, 6, |target| semi_planar::to_top_bits(target, 10));
    check!(u16, 8, 6, |target| semi_planar::from_top_bits(target, 10));
    let (both, mut left, mut right) = (picture::<u16>(8, 6), picture::<u16>(8, 6), [0; 24]);
    let mut lent = VisibleMut::new(&mut right, 4, 6, 4).expect("it fits");
    semi_planar::deinterleave(&both, &mut left.visible_region_mut(4, 0, 4, 6), &mut lent);
    let every_second = |from: usize| both.pixels().skip(from).step_by(2);
    assert!(left.as_plane_ref().region(4, 0, 4, 6).expect("a region").pixels().eq(every_second(0)));
    assert!(right.into_iter().eq(every_second(1)));
}

/// Tests that a call panics with this message.
#[track_caller]
fn panics(message: &str, call: impl FnOnce()) {
    let payload = catch_unwind(AssertUnwindSafe(call)).expect_err("no panic");
    assert_eq!(payload.downcast_ref::<String>().map(String::as_str), Some(message));
}

#[test]
fn views_that_do_not_fit_are_rejected() {
    let mut entries = [0_u8; 11];
    for (width, height, stride, fits) in
        [(3, 3, 4, true), (3, 3, 5, false), (4, 3, 4, false), (0, 3, 4, false), (3, 0, 4, false), (3, 1, 2, false), (11, 1, 11, true)]
    {
        assert_eq!(VisibleMut::new(&mut entries, width, height, stride).is_some(), fits);
    }
    assert!(VisibleMut::new(&mut entries, 2, usize::MAX, 2).is_none());
    let mut whole = VisibleMut::new(&mut entries, 3, 3, 4).expect("it fits");
    for (x, y, width, height) in [(0, 0, 4, 1), (1, 0, 3, 1), (0, 3, 1, 1), (0, 0, 0, 1), (usize::MAX, 0, 2, 1)] {
        let message = format!("region {width}x{height} at ({x}, {y}) is empty or outside of 3x3");
        panics(&message, || assert!(whole.visible_region_mut(x, y, width, height).entries.is_empty()));
    }
    panics("y (3) is not below the height (3)", || assert!(whole[3].is_empty()));
    panics("y (3) is not below the height (3)", || whole[3].fill(1));
    // The fields are public, so a view can state rows that it does not have.
    fn wrong(entries: &mut [u8]) -> VisibleMut<'_, u8> {
        VisibleMut { entries, width: 3, height: 4, stride: 4 }
    }
    let message = "4 rows of 3 pixels with a stride of 4 do not fit into 11 entries";
    panics(message, || assert!(wrong(&mut [0; 11]).rows_mut().len() > 4));
    panics(message, || assert!(wrong(&mut [0; 11]).as_rows_ref().width() > 0));
    assert_eq!(wrong(&mut [0; 15]).into_iter().count(), 4);
}

#[test]
fn rows_of_a_region_are_slices() {
    let mut plane = Plane::from_slice(4, 3, &[1_u8, 2, 3, 4, 5, 6, 7, 8, 9, 10, 11, 12]).expect("a plane");
    let mut region = plane.visible_region_mut(1, 1, 2, 2);
    assert_eq!((region.width(), region.height()), (2, 2));
    assert_eq!([&region[0], &region[1]], [[6, 7], [10, 11]]);
    region[1][0] = 0;
    let mut rows = region.rows_mut();
    assert_eq!((rows.len(), rows.next_back().map(|row| row.to_vec())), (2, Some(vec![0, 11])));
    assert_eq!(rows.next().map(|row| row.to_vec()), Some(vec![6, 7]));
    assert!(rows.next().is_none() && rows.next().is_none());
    fn widths(picture: impl AsRowsRef<Pixel = u8>) -> usize {
        picture.as_rows_ref().rows().map(<[u8]>::len).sum()
    }
    assert_eq!((widths(&region), widths(region)), (4, 4));
    assert_eq!(plane.into_vec(), [1, 2, 3, 4, 5, 6, 7, 8, 9, 0, 11, 12]);
}

/// A function of a user that writes any target.
fn gradient(target: &mut impl AsRowsMut<Pixel = u8>) {
    for (y, row) in target.visible_mut().rows_mut().enumerate() {
        row.iter_mut().enumerate().for_each(|(x, pixel)| *pixel = (x + y) as u8);
    }
}

#[test]
fn a_plane_that_is_lent_can_be_written_twice() {
    fn twice(plane: &mut Plane<u8>) {
        ops::fill(plane, 3);
        ops::map_pixels(plane, |pixel| pixel + 1);
    }
    let mut plane = Plane::from_slice(2, 1, &[0, 0]).expect("a plane");
    twice(&mut plane);
    assert_eq!(plane[0], [4, 4]);
    gradient(&mut plane);
    assert_eq!(plane[0], [0, 1]);
    assert_eq!(PlaneRef::from(&plane).pixels().count(), 2);
}
