//! Planes that are filled, mapped, combined, padded, halved, copied and compared. The tests compare whole buffers.

mod support;

use support::planes::{Layout, blank, bordered, counted, must_show, paint, sample};
use v_frame_proved::ops::{
    combine_pixels, copy_region, downscale, fill, first_difference, map_pixels, pad, sum_of_absolute_differences,
    sum_of_squared_errors,
};
use v_frame_proved::pixel::Pixel;
use v_frame_proved::plane::{Plane, PlaneRef};

/// Three by two pixels with padding on all sides.
const BORDERED: Layout = [3, 2, 1, 2, 1, 1];

/// The sum of absolute differences, the sum of squared errors, and the position of the first difference.
type Differences = (u128, u128, Option<(usize, usize)>);

/// Returns a plane with these pixels and one value in the padding.
fn showing(layout: Layout, pixels: &[u8]) -> Plane<u8> {
    let mut plane = bordered(layout);
    plane.copy_from_slice(pixels).expect("so many pixels");
    plane
}

/// Tests that a plane has these pixels, row by row, and that its padding is unchanged.
#[track_caller]
fn must_show_pixels(plane: &Plane<u8>, pixels: &[u8]) {
    must_show(plane, |x, y| pixels[y * plane.width() + x]);
}

fn differences<T: Pixel>(a: &PlaneRef<'_, T>, b: &PlaneRef<'_, T>) -> Differences {
    (sum_of_absolute_differences(a, b), sum_of_squared_errors(a, b), first_difference(a, b))
}

/// Tests the differences of two planes, and that the first one does not differ from itself.
#[track_caller]
fn must_differ<T: Pixel>(a: &Plane<T>, b: &Plane<T>, wanted: Differences) {
    let (a, b) = (a.as_plane_ref(), b.as_plane_ref());
    assert_eq!(differences(&a, &a), (0, 0, None));
    assert_eq!(differences(&a, &b), wanted);
}

#[test]
fn differences_are_found() {
    let plane = showing(BORDERED, &[1, 2, 3, 150, 200, 255]);
    let bare = showing([3, 2, 0, 0, 0, 0], &[3, 2, 1, 255, 0, 0]);
    must_differ(&plane, &bare, (564, 116_058, Some((0, 0))));
    let near = showing(BORDERED, &[1, 2, 3, 150, 201, 0]);
    must_differ(&plane, &near, (256, 65_026, Some((1, 1))));
    let (dark, mut bright) = (blank::<u16>([2, 1, 0, 0, 0, 0]), blank([2, 1, 0, 0, 0, 0]));
    fill(&mut bright, 65_535_u16);
    must_differ(&dark, &bright, (131_070, 8_589_672_450, Some((0, 0))));
}

#[test]
fn a_block_is_compared_where_it_lies_inside() {
    let plane = showing([3, 3, 1, 1, 1, 1], &[1, 2, 3, 4, 5, 6, 7, 8, 9]);
    let block = showing([2, 2, 0, 1, 0, 1], &[5; 4]);
    for (x, y, wanted) in [(0, 0, Some(8)), (1, 1, Some(8)), (2, 1, None), (0, 2, None)] {
        let region = plane.as_plane_ref().region(x, y, block.width(), block.height());
        let cost = region.map(|region| sum_of_absolute_differences(&region, &block.as_plane_ref()));
        assert_eq!(cost, wanted, "at {x}, {y}");
    }
}

#[test]
fn a_border_continues_the_picture() {
    let mut plane = showing(BORDERED, &[1, 2, 3, 4, 5, 6]);
    pad(&mut plane);
    let wanted = [1, 1, 2, 3, 3, 3, 1, 1, 2, 3, 3, 3, 4, 4, 5, 6, 6, 6, 4, 4, 5, 6, 6, 6];
    assert_eq!(plane.data(), wanted);
}

#[test]
fn half_the_size_is_the_mean_of_four() {
    let pixels = [0, 1, 10, 20, 255, 255, 2, 4, 30, 41, 255, 254, 7, 7, 0, 1, 1, 0, 7, 8, 1, 0, 0, 0];
    let source = showing([6, 4, 1, 0, 0, 2], &pixels);
    let mut target = bordered::<u8>(BORDERED);
    downscale(&source.as_plane_ref(), &mut target);
    must_show_pixels(&target, &[2, 25, 255, 7, 1, 0]);
}

#[test]
fn pixels_are_mapped_and_combined() {
    let mut plane = showing(BORDERED, &[1, 2, 3, 150, 200, 255]);
    map_pixels(&mut plane, |pixel| pixel / 2);
    must_show_pixels(&plane, &[0, 1, 1, 75, 100, 127]);
    let other = showing(BORDERED, &[1, 2, 3, 4, 5, 6]);
    combine_pixels(&mut plane, &other.as_plane_ref(), |p: u8, q| p.midpoint(q));
    must_show_pixels(&plane, &[0, 1, 2, 39, 52, 66]);
}

#[test]
fn a_picture_is_placed_on_a_ground() {
    let mut plane = showing(BORDERED, &[1, 2, 3, 4, 5, 6]);
    fill(&mut plane, 9);
    must_show_pixels(&plane, &[9; 6]);
    let picture = showing([2, 1, 1, 1, 1, 1], &[7, 8]);
    copy_region(&picture.as_plane_ref(), &mut plane, 1, 1);
    must_show_pixels(&plane, &[9, 9, 9, 9, 7, 8]);
}

/// Replaces each pixel by the mean of itself and its eight neighbors, rounded down. The padding provides the neighbors outside
/// the picture.
fn soften(plane: &mut Plane<u8>, target: &mut Plane<u8>) {
    pad(plane);
    let whole = PlaneRef::new(plane.geometry().whole_buffer(), plane.data()).expect("the buffer");
    let corner = (plane.geometry().pad_left() - 1, plane.geometry().pad_top() - 1);
    for y in 0..target.height() {
        for x in 0..target.width() {
            let block = whole.visible_region(corner.0 + x, corner.1 + y, 3, 3);
            let sum: u16 = block.pixels().map(u16::from).sum();
            *target.visible_pixel_mut(x, y) = (sum / 9) as u8;
        }
    }
}

#[test]
fn a_plane_is_softened_by_what_its_border_shows() {
    let mut plane = showing([3, 3, 1, 1, 1, 1], &[0, 0, 0, 0, 90, 0, 0, 0, 9]);
    let mut target = counted([3, 3, 2, 0, 1, 0], 100);
    soften(&mut plane, &mut target);
    let wanted = [100, 101, 102, 103, 104, 105, 106, 10, 10, 10, 110, 111, 10, 11, 12, 115, 116, 10, 12, 14];
    assert_eq!(target.data(), wanted);
}

/// Returns a plane with the picture of this number, wider than a block of vector instructions, and one value in the padding.
fn picture<T: Pixel>(width: usize, height: usize, number: usize) -> Plane<T> {
    let mut plane = bordered([width, height, 35, 2, 1, 2]);
    paint(&mut plane, number);
    plane
}

/// Returns the differences of the pictures 0 and 1, computed with a plain loop.
fn plain_differences<T: Pixel>(width: usize, height: usize) -> Differences {
    let (mut absolute, mut squared, mut first) = (0, 0, None);
    for y in 0..height {
        for x in 0..width {
            let (p, q): (u16, u16) = (sample::<T>(0, x, y).into(), sample::<T>(1, x, y).into());
            let apart = u128::from(p.abs_diff(q));
            absolute += apart;
            squared += apart * apart;
            first = first.or((apart > 0).then_some((x, y)));
        }
    }
    (absolute, squared, first)
}

fn check_differences<T: Pixel>() {
    for width in 1..=80 {
        let (a, b) = (picture::<T>(width, 3, 0), picture(width, 3, 1));
        must_differ(&a, &b, plain_differences::<T>(width, 3));
    }
}

#[test]
fn planes_of_each_width_are_as_far_apart_as_a_plain_loop_finds() {
    check_differences::<u8>();
    check_differences::<u16>();
}

/// Tests the differences of planes of zeros and of the largest value, and that a difference of only the last pixel is found.
fn check_extremes<T: Pixel>(largest: T, wanted: Differences) {
    let (mut a, mut b) = (picture::<T>(40, 3, 0), picture::<T>(40, 3, 0));
    fill(&mut a, T::from(0));
    fill(&mut b, largest);
    must_differ(&a, &b, wanted);
    fill(&mut b, T::from(0));
    *b.visible_pixel_mut(39, 2) = T::from(3);
    must_differ(&a, &b, (3, 9, Some((39, 2))));
}

#[test]
fn planes_are_as_far_apart_as_they_can_be() {
    check_extremes::<u8>(255, (30_600, 7_803_000, Some((0, 0))));
    check_extremes::<u16>(65_535, (7_864_200, 515_380_347_000, Some((0, 0))));
}

fn check_maps<T: Pixel>(least: T) {
    let [mut filled, mut mapped, mut combined] = [0; 3].map(|number| picture::<T>(40, 3, number));
    let other = picture::<T>(40, 3, 1);
    fill(&mut filled, least);
    map_pixels(&mut mapped, |pixel| pixel.max(least));
    combine_pixels(&mut combined, &other.as_plane_ref(), |p: T, q| p.max(q));
    must_show(&filled, |_, _| least);
    must_show(&mapped, |x, y| sample::<T>(0, x, y).max(least));
    must_show(&combined, |x, y| sample::<T>(0, x, y).max(sample(1, x, y)));
}

#[test]
fn wide_planes_are_filled_mapped_and_combined() {
    check_maps::<u8>(200);
    check_maps::<u16>(40_000);
}

fn check_region<T: Pixel>() {
    let mut target = picture::<T>(60, 7, 1);
    copy_region(&picture(40, 3, 0).as_plane_ref(), &mut target, 13, 2);
    must_show(&target, |x, y| {
        let is_inside = (13..53).contains(&x) && (2..5).contains(&y);
        if is_inside { sample(0, x - 13, y - 2) } else { sample(1, x, y) }
    });
}

#[test]
fn a_region_of_a_wide_plane_is_copied() {
    check_region::<u8>();
    check_region::<u16>();
}

fn check_pad<T: Pixel>() {
    let mut plane = picture::<T>(40, 3, 0);
    pad(&mut plane);
    let stride = plane.geometry().stride();
    for (place, &entry) in plane.data().iter().enumerate() {
        let x = (place % stride).saturating_sub(35).min(39);
        let y = (place / stride).saturating_sub(1).min(2);
        assert_eq!(entry, sample(0, x, y), "entry {place}");
    }
}

#[test]
fn a_wide_border_continues_the_picture() {
    check_pad::<u8>();
    check_pad::<u16>();
}

fn check_downscale<T: Pixel>(width: usize) {
    let mut target = picture::<T>(width, 3, 1);
    downscale(&picture(2 * width, 6, 0).as_plane_ref(), &mut target);
    must_show(&target, |x, y| {
        let places = [(0, 0), (1, 0), (0, 1), (1, 1)];
        let sum: u32 = places.iter().map(|(i, j)| u32::from(sample::<T>(0, 2 * x + i, 2 * y + j).into())).sum();
        T::try_from(((sum + 2) / 4) as u16).expect("a mean")
    });
}

#[test]
fn planes_of_each_width_are_halved() {
    for width in 1..=40 {
        check_downscale::<u8>(width);
        check_downscale::<u16>(width);
    }
}
