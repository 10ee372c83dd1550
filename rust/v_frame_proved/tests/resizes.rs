//! Resizing to any size: area averages and nearest neighbors.

mod support;

use support::cases::{Case, cases, values_of};
use support::for_type;
use support::planes::{BORDER, bordered, entry, must_hold, must_show, pixels, plane_of};
use v_frame_proved::pixel::Pixel;
use v_frame_proved::plane::RowsRef;
use v_frame_proved::resize::rows::{self, can_resize};
use v_frame_proved::resize::{resize_area, resize_nearest};

const CASES: &str = include_str!("data/sizes.txt");

/// Returns a picture of seven by five pixels.
fn source<T: Pixel>() -> Vec<T> {
    pixels(&values_of::<u16>(CASES, "source", if size_of::<T>() == 1 { "u8" } else { "u16" }))
}

fn resizes<T: Pixel>(call: &str, mut case: Case<'_>) {
    let (width, height) = (case.number(), case.number());
    let wanted: Vec<T> = pixels(&case.wanted::<u16>());
    let source = source::<T>();
    let shown = RowsRef::new(&source, 7, 5, 7).expect("rows");
    assert!(can_resize(7, 5, width, height), "{case}");
    let stride = width + 2;
    let mut buffer = vec![T::from(BORDER); stride * height + 5];
    let plane = plane_of([7, 5, 0, 0, 0, 0], &source);
    let mut target = bordered::<T>([width, height, 2, 1, 1, 2]);
    if call == "area" {
        rows::resize_area(&shown, &mut buffer, width, height, stride);
        resize_area(&plane.as_plane_ref(), &mut target);
    } else {
        rows::resize_nearest(&shown, &mut buffer, width, height, stride);
        resize_nearest(&plane.as_plane_ref(), &mut target);
    }
    must_hold(&buffer, stride, (0, 0), (width, height), |x, y| wanted[y * width + x]);
    must_show(&target, |x, y| wanted[y * width + x]);
}

fn by_area<T: Pixel>(case: Case<'_>) {
    resizes::<T>("area", case);
}

fn by_nearest<T: Pixel>(case: Case<'_>) {
    resizes::<T>("nearest", case);
}

#[test]
fn pixels_are_means_of_areas() {
    cases(CASES, "area").into_iter().for_each(|case| for_type!(by_area, case));
}

#[test]
fn pixels_are_the_nearest() {
    cases(CASES, "nearest").into_iter().for_each(|case| for_type!(by_nearest, case));
}

#[test]
fn sizes_whose_sums_cannot_be_counted_are_refused() {
    assert!(can_resize(16_777_216, 16_777_216, 4_294_967_295, 4_294_967_295));
    assert!(!can_resize(16_777_217, 16_777_216, 1, 1));
    assert!(!can_resize(4_294_967_296, 1, 4_294_967_296, 1));
    assert!(!can_resize(1, 4_294_967_296, 1, 4_294_967_296));
}

/// Returns how much of source pixel `i` is covered by target pixel `x`. A whole source pixel counts as `target`.
fn shared(i: usize, source: usize, x: usize, target: usize) -> usize {
    ((x + 1) * source).min((i + 1) * target).saturating_sub((x * source).max(i * target))
}

/// Returns the mean of the area that a target pixel covers, with halves rounded up. Each source pixel is weighted by its share.
fn mean<T: Pixel>(pixels: &[T], source: [usize; 2], target: [usize; 2], place: [usize; 2]) -> T {
    let share = |axis: usize, i: usize| shared(i, source[axis], place[axis], target[axis]);
    let area = source[0] * source[1];
    let sum: usize = (0..area)
        .map(|i| share(0, i % source[0]) * share(1, i / source[0]) * usize::from(pixels[i].into()))
        .sum();
    T::try_from(((2 * sum + area) / (2 * area)) as u16).expect("a value of the type")
}

/// Returns the source pixel that contains the center of target pixel `x`. A center between two pixels belongs to the second.
fn middle(source: usize, target: usize, x: usize) -> usize {
    (2 * x + 1) * source / (2 * target)
}

fn sizes_of_each_ratio<T: Pixel>() {
    let all: Vec<T> = (0..36).map(|i| entry(i, 7919, 0)).collect();
    for number in 0..1296 {
        let [width, height, columns, rows] = [1, 6, 36, 216].map(|unit| number / unit % 6 + 1);
        let pixels = &all[..width * height];
        let shown = RowsRef::new(pixels, width, height, width).expect("rows");
        let [mut means, mut nearest] = [0; 2].map(|zero| vec![T::from(zero); columns * rows]);
        rows::resize_area(&shown, &mut means, columns, rows, columns);
        rows::resize_nearest(&shown, &mut nearest, columns, rows, columns);
        for place in 0..columns * rows {
            let (x, y) = (place % columns, place / columns);
            let text = format!("{width}x{height} to {columns}x{rows}, pixel {x} of row {y}");
            assert_eq!(means[place], mean(pixels, [width, height], [columns, rows], [x, y]), "{text}");
            let from = middle(height, rows, y) * width + middle(width, columns, x);
            assert_eq!(nearest[place], pixels[from], "{text}");
        }
    }
}

#[test]
fn sizes_of_each_ratio_are_as_plain_formulas_say() {
    sizes_of_each_ratio::<u8>();
    sizes_of_each_ratio::<u16>();
}

#[test]
fn long_rows_are_of_the_nearest() {
    let all: Vec<u16> = (0..300_000).map(|i| entry(i, 7919, 0)).collect();
    for (source, target) in [
        (65_536, 65_536),
        (65_534, 65_536),
        (65_535, 65_534),
        (30_000, 65_000),
        (65_537, 40_000),
        (65_538, 65_536),
        (1_000, 65_537),
        (300_000, 70_000),
        (300_000, 1),
    ] {
        let shown = RowsRef::new(&all, source, 1, source).expect("rows");
        let mut row = vec![0; target];
        rows::resize_nearest(&shown, &mut row, target, 1, target);
        let differs = (0..target).find(|&x| row[x] != all[middle(source, target, x)]);
        assert_eq!(differs, None, "{source} to {target}");
    }
}

#[test]
fn means_of_large_and_bright_areas() {
    let bright = vec![u16::MAX; 300 * 300];
    let shown = RowsRef::new(&bright, 300, 300, 300).expect("rows");
    let mut means = [0; 6];
    rows::resize_area(&shown, &mut means, 2, 3, 2);
    assert_eq!(means, [u16::MAX; 6]);
}
