//! Statistics of planes. All entries of their padding have different values.

mod support;

use support::cases::{Case, cases, values};
use support::for_type;
use support::planes::{Layout, numbered, plane_of};
use v_frame_proved::ops::sum_of_absolute_differences;
use v_frame_proved::pixel::Pixel;
use v_frame_proved::plane::{Plane, PlaneRef};
use v_frame_proved::statistics::rows::{self, PairSums, SumAndCount, VarianceSums};
use v_frame_proved::statistics::{
    count_pairs, count_pixels, histogram, histogram_of_depth, maximum, minimum, pair_sums, statistics, sum,
    sum_and_count, variance_sums,
};

const CASES: &str = include_str!("data/statistics.txt");

/// Returns two planes of a layout.
fn planes<T: Pixel>(layout: Layout) -> [Plane<T>; 2] {
    planes_of_size(layout, 0)
}

/// Returns two planes of a layout whose entries have at most `size` different values.
fn planes_of_size<T: Pixel>(layout: Layout, size: u16) -> [Plane<T>; 2] {
    let factors: Vec<usize> = values(CASES, "factors");
    [factors[0], factors[1]].map(|factor| numbered(layout, factor, size))
}

fn counts<T: Pixel>(mut case: Case<'_>) {
    let limit: u16 = case.number();
    let [a, b] = planes::<T>(case.layout());
    let (a, b) = (a.as_plane_ref(), b.as_plane_ref());
    let above = |pixel: T| pixel.into() > limit;
    assert_eq!(rows::count_pixels(&a.as_rows_ref(), above), count_pixels(&a, above), "{case}");
    let (differ, less) = (count_pairs(&a, &b, |p, q| p != q), count_pairs(&a, &b, |p, q| p < q));
    let mean = sum_and_count(&a);
    let found = [count_pixels(&a, above), differ, less, minimum(&a).into().into(), maximum(&a).into().into()];
    case.expect(&[&found[..], &[mean.sum as usize / mean.count]].concat());
}

#[test]
fn pixels_are_counted() {
    cases(CASES, "counts").into_iter().for_each(|case| for_type!(counts, case));
}

/// Returns the sum of all counts, each multiplied by the square of its value plus one, and the sum of all counts.
fn weighed(table: &[u64]) -> [u64; 2] {
    [(1..).zip(table).map(|(place, count)| place * place * count).sum(), table.iter().sum()]
}

fn histograms(mut case: Case<'_>) {
    let (kind, depth, value) = (case.word(), case.number(), case.number::<u16>());
    let layout = case.layout();
    let (table, count) = if kind == "u8" {
        let [plane, _] = planes::<u8>(layout);
        let plane = plane.as_plane_ref();
        (histogram(&plane).to_vec(), count_pixels(&plane, |p| u16::from(p) == value))
    } else {
        let [plane, _] = planes::<u16>(layout);
        let plane = plane.as_plane_ref();
        (histogram_of_depth(&plane, depth).expect("memory"), count_pixels(&plane, |p| p == value))
    };
    assert_eq!(table.len(), 1 << depth, "{case}");
    assert_eq!(table[usize::from(value)], count as u64, "{case}");
    case.expect(&[&weighed(&table)[..], &[count as u64]].concat());
}

#[test]
fn values_are_counted() {
    cases(CASES, "histogram").into_iter().for_each(histograms);
}

#[test]
fn a_depth_of_zero_counts_zeros() {
    let plane = plane_of([2, 1, 0, 0, 0, 0], &[0_u16, 1]);
    assert_eq!(histogram_of_depth(&plane.as_plane_ref(), 0).expect("memory"), [1]);
}

fn fields(sums: PairSums) -> [u128; 5] {
    [sums.first, sums.second, sums.first_squares, sums.second_squares, sums.products]
}

fn sums<T: Pixel>(mut case: Case<'_>) {
    let (size, layout) = (case.number(), case.layout());
    let [a, b] = planes_of_size::<T>(layout, size);
    let (a, b) = (a.as_plane_ref(), b.as_plane_ref());
    let count = layout[0] * layout[1];
    let pairs = pair_sums(&a, &b);
    case.expect(&fields(pairs));
    let PairSums { first, second, second_squares: sum_of_squares, .. } = pairs;
    assert_eq!((sum(&a), sum(&b)), (first, second), "{case}");
    assert_eq!(sum_and_count(&a), SumAndCount { sum: first, count }, "{case}");
    assert_eq!(variance_sums(&b), VarianceSums { sum: second, sum_of_squares, count }, "{case}");
    let found = statistics(&b);
    assert_eq!((found.sum, found.sum_of_squares, found.count), (second, sum_of_squares, count), "{case}");
    assert_eq!((found.minimum, found.maximum), (minimum(&b), maximum(&b)), "{case}");
}

#[test]
fn sums_are_exact() {
    cases(CASES, "sums").into_iter().for_each(|case| for_type!(sums, case));
}

fn sums_of_block<T: Pixel>(mut case: Case<'_>) {
    let (x, y, width, height) = (case.number(), case.number(), case.number(), case.number());
    let [a, b] = planes::<T>(case.layout());
    let (a, b) = (a.as_plane_ref(), b.as_plane_ref());
    let sums = pair_sums(&a.visible_region(x, y, width, height), &b.visible_region(x, y, width, height));
    case.expect(&fields(sums));
}

#[test]
fn sums_of_blocks_are_exact() {
    cases(CASES, "block").into_iter().for_each(|case| for_type!(sums_of_block, case));
}

/// Returns the first position in an area, row by row, with the smallest sum of absolute differences, and that sum.
fn best_match<T: Pixel>(
    plane: &PlaneRef<'_, T>,
    block: &PlaneRef<'_, T>,
    [x, y, columns, rows]: [usize; 4],
) -> [u128; 3] {
    let places = (y..y + rows).flat_map(|y| (x..x + columns).map(move |x| (x, y)));
    let costs = places.map(|(x, y)| {
        let region = plane.visible_region(x, y, block.width(), block.height());
        [x as u128, y as u128, sum_of_absolute_differences(&region, block)]
    });
    costs.min_by_key(|found| found[2]).expect("a place")
}

fn finds_block<T: Pixel>(mut case: Case<'_>) {
    let area = [case.number(), case.number(), case.number(), case.number()];
    let ([plane, _], [_, block]) = (planes::<T>(case.layout()), planes::<T>(case.layout()));
    case.expect(&best_match(&plane.as_plane_ref(), &block.as_plane_ref(), area));
}

#[test]
fn the_first_least_match_is_found() {
    cases(CASES, "match").into_iter().for_each(|case| for_type!(finds_block, case));
}

#[test]
fn the_first_of_equal_matches_is_found() {
    let flat = plane_of([5, 4, 0, 0, 0, 0], &[7_u8; 20]);
    let block = plane_of([2, 2, 0, 0, 0, 0], &[9_u8; 4]);
    assert_eq!(best_match(&flat.as_plane_ref(), &block.as_plane_ref(), [1, 1, 3, 2]), [1, 1, 8]);
}

/// Compares the sums of a row with a loop that cannot overflow. The pixels at the positions `high` have the value `value`, and
/// the others are below 1000.
fn sums_of_row_with(width: usize, value: u16, high: &[usize]) {
    let [a, b] = [7919, 7907].map(|factor| {
        let mut plane = numbered::<u16>([width, 1, 0, 0, 0, 0], factor, 1000);
        high.iter().for_each(|&x| plane.data_mut()[x] = value);
        plane
    });
    let of = |product: fn(u128, u128) -> u128| -> u128 {
        a.data().iter().zip(b.data()).map(|(p, q)| product((*p).into(), (*q).into())).sum()
    };
    let wanted = [of(|p, _| p), of(|_, q| q), of(|p, _| p * p), of(|_, q| q * q), of(|p, q| p * q)];
    let (a, b) = (a.as_plane_ref(), b.as_plane_ref());
    assert_eq!(fields(pair_sums(&a, &b)), wanted, "{width} pixels");
    let found = variance_sums(&b);
    assert_eq!([found.sum, found.sum_of_squares, sum(&b)], [wanted[1], wanted[3], wanted[1]], "{width} pixels");
    let found = statistics(&a);
    assert_eq!([found.sum, found.sum_of_squares], [wanted[0], wanted[2]], "{width} pixels");
}

#[test]
fn sums_of_long_rows_with_large_values_are_exact() {
    for value in [1023, 1024, 1025, u16::MAX] {
        for width in [63, 64, 65, 79, 4095, 4096, 4097, 70_001, 131_072] {
            sums_of_row_with(width, value, &(0..width).collect::<Vec<_>>());
            sums_of_row_with(width, value, &[width - 2, width - 1]);
            sums_of_row_with(width, value, &[0, width / 2]);
        }
    }
}
