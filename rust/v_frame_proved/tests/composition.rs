//! Blends of two planes. The tests compare whole buffers.

mod support;

use support::cases::{Case, cases, values};
use support::for_type;
use support::planes::{number, numbered, weighted};
use v_frame_proved::ops::{blend_region, blend_region_with_mask, copy_region_clipped, difference, rows};
use v_frame_proved::pixel::Pixel;

const CASES: &str = include_str!("data/composition.txt");

/// Returns the factors for the entries of sources, targets and masks.
fn factors() -> [usize; 3] {
    let all: Vec<usize> = values(CASES, "factors");
    [all[0], all[1], all[3]]
}

/// Returns the number of different values of an entry. 0 stands for all 16-bit values.
fn size<T: Pixel>() -> u16 {
    if size_of::<T>() == 1 { 256 } else { 0 }
}

fn blends<T: Pixel>(mut case: Case<'_>) {
    let [factor, target_factor, _] = factors();
    let (weight, x, y) = (case.number(), case.number(), case.number());
    let source = numbered::<T>(case.layout(), factor, size::<T>());
    let mut target = numbered::<T>(case.layout(), target_factor, size::<T>());
    blend_region(&source.as_plane_ref(), &mut target, x, y, weight);
    case.expect(&[weighted(target.data())]);
}

#[test]
fn a_region_is_blended() {
    cases(CASES, "blend").into_iter().for_each(|case| for_type!(blends, case));
}

fn blends_by_mask<T: Pixel>(mut case: Case<'_>) {
    let [factor, target_factor, mask_factor] = factors();
    let (x, y, layout) = (case.number(), case.number(), case.layout());
    let source = numbered::<T>(layout, factor, size::<T>());
    let mask = numbered::<u8>(layout, mask_factor, 256);
    let mut target = numbered::<T>(case.layout(), target_factor, size::<T>());
    blend_region_with_mask(&source.as_plane_ref(), &mask.as_plane_ref(), &mut target, x, y);
    case.expect(&[weighted(target.data())]);
}

#[test]
fn a_region_is_blended_by_a_mask() {
    cases(CASES, "mask").into_iter().for_each(|case| for_type!(blends_by_mask, case));
}

fn copies<T: Pixel>(mut case: Case<'_>) {
    let [factor, target_factor, _] = factors();
    let (x, y) = (case.number(), case.number());
    let source = numbered::<T>(case.layout(), factor, size::<T>());
    let mut target = numbered::<T>(case.layout(), target_factor, size::<T>());
    copy_region_clipped(&source.as_plane_ref(), &mut target, x, y);
    case.expect(&[weighted(target.data())]);
}

#[test]
fn what_lies_outside_is_left_out() {
    cases(CASES, "copy").into_iter().for_each(|case| for_type!(copies, case));
}

fn differs<T: Pixel>(mut case: Case<'_>) {
    let [factor, target_factor, _] = factors();
    let (size, gain, depth, step) = (case.number(), case.number(), case.number(), case.number::<usize>());
    let layout = case.layout();
    let other = numbered::<T>(layout, factor + step, size);
    let mut plane = numbered::<T>(layout, target_factor, size);
    difference(&other.as_plane_ref(), &mut plane, gain, depth);
    case.expect(&[weighted(plane.data())]);
}

#[test]
fn differences_are_shown() {
    cases(CASES, "difference").into_iter().for_each(|case| for_type!(differs, case));
}

/// Blends five by three pixels in rows with a stride of nine entries.
fn composes_rows<T: Pixel>(mut case: Case<'_>) {
    let [factor, target_factor, mask_factor] = factors();
    let (call, layout) = (case.word(), case.layout());
    let (source, mask) = (numbered::<T>(layout, factor, size::<T>()), numbered::<u8>(layout, mask_factor, 256));
    let (source, mask) = (source.as_plane_ref().as_rows_ref(), mask.as_plane_ref().as_rows_ref());
    let mut buffer = [T::from(0); 30];
    number(&mut buffer, target_factor, size::<T>());
    match call {
        "blend" => rows::blend(&source, &mut buffer, 5, 3, 9, 77),
        "mask" => rows::blend_with_mask(&source, &mask, &mut buffer, 5, 3, 9),
        _ => rows::difference(&source, &mut buffer, 5, 3, 9, 2, 8 * size_of::<T>() as u8),
    }
    case.expect(&[weighted(&buffer)]);
}

#[test]
fn rows_are_composed() {
    cases(CASES, "rows").into_iter().for_each(|case| for_type!(composes_rows, case));
}
