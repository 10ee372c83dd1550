//! Conversions of bit depths, ranges, chroma formats and sizes. The tests compare whole buffers.

#![cfg(feature = "std")]

mod support;

use std::num::NonZeroU8;
use support::cases::{Case, cases, values};
use support::planes::{format, number, numbered, weighted};
use support::{for_type, for_types};
use v_frame_proved::chroma::ChromaSubsampling::{self, Monochrome, Yuv411, Yuv420, Yuv422, Yuv444};
use v_frame_proved::convert::{
    Component, Scale, convert_depth, convert_frame, depth_fits, downscale_to_edge, frames_fit, halve_columns, map_into,
    resample, sizes_fit, subsampled_size, to_full_range, to_limited_range, upscale,
};
use v_frame_proved::frame::{Frame, FrameBuilder};
use v_frame_proved::pixel::Pixel;
use v_frame_proved::planar::video_frame;

const CASES: &str = include_str!("data/conversions.txt");

/// Returns the factors for the entries of sources, targets and a third plane.
fn factors() -> [usize; 3] {
    values(CASES, "factors")[..3].try_into().expect("three factors")
}

fn scale(name: &str) -> Scale {
    match name {
        "Quarter" => Scale::Quarter,
        "Half" => Scale::Half,
        "Same" => Scale::Same,
        "Double" => Scale::Double,
        "Quadruple" => Scale::Quadruple,
        _ => panic!("no scale: {name}"),
    }
}

fn changes_depth<S: Pixel, T: Pixel>(mut case: Case<'_>) {
    let [factor, target_factor, _] = factors();
    let (from, size, to, layout) = (case.number(), case.number(), case.number(), case.layout());
    assert!(depth_fits::<S>(from) && depth_fits::<T>(to));
    let source = numbered::<S>(layout, factor, size);
    let mut target = numbered::<T>(layout, target_factor, 0);
    convert_depth(&source.as_plane_ref(), &mut target, from, to);
    case.expect(&[weighted(target.data())]);
}

#[test]
fn values_change_their_depth() {
    cases(CASES, "depth").into_iter().for_each(|case| for_types!(changes_depth, case));
}

#[test]
fn a_depth_fits_from_8_bits_to_those_of_the_type() {
    let fitting = |fits: fn(u8) -> bool| (0..=255).filter(|&depth| fits(depth)).collect::<Vec<_>>();
    assert_eq!(fitting(depth_fits::<u8>), [8]);
    assert_eq!(fitting(depth_fits::<u16>), (8..=16).collect::<Vec<_>>());
}

#[test]
fn a_closure_widens_as_a_change_of_depth_does() {
    let [factor, target_factor, _] = factors();
    let layout = [131, 7, 3, 2, 1, 1];
    let source = numbered::<u8>(layout, factor, 256);
    let mut targets = [numbered::<u16>(layout, target_factor, 0), numbered(layout, target_factor, 0)];
    map_into(&source.as_plane_ref(), &mut targets[0], |p| u16::from(p) * 4);
    convert_depth(&source.as_plane_ref(), &mut targets[1], 8, 10);
    assert_eq!(targets[0], targets[1]);
}

#[test]
fn pixels_are_mapped_from_one_type_to_another() {
    let [factor, target_factor, _] = factors();
    for mut case in cases(CASES, "threshold") {
        let (least, layout) = (case.number(), case.layout());
        let source = numbered::<u16>(layout, factor, 0);
        let mut target = numbered::<u8>(layout, target_factor, 256);
        map_into(&source.as_plane_ref(), &mut target, |p: u16| if p < least { 0 } else { 255 });
        case.expect(&[weighted(target.data())]);
    }
}

fn changes_range<T: Pixel>(mut case: Case<'_>) {
    let [factor, target_factor, _] = factors();
    let (depth, size) = (case.number(), case.number());
    let component = if case.word() == "Luma" { Component::Luma } else { Component::Chroma };
    let layout = case.layout();
    let source = numbered::<T>(layout, factor, size);
    let sums = [to_full_range, to_limited_range].map(|change| {
        let mut target = numbered::<T>(layout, target_factor, 0);
        change(&source, &mut target, component, depth);
        weighted(target.data())
    });
    case.expect(&sums);
}

#[test]
fn values_change_their_range() {
    cases(CASES, "range").into_iter().for_each(|case| for_type!(changes_range, case));
}

fn repeats<T: Pixel>(mut case: Case<'_>) {
    let [factor, target_factor, _] = factors();
    let (ratio_x, ratio_y) = (case.number(), case.number());
    let source = numbered::<T>(case.layout(), factor, 0);
    let mut target = numbered::<T>(case.layout(), target_factor, 0);
    let size = (subsampled_size(target.width(), ratio_x), subsampled_size(target.height(), ratio_y));
    assert_eq!(size, (source.width(), source.height()), "{case}");
    upscale(&source.as_plane_ref(), &mut target, ratio_x, ratio_y);
    case.expect(&[weighted(target.data())]);
}

#[test]
fn pixels_are_repeated() {
    cases(CASES, "upscale").into_iter().for_each(|case| for_type!(repeats, case));
}

fn resizes<S: Pixel, T: Pixel>(mut case: Case<'_>) {
    let [factor, target_factor, _] = factors();
    let (from, size, to) = (case.number(), case.number(), case.number());
    let (across, down) = (scale(case.word()), scale(case.word()));
    let source = numbered::<S>(case.layout(), factor, size);
    let mut target = numbered::<T>(case.layout(), target_factor, 0);
    assert!(sizes_fit(across, source.width(), target.width()), "{case}");
    assert!(sizes_fit(down, source.height(), target.height()), "{case}");
    resample(&source.as_plane_ref(), &mut target, across, down, from, to);
    case.expect(&[weighted(target.data())]);
}

#[test]
fn sizes_change_with_depths() {
    cases(CASES, "resize").into_iter().for_each(|case| for_types!(resizes, case));
}

fn halves<T: Pixel>(mut case: Case<'_>) {
    let [factor, target_factor, _] = factors();
    let halve = if case.word() == "both" { downscale_to_edge } else { halve_columns };
    let source = numbered::<T>(case.layout(), factor, 0);
    let mut target = numbered::<T>(case.layout(), target_factor, 0);
    halve(&source.as_plane_ref(), &mut target);
    case.expect(&[weighted(target.data())]);
}

#[test]
fn sizes_are_halved() {
    cases(CASES, "halve").into_iter().for_each(|case| for_type!(halves, case));
}

/// Returns a frame of 16 by 6 pixels whose planes are numbered. The case states the bit depth, the size and the format.
fn frame<T: Pixel>(case: &mut Case<'_>) -> Frame<T> {
    let (depth, size) = (case.number(), case.number());
    let mut frame = FrameBuilder::new(16, 6, format(case.word()), depth).build::<T>().expect("a frame");
    for (index, factor) in factors().into_iter().enumerate() {
        if let Some(plane) = frame.plane_mut(index) {
            number(plane.data_mut(), factor, size);
        }
    }
    frame
}

fn changes_frame<S: Pixel, T: Pixel>(mut case: Case<'_>) {
    let source = frame::<S>(&mut case);
    let mut target = frame::<T>(&mut case);
    assert!(frames_fit(&source, &target), "{case}");
    convert_frame(&source, &mut target);
    case.expect(&[0, 1, 2].map(|index| target.plane(index).map_or(0, |plane| weighted(plane.data()))));
}

#[test]
fn frames_change_format_and_depth() {
    cases(CASES, "frame").into_iter().for_each(|case| for_types!(changes_frame, case));
}

#[test]
fn frames_of_other_sizes_or_depths_do_not_fit() {
    let built = |format| FrameBuilder::new(16, 6, format, 8).build::<u8>().expect("a frame");
    let (source, mut target) = (built(Yuv420), built(Yuv422));
    assert!(frames_fit(&source, &target));
    target.bit_depth = NonZeroU8::new(9).expect("a depth");
    assert!(!frames_fit(&source, &target));
    target.bit_depth = source.bit_depth;
    for format in [Yuv420, Yuv444] {
        target.subsampling = format;
        assert!(!frames_fit(&source, &target));
    }
}

/// Returns a frame with this luma size and format whose chroma planes have another size.
fn with_chroma(luma: (usize, usize), format: ChromaSubsampling, chroma: (usize, usize)) -> Frame<u8> {
    let mut frame = video_frame::<u8>(luma.0, luma.1, format, 8, 0).expect("a frame");
    let other = video_frame::<u8>(chroma.0, chroma.1, Yuv444, 8, 0).expect("a frame");
    (frame.u_plane, frame.v_plane) = (other.u_plane, other.v_plane);
    frame
}

#[test]
fn chroma_is_as_large_as_the_formats_say() {
    // The size of chroma for 101 by 99 pixels of luma, rounded up.
    let sizes = [(Yuv420, (51, 50)), (Yuv422, (51, 99)), (Yuv411, (26, 99)), (Yuv444, (101, 99))];
    for (from, chroma) in sizes {
        for (to, other) in sizes {
            let (source, target) = (with_chroma((101, 99), from, chroma), with_chroma((101, 99), to, other));
            assert!(frames_fit(&source, &target), "{from:?} into {to:?}");
        }
        // The chroma planes of both frames fit each other, but not the formats of the frames.
        for (columns, rows) in [(3, 3), (chroma.0 - 1, chroma.1), (chroma.0, chroma.1 + 1)] {
            let wrong = with_chroma((101, 99), from, (columns, rows));
            assert!(!frames_fit(&wrong, &wrong), "{from:?} with {columns} by {rows}");
        }
    }
    let small = with_chroma((100, 100), Yuv420, (3, 3));
    assert!(!frames_fit(&small, &with_chroma((100, 100), Yuv444, (6, 6))));
    assert!(!frames_fit(&small, &with_chroma((100, 100), Yuv422, (3, 6))));
    // Chroma that only one of the two frames has is not tested.
    let gray = video_frame::<u8>(100, 100, Monochrome, 8, 0).expect("a frame");
    assert!(frames_fit(&small, &gray) && frames_fit(&gray, &small));
    // Only one plane is wrong.
    for index in [1, 2] {
        let mut wrong = with_chroma((100, 100), Yuv420, (50, 50));
        *wrong.plane_mut(index).expect("a plane") = small.plane(index).expect("a plane").clone();
        assert!(!frames_fit(&wrong, &wrong), "plane {index}");
    }
}
