//! Lists of calls that are replayed on frames: the answer of each call, and the effect on the frame.

#![cfg(feature = "std")]

mod support;

use std::fmt::Debug;
use support::draws::drawn;
use support::planes::{BORDERED, Layout, blank, in_numbered_border, plane_of, sample};
use v_frame_proved::chroma::ChromaSubsampling::{Monochrome, Yuv420, Yuv422, Yuv444};
use v_frame_proved::frame::{Frame, FrameBuilder};
use v_frame_proved::pixel::Pixel;
use v_frame_proved::planar::video_frame;
use v_frame_proved::replay::{Answer, Drawn, PixelDraw, ReplayStopped, RowDraw, Side, VisibleCall, replay};

/// Three by two pixels without padding.
const BARE: Layout = [3, 2, 0, 0, 0, 0];

/// Returns the sides in a text: `f` is the front, and `b` is the back.
fn sides(text: &str) -> impl Iterator<Item = Side> {
    text.chars().map(|side| if side == 'f' { Side::Front } else { Side::Back })
}

fn width<T>(plane: usize) -> VisibleCall<T> {
    VisibleCall::Width { plane }
}

fn height<T>(plane: usize) -> VisibleCall<T> {
    VisibleCall::Height { plane }
}

fn row<T>(plane: usize, y: usize) -> VisibleCall<T> {
    VisibleCall::Row { plane, y }
}

fn row_mut<T: Copy>(plane: usize, y: usize, writes: &[Option<T>]) -> VisibleCall<T> {
    VisibleCall::RowMut { plane, y, writes: writes.to_vec().into() }
}

fn pixel<T>(plane: usize, x: usize, y: usize) -> VisibleCall<T> {
    VisibleCall::Pixel { plane, x, y }
}

fn pixel_mut<T>(plane: usize, x: usize, y: usize, value: T) -> VisibleCall<T> {
    VisibleCall::PixelMut { plane, x, y, value }
}

fn copy<T: Copy>(plane: usize, source: &[T]) -> VisibleCall<T> {
    VisibleCall::CopyFromSlice { plane, source: source.to_vec().into() }
}

fn copy_strided<T>(plane: usize, source: &[u8], stride: usize) -> VisibleCall<T> {
    VisibleCall::CopyFromU8SliceWithStride { plane, source: source.to_vec().into(), stride }
}

fn rows<T>(plane: usize, draws: &str) -> VisibleCall<T> {
    VisibleCall::Rows { plane, draws: sides(draws).collect::<Vec<_>>().into() }
}

fn pixels<T>(plane: usize, draws: &str) -> VisibleCall<T> {
    VisibleCall::Pixels { plane, draws: sides(draws).collect::<Vec<_>>().into() }
}

fn bytes<T>(plane: usize, draws: &str) -> VisibleCall<T> {
    VisibleCall::ByteData { plane, draws: sides(draws).collect::<Vec<_>>().into() }
}

/// Takes rows from these sides and overwrites each of them.
fn rows_mut<T: Copy>(plane: usize, draws: &str, writes: &[&[Option<T>]]) -> VisibleCall<T> {
    let draws = sides(draws).zip(writes).map(|(side, writes)| RowDraw { side, writes: writes.to_vec().into() });
    VisibleCall::RowsMut { plane, draws: draws.collect::<Vec<_>>().into() }
}

/// Takes pixels from these sides and replaces each of them.
fn pixels_mut<T: Copy>(plane: usize, draws: &str, values: &[Option<T>]) -> VisibleCall<T> {
    let draws = sides(draws).zip(values).map(|(side, &value)| PixelDraw { side, value });
    VisibleCall::PixelsMut { plane, draws: draws.collect::<Vec<_>>().into() }
}

/// Returns the text of an iteration, such as `2 rows: [4, 5, 6]/1 [1, 2, 3]/0 -/0`.
fn walked<I: Debug>(kind: &str, total: usize, items: &[Drawn<I>]) -> String {
    let items: Vec<_> = items.iter().map(|item| drawn(&item.item, item.left)).collect();
    format!("{total} {kind}: {}", items.join(" "))
}

/// Returns the text of an answer.
fn text_of<T: Debug>(answer: &Answer<T>) -> String {
    match answer {
        Answer::RowsWalked { total, drawn } => walked("rows", *total, drawn),
        Answer::PixelsWalked { total, drawn } => walked("pixels", *total, drawn),
        Answer::BytesWalked { total, drawn } => walked("bytes", *total, drawn),
        _ => format!("{answer:?}"),
    }
}

/// Calls, and the expected answer of each.
type Steps<'a, T> = &'a [(VisibleCall<T>, &'a str)];

/// Replays these calls on a frame and compares the answers.
#[track_caller]
fn check_answers<T: Pixel>(frame: &mut Frame<T>, steps: Steps<'_, T>) {
    let calls: Vec<_> = steps.iter().map(|(call, _)| call.clone()).collect();
    let answers = replay(frame, &calls).expect("memory");
    assert_eq!(answers.len(), steps.len());
    for (answer, (call, wanted)) in answers.iter().zip(steps) {
        assert_eq!(text_of(answer), *wanted, "{call:?}");
    }
}

/// Returns a frame without chroma with this size and padding, whose buffer has these entries.
fn frame_of<T: Pixel>(layout: Layout, buffer: &[T]) -> Frame<T> {
    let depth = 8 * size_of::<T>() as u8;
    let mut frame = FrameBuilder::new(layout[0], layout[1], Monochrome, depth).build().expect("a frame");
    frame.y_plane = plane_of(layout, buffer);
    frame
}

/// Replays calls on a plane, and compares the answers and the buffer.
#[track_caller]
fn check<T: Pixel>(layout: Layout, before: &[T], steps: Steps<'_, T>, after: &[T]) {
    let mut frame = frame_of(layout, before);
    check_answers(&mut frame, steps);
    assert_eq!(frame, frame_of(layout, after));
}

/// The pixels 1 to 6.
const SIX: [u8; 6] = [1, 2, 3, 4, 5, 6];

#[test]
fn no_call_has_no_answer() {
    check::<u8>(BARE, &[0; 6], &[], &[0; 6]);
}

#[test]
fn copies_are_answered_and_then_read() {
    let steps = [
        (copy(0, &[1, 2, 3, 4, 5]), "Copied(Err(DataLength { expected: 6, found: 5 }))"),
        (copy(0, &SIX), "Copied(Ok(()))"),
        (pixel(0, 2, 1), "PixelShown(6)"),
        (pixel(0, 3, 0), "OutsideRectangle"),
        (row(0, 2), "RowShown(None)"),
        (width(1), "NoPlane"),
    ];
    check::<u8>(BARE, &[0; 6], &steps, &SIX);
}

#[test]
fn writes_leave_gaps_and_stop_at_the_width_and_at_the_height() {
    let before = [100, 101, 102, 103, 104, 105, 106, 1, 2, 3, 110, 111, 112, 4, 5, 6, 116, 117];
    let after = [100, 101, 102, 103, 104, 105, 106, 1, 8, 3, 110, 111, 112, 4, 5, 6, 116, 117];
    let steps = [
        (row_mut(0, 0, &[None, Some(8), None, Some(5)]), "RowShown(Some([1, 2, 3]))"),
        (row_mut(0, 2, &[Some(9)]), "RowShown(None)"),
    ];
    check::<u8>(BORDERED, &before, &steps, &after);
    let steps = [(row_mut(0, 1, &[Some(9), None, Some(7)]), "RowShown(Some([4, 5, 6]))")];
    check(BARE, &SIX, &steps, &[1, 2, 3, 9, 5, 7]);
}

#[test]
fn the_border_is_outside() {
    let entries = [9, 9, 9, 9, 9, 1, 2, 3, 9, 4, 5, 6, 9, 9, 9, 9];
    let steps = [
        (pixel(0, 2, 1), "PixelShown(6)"),
        (pixel(0, 0, 2), "OutsideRectangle"),
        (pixel(0, 3, 0), "OutsideRectangle"),
        (pixel_mut(0, 0, 2, 7), "OutsideRectangle"),
        (pixel_mut(0, 3, 0, 7), "OutsideRectangle"),
    ];
    check::<u8>([3, 2, 1, 0, 1, 1], &entries, &steps, &entries);
}

#[test]
fn numbers_as_large_as_they_go_are_outside() {
    let steps = [
        (pixel(0, usize::MAX, usize::MAX), "OutsideRectangle"),
        (pixel_mut(0, 0, usize::MAX, 9), "OutsideRectangle"),
        (row(0, usize::MAX), "RowShown(None)"),
        (height(usize::MAX), "NoPlane"),
    ];
    check(BARE, &SIX, &steps, &SIX);
}

#[test]
fn reads_change_nothing() {
    let steps = [
        (width(0), "Number(3)"),
        (height(0), "Number(2)"),
        (rows(0, ""), "2 rows: "),
        (pixels(0, "fbbbffb"), "6 pixels: 1/5 6/4 5/3 4/2 2/1 3/0 -/0"),
        (rows(0, "bfb"), "2 rows: [4, 5, 6]/1 [1, 2, 3]/0 -/0"),
        (bytes(0, "fb"), "6 bytes: 1/5 6/4"),
    ];
    check(BARE, &SIX, &steps, &SIX);
}

#[test]
fn a_border_column_shows_in_no_answer() {
    for border in [0, 9] {
        let [before, after] = [4, 8].map(|last| [1, 2, border, 3, last, 0_u8]);
        let steps = [
            (row(0, 0), "RowShown(Some([1, 2]))"),
            (pixels(0, "bf"), "4 pixels: 4/3 1/2"),
            (pixel_mut(0, 1, 1, 8), "PixelShown(4)"),
            (row(0, 1), "RowShown(Some([3, 8]))"),
        ];
        check::<u8>([2, 2, 0, 1, 0, 0], &before, &steps, &after);
    }
}

#[test]
fn bytes_are_counted_and_drawn() {
    check::<u8>([2, 2, 0, 0, 0, 0], &[1, 2, 3, 4], &[(bytes(0, "fbfb"), "4 bytes: 1/3 4/2 2/1 3/0")], &[1, 2, 3, 4]);
    check::<u8>([4, 3, 0, 0, 0, 0], &[3; 12], &[(bytes(0, "f"), "12 bytes: 3/11")], &[3; 12]);
    check::<u16>([4, 3, 0, 0, 0, 0], &[0x0304; 12], &[(bytes(0, "f"), "24 bytes: 4/23")], &[0x0304; 12]);
    let steps = [(bytes(0, "fbf"), "2 bytes: 2/1 1/0 -/0"), (bytes(2, ""), "NoPlane")];
    check::<u16>([1, 1, 0, 0, 0, 0], &[0x0102], &steps, &[0x0102]);
    let buffer = [0xA100, 0x0102, 0x0304, 0xA103, 0xA104, 0xA105];
    check::<u16>([2, 1, 1, 0, 0, 1], &buffer, &[(bytes(0, "fbfbb"), "4 bytes: 2/3 3/2 1/1 4/0 -/0")], &buffer);
}

#[test]
fn pixels_are_replaced_where_they_are_drawn() {
    let step = || [(pixels_mut(0, "bff", &[Some(9), None, Some(7)]), "6 pixels: 6/5 1/4 2/3")];
    check(BARE, &SIX, &step(), &[1, 7, 3, 4, 5, 9]);
    let [before, after] = [[2, 6], [7, 9]]
        .map(|[second, last]| [200, 200, 200, 200, 200, 200, 200, 1, second, 3, 200, 200, 200, 4, 5, last, 200, 200]);
    check(BORDERED, &before, &step(), &after);
    let past = [Some(1), Some(2), Some(3), Some(4), Some(5)];
    let steps = [(pixels_mut(0, "fbbbf", &past), "3 pixels: 5/2 7/1 6/0 -/0 -/0")];
    check::<u8>([3, 1, 0, 0, 0, 0], &[5, 6, 7], &steps, &[1, 3, 2]);
    let values = [Some(10), Some(40), Some(20), Some(30)];
    let steps = [(pixels_mut(0, "fbff", &values), "4 pixels: 0/3 0/2 0/1 0/0")];
    check::<u8>([2, 2, 0, 0, 0, 0], &[0; 4], &steps, &[10, 20, 30, 40]);
    let steps = [
        (pixels_mut(0, "ffffff", &[0, 1, 2, 3, 4, 5].map(Some)), "6 pixels: 0/5 0/4 0/3 0/2 0/1 0/0"),
        (pixels(0, "fbfbfffb"), "6 pixels: 0/5 5/4 1/3 4/2 2/1 3/0 -/0 -/0"),
    ];
    check::<u8>(BARE, &[0; 6], &steps, &[0, 1, 2, 3, 4, 5]);
}

#[test]
fn rows_are_overwritten_where_they_are_drawn() {
    let step = (rows_mut(0, "fb", &[&[Some(9)], &[Some(7)]]), "1 rows: [3, 4]/0 -/0");
    check::<u8>([2, 1, 0, 0, 0, 0], &[3, 4], &[step], &[9, 4]);
    let steps = [
        (
            rows_mut(0, "fbf", &[&[Some(1); 3], &[Some(3); 3], &[Some(2); 3]]),
            "3 rows: [0, 0, 0]/2 [0, 0, 0]/1 [0, 0, 0]/0",
        ),
        (rows(0, "fbf"), "3 rows: [1, 1, 1]/2 [3, 3, 3]/1 [2, 2, 2]/0"),
    ];
    check::<u8>([3, 3, 0, 0, 0, 0], &[0; 9], &steps, &[1, 1, 1, 2, 2, 2, 3, 3, 3]);
}

#[test]
fn calls_name_each_of_three_planes() {
    let builder = FrameBuilder::new(4, 2, Yuv420, 8).luma_padding_left(2).luma_padding_right(2).luma_padding_top(2);
    let mut frame = builder.build::<u8>().expect("a frame");
    check_answers(&mut frame, &[(width(1), "Number(2)"), (height(2), "Number(1)"), (width(3), "NoPlane")]);
    let steps = [
        (copy(2, &[65535, 1]), "Copied(Ok(()))"),
        (row(1, 0), "RowShown(Some([0]))"),
        (row(2, 0), "RowShown(Some([65535]))"),
    ];
    check_answers(&mut FrameBuilder::new(2, 2, Yuv422, 16).build::<u16>().expect("a frame"), &steps);
}

#[test]
fn calls_name_planes_that_a_user_replaced() {
    let mut frame = FrameBuilder::new(2, 2, Yuv420, 8).build::<u8>().expect("a frame");
    frame.u_plane = Some(blank([3, 1, 0, 0, 0, 0]));
    frame.v_plane = None;
    let steps = [
        (width(1), "Number(3)"),
        (height(1), "Number(1)"),
        (copy(1, &[7]), "Copied(Err(DataLength { expected: 3, found: 1 }))"),
        (width(2), "NoPlane"),
        (copy(0, &[1, 2, 3, 4]), "Copied(Ok(()))"),
    ];
    check_answers(&mut frame, &steps);
    assert_eq!(frame.y_plane.data(), [1, 2, 3, 4]);
}

/// Returns three planes of 16-bit pixels with these pixels and padding of 43981.
fn framed([width, height, left, right, top, bottom]: Layout, shown: [[u16; 6]; 3]) -> Frame<u16> {
    let builder = FrameBuilder::new(width, height, Yuv444, 16).luma_padding_left(left).luma_padding_right(right);
    let builder = builder.luma_padding_top(top).luma_padding_bottom(bottom);
    let mut frame = builder.build::<u16>().expect("a frame");
    for (index, pixels) in shown.iter().enumerate() {
        let plane = frame.plane_mut(index).expect("a plane");
        plane.data_mut().fill(43981);
        plane.copy_from_slice(pixels).expect("six pixels");
    }
    frame
}

#[test]
fn mixed_calls_are_answered_in_each_border_and_keep_it() {
    let steps = [
        (rows_mut(0, "bff", &[&[None, Some(50)], &[], &[Some(9)]]), "2 rows: [4, 5, 6]/1 [1, 2, 3]/0 -/0"),
        (pixels_mut(2, "fbf", &[Some(7), Some(8), None]), "6 pixels: 0/5 0/4 0/3"),
        (bytes(0, "bbf"), "12 bytes: 0/11 6/10 1/9"),
        (pixel_mut(0, 3, 0, 99), "OutsideRectangle"),
        (copy_strided(2, &[1; 10], 5), "Copied(Err(InvalidStride { stride: 5, width: 3 }))"),
        (pixels(2, "b"), "6 pixels: 8/5"),
    ];
    for layout in [BARE, BORDERED] {
        let mut frame = framed(layout, [[1, 2, 3, 4, 5, 6], [0; 6], [0; 6]]);
        check_answers(&mut frame, &steps);
        assert_eq!(frame, framed(layout, [[1, 2, 3, 4, 50, 6], [0; 6], [7, 0, 0, 0, 0, 8]]));
    }
}

#[test]
fn nine_calls_are_answered_alike_in_different_borders() {
    let steps = [
        (width(0), "Number(3)"),
        (pixel_mut(0, 1, 0, 20), "PixelShown(2)"),
        (row_mut(0, 1, &[None, Some(50)]), "RowShown(Some([4, 5, 6]))"),
        (pixels(0, "bf"), "6 pixels: 6/5 1/4"),
        (rows_mut(0, "b", &[&[Some(7)]]), "2 rows: [4, 50, 6]/1"),
        (bytes(0, "f"), "6 bytes: 1/5"),
        (copy_strided(0, &[9, 8, 7, 99, 6, 5, 4, 99], 4), "Copied(Ok(()))"),
        (pixels_mut(0, "fb", &[Some(30), None]), "6 pixels: 9/5 4/4"),
        (row(0, 0), "RowShown(Some([30, 8, 7]))"),
    ];
    for layout in [BORDERED, [3, 2, 1, 0, 0, 1]] {
        let [before, after] = [SIX, [30, 8, 7, 6, 5, 4]].map(|pixels| in_numbered_border(layout, &pixels));
        check(layout, &before, &steps, &after);
    }
}

/// Makes two hundred calls on luma of five by three pixels: each call with an even number replaces a pixel, and the others read
/// one.
fn check_many<T: Pixel>(depth: u8, padding: usize) {
    let mut frame = video_frame::<T>(5, 3, Yuv420, depth, padding).expect("a frame");
    let mut shown = [T::from(0); 15];
    let (mut calls, mut wanted) = (Vec::new(), Vec::new());
    for number in 0..200 {
        let index = number * 7 % 15;
        wanted.push(Answer::PixelShown(shown[index]));
        if number % 2 == 0 {
            shown[index] = sample(number, 0, 0);
            calls.push(pixel_mut(0, index % 5, index / 5, shown[index]));
        } else {
            calls.push(pixel(0, index % 5, index / 5));
        }
    }
    assert_eq!(replay(&mut frame, &calls).expect("memory"), wanted);
    assert!(frame.y_plane.pixels().eq(shown));
}

#[test]
fn two_hundred_calls_are_answered_in_each_depth_and_border() {
    for padding in [0, 4] {
        check_many::<u8>(8, padding);
        (9..=16).for_each(|depth| check_many::<u16>(depth, padding));
    }
}

#[test]
fn calls_answers_and_a_stopped_replay_show_what_they_name() {
    let calls = [
        (width(1), "Width { plane: 1 }"),
        (copy(0, &[7, 8]), "CopyFromSlice { plane: 0, source: [7, 8] }"),
        (row_mut(0, 3, &[Some(9), None]), "RowMut { plane: 0, y: 3, writes: [Some(9), None] }"),
        (bytes(0, "b"), "ByteData { plane: 0, draws: [Back] }"),
        (
            rows_mut(0, "f", &[&[Some(9), None]]),
            "RowsMut { plane: 0, draws: [RowDraw { side: Front, writes: [Some(9), None] }] }",
        ),
        (pixels_mut(0, "b", &[None]), "PixelsMut { plane: 0, draws: [PixelDraw { side: Back, value: None }] }"),
    ];
    for (call, wanted) in calls {
        let call: VisibleCall<u8> = call;
        assert_eq!(format!("{call:?}"), wanted);
    }
    let mut frame = frame_of(BARE, &SIX);
    let answers = replay(&mut frame, &[rows(0, "bfb"), pixels(0, "f"), bytes(0, "b")]).expect("memory");
    let wanted = "[RowsWalked { total: 2, drawn: [Drawn { item: Some([4, 5, 6]), left: 1 }, \
                  Drawn { item: Some([1, 2, 3]), left: 0 }, Drawn { item: None, left: 0 }] }, \
                  PixelsWalked { total: 6, drawn: [Drawn { item: Some(1), left: 5 }] }, \
                  BytesWalked { total: 6, drawn: [Drawn { item: Some(6), left: 5 }] }]";
    assert_eq!(format!("{answers:?}"), wanted);
    let stopped = ReplayStopped { done: vec![Answer::<u8>::Number(3), Answer::NoPlane].into() };
    assert_eq!(format!("{stopped:?}"), "ReplayStopped { done: [Number(3), NoPlane] }");
}

#[test]
fn long_rows_and_high_planes_are_written() {
    let (before, after) = (vec![1_u8; 70_001], vec![2; 70_001]);
    let writes = vec![Some(2); 70_002];
    let answer = format!("RowShown(Some({before:?}))");
    check([70_001, 1, 0, 0, 0, 0], &before, &[(row_mut(0, 0, &writes), answer.as_str())], &after);
    let mut after = before.clone();
    after[70_000] = 7;
    let steps = [(pixel_mut(0, 0, 70_000, 7), "PixelShown(1)"), (pixel(0, 0, 70_000), "PixelShown(7)")];
    check([1, 70_001, 0, 0, 0, 0], &before, &steps, &after);
}
