//! Flips and rotations of planes, rows and frames. The tests compare whole buffers.

mod support;

use support::cases::{self, Case, cases};
use support::for_type;
use support::planes::{count, counted, numbered, values, weighted};
use v_frame_proved::chroma::ChromaSubsampling::{self, Monochrome, Yuv411, Yuv420, Yuv422, Yuv444};
use v_frame_proved::frame::{Frame, FrameBuilder};
use v_frame_proved::pixel::Pixel;
use v_frame_proved::plane::RowsRef;
use v_frame_proved::turn::{
    Turn, TurnError, flip_horizontal_in_place, flip_vertical_in_place, frames, rotate_90, rotate_180_in_place,
    rotate_270, rows, turn_plane,
};

const CASES: &str = include_str!("data/turns.txt");

const TURNS: [Turn; 6] =
    [Turn::FlipVertical, Turn::FlipHorizontal, Turn::Rotate180, Turn::Transpose, Turn::Rotate90, Turn::Rotate270];

/// Returns the operation that a case names.
fn turn(case: &mut Case<'_>) -> Turn {
    let name = case.word();
    TURNS.into_iter().find(|turn| format!("{turn:?}") == name).expect("a turn")
}

fn turns_plane<T: Pixel>(mut case: Case<'_>) {
    let turn = turn(&mut case);
    let (source, mut target) = (counted::<T>(case.layout(), 0), counted::<T>(case.layout(), 100));
    turn_plane(&source.as_plane_ref(), &mut target, turn);
    case.expect(&values(target.data()));
}

#[test]
fn planes_are_turned() {
    cases(CASES, "plane").into_iter().for_each(turns_plane::<u8>);
    cases(CASES, "plane").into_iter().for_each(turns_plane::<u16>);
}

fn turns_large_plane<T: Pixel>(mut case: Case<'_>) {
    let factors: Vec<usize> = cases::values(CASES, "factors");
    let turn = turn(&mut case);
    let source = numbered::<T>(case.layout(), factors[0], 0);
    let mut target = numbered::<T>(case.layout(), factors[1], 0);
    turn_plane(&source.as_plane_ref(), &mut target, turn);
    case.expect(&[weighted(target.data())]);
}

#[test]
fn large_planes_are_turned() {
    cases(CASES, "large").into_iter().for_each(|case| for_type!(turns_large_plane, case));
}

fn turns_plane_in_place<T: Pixel>(mut case: Case<'_>) {
    let turn = turn(&mut case);
    let mut plane = counted::<T>(case.layout(), 0);
    match turn {
        Turn::FlipVertical => flip_vertical_in_place(&mut plane),
        Turn::FlipHorizontal => flip_horizontal_in_place(&mut plane),
        _ => rotate_180_in_place(&mut plane),
    }
    case.expect(&values(plane.data()));
}

#[test]
fn planes_are_turned_in_place() {
    cases(CASES, "in_place").into_iter().for_each(turns_plane_in_place::<u8>);
    cases(CASES, "in_place").into_iter().for_each(turns_plane_in_place::<u16>);
}

#[test]
fn a_quarter_there_and_one_back_is_the_plane() {
    let source = counted::<u16>([5, 3, 1, 2, 1, 0], 0);
    let (mut upright, mut again) = (counted([3, 5, 0, 0, 0, 0], 100), counted([5, 3, 0, 0, 0, 0], 100));
    rotate_90(&source.as_plane_ref(), &mut upright);
    assert_eq!(upright.data(), [25, 17, 9, 26, 18, 10, 27, 19, 11, 28, 20, 12, 29, 21, 13]);
    rotate_270(&source.as_plane_ref(), &mut upright);
    assert_eq!(upright.data(), [13, 21, 29, 12, 20, 28, 11, 19, 27, 10, 18, 26, 9, 17, 25]);
    rotate_90(&upright.as_plane_ref(), &mut again);
    assert_eq!(again.data(), [9, 10, 11, 12, 13, 17, 18, 19, 20, 21, 25, 26, 27, 28, 29]);
}

/// Rotates or flips three by two pixels, which have a stride of four entries and are numbered from 1 on, into a buffer that is
/// numbered from 200 on. The last row may end at its width, and the entries after each row must not change.
fn turns_rows<T: Pixel>(mut case: Case<'_>) {
    let turn = turn(&mut case);
    let (width, height, stride) = (case.number(), case.number(), case.number());
    let mut entries = [T::from(0); 7];
    count(&mut entries, 1);
    let source = RowsRef::new(&entries, 3, 2, 4).expect("rows");
    let mut buffer = vec![T::from(0); case.wanted::<u16>().len()];
    count(&mut buffer, 200);
    let call = match turn {
        Turn::FlipVertical => rows::flip_vertical,
        Turn::FlipHorizontal => rows::flip_horizontal,
        Turn::Rotate180 => rows::rotate_180,
        Turn::Transpose => rows::transpose,
        Turn::Rotate90 => rows::rotate_90,
        Turn::Rotate270 => rows::rotate_270,
    };
    let mut others = buffer.clone();
    call(&source, &mut buffer, width, height, stride);
    rows::turn(source, &mut others, width, height, stride, turn);
    assert!(buffer == others, "{turn:?}");
    case.expect(&values(&buffer));
}

#[test]
fn rows_are_turned() {
    cases(CASES, "rows").into_iter().for_each(turns_rows::<u8>);
    cases(CASES, "rows").into_iter().for_each(turns_rows::<u16>);
}

fn turns_rows_in_place<T: Pixel>(mut case: Case<'_>) {
    let call = match turn(&mut case) {
        Turn::FlipVertical => rows::flip_vertical_in_place,
        Turn::FlipHorizontal => rows::flip_horizontal_in_place,
        _ => rows::rotate_180_in_place,
    };
    let mut entries = [T::from(0); 7];
    count(&mut entries, 1);
    call(&mut entries, case.number(), case.number(), case.number());
    case.expect(&values(&entries));
}

#[test]
fn rows_are_turned_in_place() {
    cases(CASES, "rows_in_place").into_iter().for_each(turns_rows_in_place::<u8>);
    cases(CASES, "rows_in_place").into_iter().for_each(turns_rows_in_place::<u16>);
}

/// Returns a frame whose planes are numbered: luma from 0 on, and chroma from 100 and 200 on.
fn frame<T: Pixel>((width, height): (usize, usize), format: ChromaSubsampling, depth: u8) -> Frame<T> {
    let mut frame = FrameBuilder::new(width, height, format, depth).build::<T>().expect("a frame");
    for (index, first) in [0, 100, 200].into_iter().enumerate() {
        if let Some(plane) = frame.plane_mut(index) {
            count(plane.data_mut(), first);
        }
    }
    frame
}

/// Returns the entries of the planes of a frame, one plane after the other.
fn entries<T: Pixel>(frame: &Frame<T>) -> Vec<u16> {
    (0..3).filter_map(|index| frame.plane(index)).flat_map(|plane| values(plane.data())).collect()
}

fn turns_frame<T: Pixel>(mut case: Case<'_>, depth: u8) {
    let turn = turn(&mut case);
    let size = (case.number(), case.number());
    let source = frame::<T>((4, 2), Yuv420, depth);
    let mut target = frame(size, Yuv420, depth);
    assert_eq!(frames::turn_frame(&source, &mut target, turn), Ok(()), "{case}");
    case.expect(&entries(&target));
}

#[test]
fn frames_are_turned() {
    cases(CASES, "frame").into_iter().for_each(|case| turns_frame::<u8>(case, 8));
    cases(CASES, "frame").into_iter().for_each(|case| turns_frame::<u16>(case, 10));
}

#[test]
fn frames_are_turned_in_place() {
    let mut frame = frame::<u16>((4, 2), Yuv422, 12);
    frames::flip_horizontal_in_place(&mut frame);
    assert_eq!(entries(&frame), [3, 2, 1, 0, 7, 6, 5, 4, 101, 100, 103, 102, 201, 200, 203, 202]);
    frames::flip_vertical_in_place(&mut frame);
    assert_eq!(entries(&frame), [7, 6, 5, 4, 3, 2, 1, 0, 103, 102, 101, 100, 203, 202, 201, 200]);
    frames::rotate_180_in_place(&mut frame);
    assert_eq!(entries(&frame), [0, 1, 2, 3, 4, 5, 6, 7, 100, 101, 102, 103, 200, 201, 202, 203]);
}

/// A format, a size and a bit depth.
type Kind = (ChromaSubsampling, (usize, usize), u8);

/// Two frames, an operation from the first to the second, and its result.
const ANSWERS: [(Kind, Kind, Turn, Result<(), TurnError>); 15] = [
    ((Yuv422, (4, 4), 10), (Yuv422, (4, 4), 10), Turn::Rotate90, Err(TurnError::UnevenSubsampling)),
    ((Yuv411, (4, 4), 10), (Yuv444, (4, 4), 10), Turn::Transpose, Err(TurnError::UnevenSubsampling)),
    ((Yuv422, (4, 2), 10), (Yuv422, (4, 2), 10), Turn::Rotate180, Ok(())),
    ((Yuv444, (4, 2), 10), (Yuv444, (2, 4), 10), Turn::Rotate270, Ok(())),
    ((Monochrome, (4, 3), 16), (Monochrome, (3, 4), 16), Turn::Transpose, Ok(())),
    ((Yuv444, (4, 4), 10), (Yuv422, (4, 4), 10), Turn::Rotate90, Err(TurnError::DifferentSubsampling)),
    ((Yuv444, (4, 4), 10), (Yuv444, (4, 4), 12), Turn::Rotate90, Err(TurnError::DifferentBitDepth)),
    ((Yuv444, (4, 2), 10), (Yuv444, (4, 2), 10), Turn::Rotate90, Err(TurnError::DifferentSize { plane: 0 })),
    ((Yuv444, (4, 2), 10), (Yuv444, (2, 4), 10), Turn::FlipVertical, Err(TurnError::DifferentSize { plane: 0 })),
    // If several errors apply, the first one is reported: the source's chroma, the format, the bit depth, the size.
    ((Yuv422, (4, 4), 10), (Yuv444, (8, 4), 12), Turn::Rotate90, Err(TurnError::UnevenSubsampling)),
    ((Yuv411, (4, 4), 10), (Yuv411, (4, 4), 12), Turn::Rotate270, Err(TurnError::UnevenSubsampling)),
    ((Yuv422, (4, 4), 10), (Yuv422, (8, 4), 10), Turn::Transpose, Err(TurnError::UnevenSubsampling)),
    ((Yuv420, (4, 4), 10), (Yuv444, (4, 4), 12), Turn::Rotate90, Err(TurnError::DifferentSubsampling)),
    ((Yuv420, (4, 4), 10), (Monochrome, (8, 4), 10), Turn::FlipVertical, Err(TurnError::DifferentSubsampling)),
    ((Yuv420, (4, 4), 10), (Yuv420, (8, 4), 12), Turn::Rotate180, Err(TurnError::DifferentBitDepth)),
];

/// Replaces the chroma planes of a frame by those of another one, if the flags `u` and `v` are set.
fn with_chroma_of(mut frame: Frame<u8>, other: &Frame<u8>, u: bool, v: bool) -> Frame<u8> {
    if u {
        frame.u_plane = other.u_plane.clone();
    }
    if v {
        frame.v_plane = other.v_plane.clone();
    }
    frame
}

#[test]
fn the_first_plane_that_does_not_fit_is_told() {
    let source = frame::<u8>((4, 2), Yuv420, 8);
    let (small, wide, high) =
        (frame::<u8>((4, 2), Yuv420, 8), frame::<u8>((8, 2), Yuv420, 8), frame::<u8>((2, 4), Yuv420, 8));
    let gray = frame::<u8>((4, 2), Monochrome, 8);
    let told = |target: &Frame<u8>, turn| frames::check_turn(&source, target, turn);
    let of_plane = |plane| Err(TurnError::DifferentSize { plane });
    for turn in [Turn::FlipVertical, Turn::FlipHorizontal, Turn::Rotate180] {
        for other in [&wide, &gray] {
            assert_eq!(told(&with_chroma_of(small.clone(), other, true, true), turn), of_plane(1));
            assert_eq!(told(&with_chroma_of(small.clone(), other, true, false), turn), of_plane(1));
            assert_eq!(told(&with_chroma_of(small.clone(), other, false, true), turn), of_plane(2));
            assert_eq!(told(&with_chroma_of(wide.clone(), other, false, true), turn), of_plane(0));
        }
        assert_eq!(told(&small, turn), Ok(()));
    }
    assert_eq!(told(&with_chroma_of(high.clone(), &wide, true, true), Turn::Rotate90), of_plane(1));
    assert_eq!(told(&with_chroma_of(high.clone(), &wide, false, true), Turn::Rotate90), of_plane(2));
    assert_eq!(told(&with_chroma_of(high, &small, true, true), Turn::Rotate90), of_plane(1));
}

#[test]
fn frames_that_are_refused_stay_as_they_are() {
    for (from, to, turn, wanted) in ANSWERS {
        let source = frame::<u16>(from.1, from.0, from.2);
        let mut target = frame::<u16>(to.1, to.0, to.2);
        let before = target.clone();
        assert_eq!(frames::turn_frame(&source, &mut target, turn), wanted, "{turn:?} of {from:?} into {to:?}");
        assert!(wanted.is_ok() || target == before, "{turn:?} of {from:?} into {to:?}");
    }
}
