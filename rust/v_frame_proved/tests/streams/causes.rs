//! Streams that are opened, frames that fit a picture, and the cause in an error, which must come from the same call and not
//! from an earlier one.

use crate::stepping::{Step, Stepping};
use crate::{FIRST_FRAME, SMALL};
use std::io::ErrorKind;
use v_frame_proved::plane::Plane;
use v_frame_proved::planar::{PlanarError, video_frame};
use v_frame_proved::chroma::ChromaSubsampling::{self, Monochrome, Yuv420, Yuv422};
use v_frame_proved::semi_planar::SemiPlanarFormat;
use v_frame_proved::streams::{Picture, Place, Problem, Source, StreamError};
use v_frame_proved::y4m::{Color, StreamHeader, Y4mError};

/// Returns a stream with this header line.
fn source(line: &str) -> Source<&[u8]> {
    Source::y4m(Place::First, line.as_bytes()).expect("a header")
}

#[test]
fn an_earlier_failure_is_not_the_cause() {
    // A read fails inside the first frame. The bytes after it are not a valid line.
    let steps = [Step::Take(FIRST_FRAME + 9), Step::Fail(ErrorKind::TimedOut), Step::Take(usize::MAX)];
    let reader = Stepping::new(SMALL, &steps, usize::MAX);
    let mut source = Source::y4m(Place::First, reader).expect("a header");
    let mut picture = Picture::<u8>::new(&source, 3).expect("memory");
    let failed = picture.read(&mut source).unwrap_err();
    assert!(matches!(failed.problem, Problem::Stream(Y4mError::Planar(PlanarError::Read))));
    assert_eq!(failed.cause, Some(ErrorKind::TimedOut));
    let next = picture.read(&mut source).unwrap_err();
    assert!(matches!(next.problem, Problem::Stream(Y4mError::NoFrame)));
    assert_eq!((next.cause, next.frames), (None, 0));
    assert!(!next.to_string().contains("timed out"), "{next}");
}

#[test]
fn frames_of_as_many_bytes_are_told_apart() {
    let lines = [
        "YUV4MPEG2 W4 H3 F25:1 Cmono\n",
        "YUV4MPEG2 W3 H4 F25:1 Cmono\n",
        "YUV4MPEG2 W6 H1 F25:1 C422\n",
        "YUV4MPEG2 W4 H2 F25:1 C420jpeg\n",
        "YUV4MPEG2 W2 H2 F25:1 C444\n",
        "YUV4MPEG2 W6 H1 F25:1 Cmono16\n",
    ];
    for (at, line) in lines.into_iter().enumerate().take(5) {
        let picture = Picture::<u8>::new(&source(line), 100).expect("a picture");
        assert_eq!(picture.bytes().len(), 12, "{line}");
        for (other, stream) in lines.into_iter().enumerate() {
            assert_eq!(picture.is_made_for(&source(stream)), at == other, "{line} {stream}");
        }
    }
    let picture = Picture::<u16>::new(&source(lines[5]), 100).expect("a picture");
    for (line, is_taken) in [(lines[5], true), ("YUV4MPEG2 W6 H1 F25:1 Cmono12\n", false), (lines[0], false)] {
        assert_eq!(picture.is_made_for(&source(line)), is_taken, "{line}");
    }
}

#[test]
fn planes_put_in_the_place_of_others_are_told_apart() {
    let line = "YUV4MPEG2 W4 H2 F25:1 C420jpeg\n";
    let plane = |width, height| -> Option<Plane<u8>> {
        Some(video_frame::<u8>(width, height, Monochrome, 8, 0).expect("a frame").y_plane)
    };
    let with = |subsampling: ChromaSubsampling, u, v| {
        let mut picture = Picture::<u8>::new(&source(line), 8).expect("a picture");
        picture.frame.subsampling = subsampling;
        (picture.frame.u_plane, picture.frame.v_plane) = (u, v);
        picture.is_made_for(&source(line))
    };
    assert!(with(Yuv420, plane(2, 1), plane(2, 1)));
    assert!(!with(Yuv422, plane(2, 1), plane(2, 1)));
    assert!(!with(Yuv420, plane(1, 2), plane(2, 1)));
    assert!(!with(Yuv420, plane(2, 1), plane(1, 2)));
    assert!(!with(Yuv420, plane(4, 1), None));
    assert!(!with(Yuv420, None, plane(4, 1)));
}

#[test]
fn streams_and_pictures_that_cannot_be_are_refused() {
    let raw = |width, height, layout| {
        let header = StreamHeader::new(width, height, Color::Mono);
        Source::raw(Place::Second, header, layout, &[][..]).map(|_| ()).unwrap_err()
    };
    for (width, height) in [(0, 2), (2, 0), (usize::MAX, 2)] {
        assert_eq!(raw(width, height, None), StreamError::at_start(Place::Second, Problem::TooLarge));
    }
    assert_eq!(raw(2, 2, Some(SemiPlanarFormat::Nv12)), StreamError::at_start(Place::Second, Problem::OtherLayout));
    let eight = source("YUV4MPEG2 W4 H2 F25:1 Cmono\n");
    let of_words = Picture::<u16>::new(&eight, 8).map(|_| ()).unwrap_err();
    assert_eq!(of_words, StreamError::at_start(Place::First, Problem::TooLarge));
    let limited = Picture::<u8>::new(&eight, 7).map(|_| ()).unwrap_err();
    assert_eq!(limited, StreamError::at_start(Place::First, Problem::TooManyPixels(7)));
}
