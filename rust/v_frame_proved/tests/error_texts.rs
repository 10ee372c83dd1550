//! Tests the error messages: each row of the table is the message of a value of its variant. tools/check-error-texts tests that
//! every variant has a row.

#![cfg(feature = "std")]

use std::fmt::{Debug, Display};
use std::io;
use v_frame_proved::bytes::SendError;
use v_frame_proved::frame::FrameError;
use v_frame_proved::planar::PlanarError;
use v_frame_proved::plane::CopyError;
use v_frame_proved::png::PngError;
use v_frame_proved::semi_planar::SemiPlanarError;
use v_frame_proved::turn::TurnError;
use v_frame_proved::y4m::{HeaderError, Text, Y4mError};

const TABLE: &str = include_str!("data/error_texts.txt");

/// Compares the rows of an error with the values, in the order of the table.
fn compare<E: Debug + Display>(name: &str, values: &[E]) {
    let rows: Vec<&str> = TABLE.lines().filter(|row| row.starts_with(&format!("{name}::"))).collect();
    let shown = values.iter().map(|value| {
        let debug = format!("{value:?}");
        let variant = debug.split(|letter: char| !letter.is_alphanumeric()).next().unwrap_or_default();
        format!("{name}::{variant} | {value}")
    });
    assert_eq!(shown.collect::<Vec<_>>(), rows);
}

#[test]
fn errors_of_frames_and_planes() {
    compare(
        "v_frame FrameError",
        &[
            FrameError::UnsupportedBitDepth { found: 7 },
            FrameError::DataTypeMismatch,
            FrameError::UnsupportedResolution,
            FrameError::OutOfMemory,
        ],
    );
    compare(
        "v_frame_plane CopyError",
        &[CopyError::DataLength { expected: 6, found: 5 }, CopyError::InvalidStride { stride: 3, width: 4 }],
    );
    compare(
        "v_frame_turn TurnError",
        &[
            TurnError::UnevenSubsampling,
            TurnError::DifferentSubsampling,
            TurnError::DifferentBitDepth,
            TurnError::DifferentSize { plane: 2 },
        ],
    );
}

#[test]
fn errors_of_raw_video() {
    compare(
        "v_frame_planar PlanarError",
        &[
            PlanarError::Truncated { expected: 6, found: 1 },
            PlanarError::TooLarge,
            PlanarError::Read,
            PlanarError::Write,
            PlanarError::WriteZero,
            PlanarError::OutOfMemory,
        ],
    );
    compare(
        "v_frame_semi_planar SemiPlanarError",
        &[
            SemiPlanarError::BitDepth,
            SemiPlanarError::Subsampling,
            SemiPlanarError::ChromaSize,
            SemiPlanarError::Planar(PlanarError::Read),
        ],
    );
}

#[test]
fn errors_of_streams() {
    let text = |bytes| Text::new(bytes).expect("memory");
    compare(
        "v_frame_y4m HeaderError",
        &[
            HeaderError::NotAStream,
            HeaderError::Missing('W'),
            HeaderError::Duplicate('C'),
            HeaderError::Malformed(text(b"Q")),
            HeaderError::ZeroSize('H'),
            HeaderError::SizeTooLarge(text(b"W18446744073709551616")),
            HeaderError::UnknownColor(text(b"C444alpha")),
            HeaderError::OutOfMemory,
        ],
    );
    compare(
        "v_frame_y4m Y4mError",
        &[
            Y4mError::Header(HeaderError::Missing('W')),
            Y4mError::LineTooLong,
            Y4mError::UnfinishedLine,
            Y4mError::NoFrame,
            Y4mError::Planar(PlanarError::WriteZero),
        ],
    );
}

#[test]
fn errors_of_pictures() {
    compare(
        "v_frame_bytes SendError",
        &[SendError::Write(io::Error::from(io::ErrorKind::StorageFull)), SendError::WriteZero],
    );
    compare(
        "v_frame_png PngError",
        &[
            PngError::Size { width: 0, height: 1 << 31 },
            PngError::BitDepth,
            PngError::RowLength { expected: 12, found: 11 },
            PngError::NoRowLeft,
            PngError::RowsMissing { count: 3 },
            PngError::Closed,
            PngError::Write(io::Error::from(io::ErrorKind::StorageFull)),
            PngError::WriteZero,
            PngError::OutOfMemory,
        ],
    );
}

#[test]
fn memory_that_is_refused_has_its_kind() {
    assert_eq!(io::Error::from(v_frame_proved::AllocError).kind(), io::ErrorKind::OutOfMemory);
}

#[test]
fn a_picture_that_is_not_written_has_its_cause() {
    let error = v_frame_proved::png::PngError::Write(std::io::ErrorKind::StorageFull.into());
    let cause = std::error::Error::source(&error).and_then(|cause| cause.downcast_ref::<std::io::Error>());
    assert_eq!(cause.map(std::io::Error::kind), Some(std::io::ErrorKind::StorageFull));
}
