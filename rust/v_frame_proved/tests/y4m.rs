//! YUV4MPEG2 streams: header lines, their rejections, and streams that are copied or truncated.

#![cfg(feature = "std")]

mod support;

use std::io::{ErrorKind, Read};
use support::planes::sample;
use support::streams::reader;
use v_frame_proved::frame::Frame;
use v_frame_proved::pixel::Pixel;
use v_frame_proved::planar::{self, Counted, PlanarError};
use v_frame_proved::y4m::{
    HeaderError, StreamHeader, Text, Y4mError, header_line, parse_header, parse_lax_header, read_frame, read_header,
    read_lax_header, strict_line, write_frame, write_header,
};

/// Lines that ffmpeg wrote, and lines with large numbers, with many extensions, and with a letter without a value.
const LINES: [&str; 12] = [
    "YUV4MPEG2 W35 H27 F25:1 Ip A36:35 C420jpeg XYSCSS=420JPEG XCOLORRANGE=LIMITED",
    "YUV4MPEG2 W36 H28 F30000:1001 Ip A10:11 C420mpeg2 XYSCSS=420MPEG2 XCOLORRANGE=LIMITED",
    "YUV4MPEG2 W35 H27 F24000:1001 Ip A36:35 C420p10 XYSCSS=420P10 XCOLORRANGE=LIMITED",
    "YUV4MPEG2 W35 H27 F25:1 Ip A36:35 C411 XYSCSS=411 XCOLORRANGE=LIMITED",
    "YUV4MPEG2 W35 H12 F50:1 Ip A8:9 C444p16 XYSCSS=444P16 XCOLORRANGE=LIMITED",
    "YUV4MPEG2 W37 H15 F25:1 Ip A20:21 Cmono10 XCOLORRANGE=FULL",
    "YUV4MPEG2 W18446744073709551615 H18446744073709551615",
    "YUV4MPEG2 W35 H27 F4294967295:4294967296 A4294967297:1",
    "YUV4MPEG2 W35 H27 F0:0 I? A0:0 Cmono",
    "YUV4MPEG2 W35 H27 X X X",
    "YUV4MPEG2 W18446744073709551615 H18446744073709551615 F18446744073709551615:18446744073709551615 Im \
     A18446744073709551615:18446744073709551615 C444p16 X1 X22 X333 X X5 X66 X777 X X9 XCOLORRANGE=FULL",
    "YUV4MPEG2 W35 H27 X1 X2 X3 X4 X5 X6 X7 X8 X9 X10 X11 X12 X13 X14 X15 X16 X17 X18 X19 X20",
];

/// Tests that a header line is read up to its line feed, and that it is written again as the same bytes.
#[track_caller]
fn comes_back(line: &[u8]) {
    let stream = [line, b"\nFRAME\nabc"].concat();
    let mut input = Counted::new(stream.as_slice());
    let header = read_header(&mut input).expect("a header");
    assert_eq!(input.into_inner(), b"FRAME\nabc");
    assert!(header.is_writable());
    assert_eq!(header_line(&header).expect("memory"), line);
    let mut out = Counted::new(Vec::new());
    assert_eq!(write_header(&mut out, &header), Ok(()));
    assert_eq!(out.into_inner(), [line, b"\n"].concat());
}

/// Returns a header line of this length, which is reached with an extension.
fn line_of(length: usize) -> Vec<u8> {
    let mut line = b"YUV4MPEG2 W35 H27 X".to_vec();
    line.resize(length, b'x');
    line
}

#[test]
fn headers_come_back() {
    for line in LINES {
        comes_back(line.as_bytes());
    }
    for length in [20, 64, 65, 99, 100, 101, 128, 255, 256, 257, 1023, 1024] {
        comes_back(&line_of(length));
    }
}

#[test]
fn parameters_are_written_in_order() {
    let header = parse_header(b"YUV4MPEG2 X1 C422 H12 Xb Im W35").expect("a header");
    assert_eq!(header_line(&header).expect("memory"), b"YUV4MPEG2 W35 H12 Im C422 X1 Xb");
}

/// Returns a part of a line.
fn piece(bytes: &[u8]) -> Text {
    Text::new(bytes).expect("memory")
}

#[test]
fn lines_are_refused_for_the_first_reason() {
    for (line, error) in [
        ("YUV4MPEG", HeaderError::NotAStream),
        ("", HeaderError::NotAStream),
        ("YUV4MPEG2", HeaderError::Missing('W')),
        ("YUV4MPEG2 W35", HeaderError::Missing('H')),
        ("YUV4MPEG2 W35 H12 W35", HeaderError::Duplicate('W')),
        ("YUV4MPEG2 W35 H12 H12", HeaderError::Duplicate('H')),
        ("YUV4MPEG2 W35  H12", HeaderError::Malformed(piece(b""))),
        ("YUV4MPEG2 W35 Z", HeaderError::Malformed(piece(b"Z"))),
        ("YUV4MPEG2 W35 H12 Q1", HeaderError::Malformed(piece(b"Q1"))),
        ("YUV4MPEG2 W03 H12", HeaderError::Malformed(piece(b"W03"))),
        ("YUV4MPEG2 W00 H12", HeaderError::Malformed(piece(b"W00"))),
        ("YUV4MPEG2 W35 H12 F00:1", HeaderError::Malformed(piece(b"F00:1"))),
        ("YUV4MPEG2 W35 H12 A0:00", HeaderError::Malformed(piece(b"A0:00"))),
        ("YUV4MPEG2 W35 H12 F25", HeaderError::Malformed(piece(b"F25"))),
        ("YUV4MPEG2 W35 H12 Ix", HeaderError::Malformed(piece(b"Ix"))),
        ("YUV4MPEG2 Ix A1 F25 W35 H12", HeaderError::Malformed(piece(b"F25"))),
        ("YUV4MPEG2 W35 H12 C4 Ix A1", HeaderError::Malformed(piece(b"A1"))),
        ("YUV4MPEG2 W35 H12 C4 Ix", HeaderError::Malformed(piece(b"Ix"))),
        ("YUV4MPEG2 H0 W35 C4 F25", HeaderError::ZeroSize('H')),
        ("YUV4MPEG2 H0 W0 C4", HeaderError::ZeroSize('W')),
        ("YUV4MPEG2 W35 H0", HeaderError::ZeroSize('H')),
        ("YUV4MPEG2 W18446744073709551616 H12", HeaderError::SizeTooLarge(piece(b"W18446744073709551616"))),
        ("YUV4MPEG2 W35 H1 C4", HeaderError::UnknownColor(piece(b"C4"))),
        ("YUV4MPEG2 W36 H14 C444alpha", HeaderError::UnknownColor(piece(b"C444alpha"))),
    ] {
        assert_eq!(parse_header(line.as_bytes()).as_ref().err(), Some(&error), "{line}");
        refuses(format!("{line}\nFRAME\nabc").as_bytes(), Y4mError::Header(error), (line.len() + 1, 0));
    }
}

/// Tests that the header of a stream is rejected for this reason, and that this number of bytes is read, one for each call,
/// followed by this number of calls at the end.
#[track_caller]
fn refuses(stream: &[u8], error: Y4mError, (bytes, calls_at_end): (usize, usize)) {
    let mut input = Counted::new(reader(stream, usize::MAX));
    assert_eq!(read_header(&mut input).err(), Some(error));
    let input = input.into_inner();
    assert_eq!((input.left.len(), input.reads), (stream.len() - bytes, bytes + calls_at_end));
    assert_eq!(input.empty_reads, 0);
}

#[test]
fn lines_that_are_too_long_or_unfinished_are_refused() {
    refuses(&line_of(1030), Y4mError::LineTooLong, (1025, 0));
    refuses(b"", Y4mError::UnfinishedLine, (0, 1));
    refuses(b"YUV4MPEG2 W", Y4mError::UnfinishedLine, (11, 1));
}

#[test]
fn errors_say_why() {
    for (error, text) in [
        (HeaderError::NotAStream, "not a YUV4MPEG2 stream"),
        (HeaderError::Missing('W'), "parameter W is missing"),
        (HeaderError::Missing('H'), "parameter H is missing"),
        (HeaderError::Duplicate('C'), "parameter C is repeated"),
        (HeaderError::Duplicate('W'), "parameter W is repeated"),
        (HeaderError::ZeroSize('W'), "parameter W is 0"),
        (HeaderError::ZeroSize('H'), "parameter H is 0"),
        (HeaderError::OutOfMemory, "out of memory"),
        (HeaderError::Malformed(piece(b"")), "malformed parameter ``"),
        (HeaderError::Malformed(piece(b"Q \x00~\x7f\xff1")), "malformed parameter `Q??~??1`"),
        (HeaderError::SizeTooLarge(piece(b"W18446744073709551616")), "size too large `W18446744073709551616`"),
        (HeaderError::UnknownColor(piece(b"C444alpha")), "unknown color `C444alpha`"),
    ] {
        assert_eq!(error.to_string(), text);
        assert_eq!(Y4mError::Header(error).to_string(), text);
    }
    for (error, text) in [
        (Y4mError::LineTooLong, "line longer than 1024 bytes"),
        (Y4mError::UnfinishedLine, "the stream ends inside a line"),
        (Y4mError::NoFrame, "no FRAME where a frame is due"),
        (truncated(2), "truncated frame, expected 60 bytes, found 2"),
        (Y4mError::Planar(PlanarError::TooLarge), "frame too large"),
        (Y4mError::Planar(PlanarError::Read), "read failed"),
        (Y4mError::Planar(PlanarError::Write), "write failed"),
        (Y4mError::Planar(PlanarError::WriteZero), "write took nothing"),
        (Y4mError::Planar(PlanarError::OutOfMemory), "out of memory"),
    ] {
        assert_eq!(error.to_string(), text);
    }
    let malformed = Y4mError::Header(HeaderError::Malformed(piece(b"Z")));
    assert_eq!(format!("{malformed:?}"), "Header(Malformed(Text { bytes: [90] }))");
}

/// The error of a frame of 60 bytes of which only `found` are present.
fn truncated(found: usize) -> Y4mError {
    Y4mError::Planar(PlanarError::Truncated { expected: 60, found })
}

/// A stream of two frames of 30 by 1 pixels.
const STREAM: &[u8] = b"YUV4MPEG2 W30 H1 C420jpeg\nFRAME\n\
abcdefghijklmnopqrstuvwxyz0123ABCDEFGHIJKLMNOPQRSTUVWXYZ4567FRAME Ip\n\
7654ZYXWVUTSRQPONMLKJIHGFEDCBA3210zyxwvutsrqponmlkjihgfedcba";

/// Reads the header of a stream, and returns a frame for it.
fn frame_of<R: Read>(input: &mut Counted<R>) -> Frame<u8> {
    read_header(input).expect("a header").frame(0).expect("memory")
}

#[test]
fn a_stream_is_copied() {
    let (mut input, mut out) = (Counted::new(STREAM), Counted::new(Vec::new()));
    let header = read_header(&mut input).expect("a header");
    assert_eq!(write_header(&mut out, &header), Ok(()));
    let mut frame: Frame<u8> = header.frame(0).expect("memory");
    for is_there in [true, true, false] {
        assert_eq!(read_frame(&mut input, &mut frame), Ok(is_there));
        assert!(!is_there || write_frame(&mut out, &frame) == Ok(()));
    }
    let wanted = b"YUV4MPEG2 W30 H1 C420jpeg\nFRAME\n\
abcdefghijklmnopqrstuvwxyz0123ABCDEFGHIJKLMNOPQRSTUVWXYZ4567FRAME\n\
7654ZYXWVUTSRQPONMLKJIHGFEDCBA3210zyxwvutsrqponmlkjihgfedcba";
    assert_eq!(out.into_inner(), wanted);
}

#[test]
fn streams_that_are_cut_off_say_where() {
    for (length, wanted) in
        [(92, Ok(false)), (94, Err(Y4mError::UnfinishedLine)), (101, Err(truncated(0))), (103, Err(truncated(2)))]
    {
        let mut input = Counted::new(&STREAM[..length]);
        let mut frame = frame_of(&mut input);
        assert_eq!(read_frame(&mut input, &mut frame), Ok(true));
        assert_eq!(read_frame(&mut input, &mut frame), wanted, "{length} bytes");
    }
}

#[test]
fn streams_come_byte_by_byte() {
    let mut input = Counted::new(reader(STREAM, 1).fails_after_calls(100, ErrorKind::BrokenPipe));
    let mut frame = frame_of(&mut input);
    assert_eq!(read_frame(&mut input, &mut frame), Ok(true));
    assert_eq!(frame.y_plane.row(0), Some(&b"abcdefghijklmnopqrstuvwxyz0123"[..]));
    assert_eq!(read_frame(&mut input, &mut frame), Err(Y4mError::Planar(PlanarError::Read)));
    assert_eq!(input.last_failure(), Some(ErrorKind::BrokenPipe));
}

/// Returns a frame for a header with padding of 5 and a picture in each plane, and its bytes.
fn painted<T: Pixel>(header: &StreamHeader) -> (Frame<T>, Vec<u8>) {
    let mut frame = header.frame::<T>(5).expect("memory");
    let mut bytes = Vec::new();
    for index in 0..3 {
        let plane = frame.plane_mut(index).expect("a plane");
        for (y, row) in plane.rows_mut().enumerate() {
            row.iter_mut().enumerate().for_each(|(x, pixel)| *pixel = sample(index, x, y));
            bytes.extend(row.iter().flat_map(|&pixel| pixel.into().to_le_bytes().into_iter().take(size_of::<T>())));
        }
    }
    (frame, bytes)
}

/// Tests that a stream of one frame is written as the right bytes and can be read again, with its lines and as planar bytes.
fn goes_through<T: Pixel>(line: &str) {
    let header = parse_header(line.as_bytes()).expect("a header");
    let (frame, bytes) = painted::<T>(&header);
    let mut out = Counted::new(Vec::new());
    assert_eq!(write_header(&mut out, &header), Ok(()));
    assert_eq!(write_frame(&mut out, &frame), Ok(()));
    let written = out.into_inner();
    assert!(written == [format!("{line}\nFRAME\n").as_bytes(), &bytes].concat());
    let mut input = Counted::new(written.as_slice());
    assert_eq!(read_header(&mut input).as_ref(), Ok(&header));
    let mut other = header.frame::<T>(5).expect("memory");
    assert_eq!(read_frame(&mut input, &mut other), Ok(true));
    assert!(input.get_ref().is_empty() && other == frame);
    let mut out = Counted::new(Vec::new());
    assert_eq!(planar::write_frame(&mut out, &frame), Ok(()));
    assert!(out.into_inner() == bytes);
    let mut other = header.frame::<T>(5).expect("memory");
    assert_eq!(planar::read_frame(&mut Counted::new(bytes.as_slice()), &mut other), Ok(true));
    assert!(other == frame);
}

#[test]
fn large_frames_are_written_and_read_back() {
    goes_through::<u8>("YUV4MPEG2 W1920 H1080 C420jpeg");
    goes_through::<u16>("YUV4MPEG2 W1920 H1080 C420p16");
}

#[test]
fn frames_have_as_many_bytes_as_can_be_counted() {
    for (line, wanted) in [
        ("YUV4MPEG2 W35 H27 C420jpeg", Some(1449)),
        ("YUV4MPEG2 W35 H27 C444p10", Some(5670)),
        ("YUV4MPEG2 W18446744073709551615 H1 Cmono", Some(usize::MAX)),
        ("YUV4MPEG2 W6148914691236517205 H1 C444", Some(usize::MAX)),
        ("YUV4MPEG2 W6148914691236517206 H1 C444", None),
        ("YUV4MPEG2 W4294967296 H2147483648 C444", None),
        ("YUV4MPEG2 W4294967296 H2147483648 C444p16", None),
        ("YUV4MPEG2 W4294967296 H4294967296 Cmono", None),
    ] {
        assert_eq!(parse_header(line.as_bytes()).expect("a header").frame_len(), wanted, "{line}");
    }
}

/// Lax lines, and the strict line that each means.
#[test]
fn lax_lines_stand_for_strict_ones() {
    for (lax, strict) in [
        ("YUV4MPEG2 W35 H27 F25", "YUV4MPEG2 W35 H27 F25:1"),
        // The lax line has as many additional spaces as it lacks bytes, so both lines have the same length.
        ("YUV4MPEG2  W35 H27  F25", "YUV4MPEG2 W35 H27 F25:1"),
        (" YUV4MPEG2 H27 W35 F30000:1001 \r", "YUV4MPEG2 H27 W35 F30000:1001"),
        ("YUV4MPEG2 W35 H27 X F1 X ", "YUV4MPEG2 W35 H27 X F1:1 X"),
        ("YUV4MPEG2 W35 H27 XF1 X\r\r", "YUV4MPEG2 W35 H27 XF1 X\r"),
        ("YUV4MPEG2 W35 H27 F0:0 A0:0", "YUV4MPEG2 W35 H27 F0:0 A0:0"),
    ] {
        assert_eq!(strict_line(lax.as_bytes()).expect("memory"), strict.as_bytes(), "{lax:?}");
        let (header, is_strict) = parse_lax_header(lax.as_bytes()).expect("a header");
        assert_eq!((Ok(header), is_strict), (parse_header(strict.as_bytes()), lax == strict), "{lax:?}");
    }
    let long = [&line_of(1023)[..], b"\r\nFRAME"].concat();
    let mut input = Counted::new(long.as_slice());
    assert_eq!(read_lax_header(&mut input), Ok((parse_header(&line_of(1023)).expect("a header"), false)));
    assert_eq!(input.into_inner(), b"FRAME");
    let longer = [&line_of(1024)[..], b"\r\n"].concat();
    assert_eq!(read_lax_header(&mut Counted::new(longer.as_slice())), Err(Y4mError::LineTooLong));
}
