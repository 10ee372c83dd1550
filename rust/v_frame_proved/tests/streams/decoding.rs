//! Streams that are read.

use super::stepping::{Step, Stepping, cause, patient_steps};
use super::{FIRST_FRAME, SMALL};
use std::io::{self, ErrorKind, Read};
use v_frame_proved::chroma::ChromaSubsampling::{self, Monochrome, Yuv411, Yuv420, Yuv422, Yuv444};
use v_frame_proved::frame::FrameBuilder;
use v_frame_proved::y4m::{Decoder, Encoder, HeaderError, StreamError, VideoFrame, Y4mError};

/// Reads a stream and writes it again.
fn copied(stream: impl Read) -> Result<Vec<u8>, StreamError> {
    let decoder = Decoder::new(stream)?;
    let mut encoder = Encoder::new(Vec::new(), decoder.header().clone())?;
    for frame in decoder {
        encoder.write_frame(&frame?)?;
    }
    encoder.finish()
}

/// Reads a stream and writes it again, with one reused frame.
fn copied_through_one_frame(stream: impl Read) -> Result<Vec<u8>, StreamError> {
    let mut decoder = Decoder::new(stream)?;
    let mut encoder = Encoder::new(Vec::new(), decoder.header().clone())?;
    let mut frame = VideoFrame::blank(decoder.header())?;
    while decoder.read_into(&mut frame)? {
        encoder.write_frame(&frame)?;
    }
    encoder.finish()
}

#[test]
fn files_of_ffmpeg_are_read_and_written_as_the_same_bytes() {
    // The size, the format, the bit depth, the number of frames, and the sum of the first luma plane.
    type File<'a> = (&'a [u8], (usize, usize), ChromaSubsampling, u8, usize, u64);
    let files: [File<'_>; 9] = [
        (include_bytes!("../data/411_35x27.y4m"), (35, 27), Yuv411, 8, 2, 67819),
        (include_bytes!("../data/420_1x1.y4m"), (1, 1), Yuv420, 8, 3, 66),
        (include_bytes!("../data/420_35x27.y4m"), (35, 27), Yuv420, 8, 3, 67819),
        (include_bytes!("../data/420mpeg2_36x28.y4m"), (36, 28), Yuv420, 8, 1, 72373),
        (include_bytes!("../data/422_35x27.y4m"), (35, 27), Yuv422, 8, 2, 67819),
        (include_bytes!("../data/444_7x5.y4m"), (7, 5), Yuv444, 8, 4, 2516),
        (include_bytes!("../data/444p16_3x2.y4m"), (3, 2), Yuv444, 16, 2, 114589),
        (include_bytes!("../data/mono10_7x5.y4m"), (7, 5), Monochrome, 10, 2, 9071),
        (include_bytes!("../data/mono_7x5.y4m"), (7, 5), Monochrome, 8, 2, 2274),
    ];
    for (file, (width, height), format, depth, count, luma) in files {
        let decoder = Decoder::new(file).unwrap();
        assert!(decoder.is_strict());
        assert_eq!(decoder.header().color.subsampling(), format);
        let frames: Vec<VideoFrame> = decoder.map(|frame| frame.unwrap()).collect();
        assert_eq!(frames.len(), count);
        assert_eq!((frames[0].width(), frames[0].height(), frames[0].bit_depth()), (width, height, depth));
        let found: u64 = match &frames[0] {
            VideoFrame::EightBits(frame) => frame.y_plane.pixels().map(u64::from).sum(),
            VideoFrame::HighDepth(frame) => frame.y_plane.pixels().map(u64::from).sum(),
        };
        assert_eq!(found, luma);
        assert_eq!(copied(file).unwrap(), file);
        assert_eq!(copied_through_one_frame(file).unwrap(), file);
        for steps in patient_steps() {
            assert_eq!(copied(Stepping::new(file, &steps, usize::MAX)).unwrap(), file);
        }
    }
}

#[test]
fn files_to_refuse_are_refused() {
    let alpha = Decoder::new(&include_bytes!("../data/444alpha_4x4.y4m")[..]).unwrap_err();
    assert!(matches!(&alpha, StreamError::Format(Y4mError::Header(HeaderError::UnknownColor(_)))));
    assert_eq!(alpha.to_string(), "unknown color `C444alpha`");
    for file in [&include_bytes!("../data/420p10_35x27.y4m")[..], include_bytes!("../data/422p12_5x3.y4m")] {
        let mut decoder = Decoder::new(file).unwrap();
        assert!(decoder.next().unwrap().is_ok());
        let Some(Err(StreamError::Format(fault))) = decoder.next() else { panic!("a line that is none") };
        assert!(matches!(fault, Y4mError::NoFrame | Y4mError::LineTooLong | Y4mError::UnfinishedLine));
        assert!(decoder.next().is_none());
    }
}

#[test]
fn lines_of_lax_writers_are_read_and_parameters_passed_over() {
    let headers = [
        ("YUV4MPEG2 W2 H1 F25:1 Cmono", true),
        ("YUV4MPEG2 W2 H1 F25 Cmono", false),
        ("YUV4MPEG2  W2 H1 F25:1 Cmono ", false),
        ("YUV4MPEG2 W2 H1 F25:1 Cmono\r", false),
    ];
    for (line, is_strict) in headers {
        for frame_line in ["FRAME", "FRAME\r", "FRAME Ip", "FRAME Xa Xb Xc Xd\r"] {
            let stream = format!("{line}\n{frame_line}\nab{frame_line}\ncd");
            let decoder = Decoder::new(stream.as_bytes()).unwrap();
            assert_eq!(decoder.is_strict(), is_strict, "{line:?}");
            let strict = b"YUV4MPEG2 W2 H1 F25:1 Cmono\nFRAME\nabFRAME\ncd";
            assert_eq!(copied(stream.as_bytes()).unwrap(), strict, "{stream:?}");
            assert_eq!(copied(Stepping::new(stream.as_bytes(), &[Step::Take(1)], usize::MAX)).unwrap(), strict);
        }
    }
}

#[test]
fn streams_that_end_early_say_where() {
    for end in 0..SMALL.len() {
        let mut frames = 0;
        let result = Decoder::new(&SMALL[..end]).and_then(|decoder| {
            decoder.inspect(|frame| frames += usize::from(frame.is_ok())).collect::<Result<Vec<_>, _>>()
        });
        let inside = end.saturating_sub(FIRST_FRAME) % 13;
        assert_eq!(frames, end.saturating_sub(FIRST_FRAME) / 13);
        match result {
            Err(StreamError::Empty) => assert_eq!(end, 0),
            Err(StreamError::Format(Y4mError::UnfinishedLine)) => {
                assert!(0 < end && end < FIRST_FRAME || 0 < inside && inside < 6, "{end}");
            }
            Err(StreamError::Truncated { expected, found }) => assert_eq!((7, inside - 6), (expected, found)),
            Ok(_) => assert!(end >= FIRST_FRAME && inside == 0, "{end}"),
            Err(error) => panic!("{end}: {error:?}"),
        }
    }
    let texts = [(0, "the stream is empty"), (4, "the stream ends inside a line")];
    for (end, text) in texts {
        assert_eq!(Decoder::new(&SMALL[..end]).unwrap_err().to_string(), text);
    }
    let cut = copied(&SMALL[..FIRST_FRAME + 6 + 2]).unwrap_err();
    assert_eq!(cut.to_string(), "truncated frame, expected 7 bytes, found 2");
}

#[test]
fn failures_keep_their_cause_and_end_the_stream() {
    for left in 0..SMALL.len() {
        for steps in patient_steps() {
            let reader = Stepping::new(SMALL, &steps, left);
            let mut decoder = match Decoder::new(reader) {
                Ok(decoder) => decoder,
                Err(error) => {
                    assert!(left < FIRST_FRAME);
                    assert_eq!(cause(&error).unwrap(), "the cable is out");
                    continue;
                }
            };
            let mut frame = VideoFrame::blank(decoder.header()).unwrap();
            for _ in 0..(left - FIRST_FRAME) / 13 {
                assert!(decoder.read_into(&mut frame).unwrap());
            }
            let before = frame.clone();
            let error = decoder.read_into(&mut frame).unwrap_err();
            assert!(matches!(&error, StreamError::Io(cause) if cause.kind() == ErrorKind::BrokenPipe));
            assert_eq!(cause(&error).unwrap(), "the cable is out");
            assert_eq!(frame, before);
            assert!(matches!(decoder.read_into(&mut frame), Err(StreamError::AfterFailure)));
            let mut unfit = VideoFrame::from(FrameBuilder::new(9, 9, Monochrome, 8).build::<u8>().unwrap());
            assert!(matches!(decoder.read_into(&mut unfit), Err(StreamError::AfterFailure)));
            assert!(decoder.next().is_none());
        }
    }
}

#[test]
fn lines_that_are_not_due_are_refused() {
    let long = format!("YUV4MPEG2 W2 H1 Cmono\nFRAME {}\nab", "x".repeat(1019));
    let cases = [
        ("YUV4MPEG2 W2 H1 Cmono\nFRAMES\nab", "no FRAME where a frame is due"),
        ("YUV4MPEG2 W2 H1 Cmono\n\nFRAME\nab", "no FRAME where a frame is due"),
        ("YUV4MPEG2 W2 H1 Cmono\nab\nFRAME\nab", "no FRAME where a frame is due"),
        (long.as_str(), "line longer than 1024 bytes"),
        ("YUV4MPEG3 W2 H1\n", "not a YUV4MPEG2 stream"),
        ("\n", "not a YUV4MPEG2 stream"),
        ("YUV4MPEG2 W2\n", "parameter H is missing"),
        ("YUV4MPEG2 W2 H4611686018427387904 Cmono\n", "frame too large"),
        ("YUV4MPEG2 W18446744073709551615 H2 Cmono\n", "frame too large"),
    ];
    for (stream, text) in cases {
        let stream = stream.as_bytes();
        assert_eq!(copied(stream).unwrap_err().to_string(), text);
        assert_eq!(copied(Stepping::new(stream, &[Step::Take(1)], usize::MAX)).unwrap_err().to_string(), text);
    }
}

#[test]
fn a_header_takes_no_room_for_frames_that_do_not_come() {
    // Each frame has a terabyte.
    let stream = &b"YUV4MPEG2 W1048576 H1048576 Cmono\nFRAME\nabc"[..];
    let error = Decoder::new(stream).unwrap().next().unwrap().unwrap_err();
    assert!(matches!(error, StreamError::Truncated { expected: 0x100_0000_0000, found: 3 }));
}

/// A reader that records the address of the buffer for each large read, and a byte of its contents.
struct Noting<'a> {
    stream: &'a [u8],
    notes: Vec<(usize, u8)>,
}

impl Read for &mut Noting<'_> {
    fn read(&mut self, buf: &mut [u8]) -> io::Result<usize> {
        if buf.len() > 1000 {
            self.notes.push((buf.as_ptr() as usize, buf[0]));
        }
        self.stream.read(buf)
    }
}

#[test]
fn all_frames_go_through_one_buffer_that_is_not_cleared() {
    let mut stream = b"YUV4MPEG2 W50 H40 Cmono\n".to_vec();
    for byte in 1..=4 {
        stream.extend_from_slice(b"FRAME\n");
        stream.extend_from_slice(&[byte; 2000]);
    }
    let mut reader = Noting { stream: &stream, notes: Vec::new() };
    assert_eq!(Decoder::new(&mut reader).unwrap().count(), 4);
    let place = reader.notes[0].0;
    assert_eq!(reader.notes, [(place, 0), (place, 1), (place, 2), (place, 3)]);
    // A frame that is larger than the first allocation.
    let mut stream = b"YUV4MPEG2 W2048 H1500 Cmono\nFRAME\n".to_vec();
    stream.extend((0..2048 * 1500).map(|i| (i % 251) as u8));
    assert_eq!(copied(Stepping::new(&stream[..], &[Step::Take(300_000)], usize::MAX)).unwrap(), stream);
}

#[test]
fn nothing_after_a_frame_is_read_with_it() {
    let twice = [SMALL, SMALL].concat();
    let mut decoder = Decoder::new(&twice[..]).unwrap();
    for _ in 0..3 {
        decoder.next().unwrap().unwrap();
    }
    assert_eq!(copied(decoder.into_inner()).unwrap(), SMALL);
}

/// A reader that returns its end once, and more bytes if it is called again, as a terminal does.
struct Resuming<'a> {
    before: &'a [u8],
    after: &'a [u8],
    has_ended: bool,
}

impl Read for Resuming<'_> {
    fn read(&mut self, buf: &mut [u8]) -> io::Result<usize> {
        if self.has_ended {
            return self.after.read(buf);
        }
        let count = self.before.read(buf)?;
        self.has_ended = count == 0;
        Ok(count)
    }
}

#[test]
fn a_stream_that_has_ended_stays_ended() {
    let (before, after) = SMALL.split_at(FIRST_FRAME + 13);
    let mut decoder = Decoder::new(Resuming { before, after, has_ended: false }).unwrap();
    let mut frame = decoder.next().unwrap().unwrap();
    assert!(decoder.next().is_none());
    assert!(decoder.next().is_none());
    assert!(!decoder.read_into(&mut frame).unwrap());
}

/// A reader that records the length of the largest buffer that it was given.
struct Measuring<'a> {
    stream: &'a [u8],
    largest: usize,
}

impl Read for &mut Measuring<'_> {
    fn read(&mut self, buf: &mut [u8]) -> io::Result<usize> {
        self.largest = self.largest.max(buf.len());
        self.stream.read(buf)
    }
}

#[test]
fn the_first_bytes_of_a_frame_take_a_mebibyte_at_most() {
    let mut reader = Measuring { stream: b"YUV4MPEG2 W65536 H65536 Cmono\nFRAME\nabc", largest: 0 };
    assert!(Decoder::new(&mut reader).unwrap().next().unwrap().is_err());
    assert_eq!(reader.largest, 1 << 20);
}
