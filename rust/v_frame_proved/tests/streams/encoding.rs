//! Streams that are written, and frames that do not match the stream.

use super::SMALL;
use super::stepping::{Step, Stepping, cause, patient_steps};
use std::io::{self, ErrorKind};
use v_frame_proved::chroma::ChromaSubsampling::{self, Monochrome, Yuv420, Yuv422};
use v_frame_proved::frame::{Frame, FrameBuilder, FrameError};
use v_frame_proved::y4m::{Color, Decoder, Depth, Encoder, StreamError, StreamHeader, VideoFrame};

/// Returns a blank frame.
fn blank(width: usize, height: usize, format: ChromaSubsampling) -> Frame<u8> {
    FrameBuilder::new(width, height, format, 8).luma_padding_left(8).build().unwrap()
}

/// Returns frames that do not match a 4:2:0 stream of 4 by 2 pixels with 8 bits.
fn other_frames() -> Vec<VideoFrame> {
    let deep = FrameBuilder::new(4, 2, Yuv420, 10).build::<u16>().unwrap();
    let mut wide_pixels = deep.clone();
    wide_pixels.bit_depth = 8.try_into().unwrap();
    let (mut small_chroma, mut no_chroma) = (blank(4, 2, Yuv420), blank(4, 2, Yuv420));
    small_chroma.v_plane = blank(2, 2, Yuv420).v_plane;
    no_chroma.u_plane = None;
    let mut large_luma = blank(4, 2, Yuv420);
    large_luma.y_plane = blank(4, 4, Yuv420).y_plane;
    let mut wrong_depth = blank(4, 2, Yuv420);
    wrong_depth.bit_depth = 10.try_into().unwrap();
    let mut named_otherwise = blank(4, 2, Yuv420);
    named_otherwise.subsampling = Monochrome;
    let eights = [
        blank(6, 2, Yuv420),
        blank(4, 4, Yuv420),
        blank(4, 2, Yuv422),
        blank(4, 2, Monochrome),
        small_chroma,
        no_chroma,
        large_luma,
        wrong_depth,
        named_otherwise,
    ];
    eights.into_iter().map(VideoFrame::from).chain([deep.into(), wide_pixels.into()]).collect()
}

#[test]
fn frames_of_another_kind_are_neither_read_nor_written() {
    let header = StreamHeader::new(4, 2, Color::Yuv420Jpeg);
    let stream = b"YUV4MPEG2 W4 H2 C420jpeg\nFRAME\nabcdefghijkl";
    let mut decoder = Decoder::new(&stream[..]).unwrap();
    let mut encoder = Encoder::new(Vec::new(), header).unwrap();
    for mut frame in other_frames() {
        let before = frame.clone();
        assert!(matches!(decoder.read_into(&mut frame), Err(StreamError::Mismatch)), "{frame:?}");
        assert!(matches!(encoder.write_frame(&frame), Err(StreamError::Mismatch)), "{frame:?}");
        assert_eq!(frame, before);
    }
    let mut padded = VideoFrame::from(blank(4, 2, Yuv420));
    assert!(decoder.read_into(&mut padded).unwrap());
    encoder.write_frame(&padded).unwrap();
    assert_eq!(encoder.finish().unwrap(), stream);
}

#[test]
fn samples_above_8_bits_have_their_low_byte_first() {
    let header = StreamHeader::new(3, 3, Color::Yuv420HighDepth(Depth::Twelve));
    let mut frame = VideoFrame::blank(&header).unwrap();
    let VideoFrame::HighDepth(deep) = &mut frame else { panic!("12 bits are not 8") };
    for (p, plane) in deep.planes_mut().enumerate() {
        for (i, pixel) in plane.pixels_mut().enumerate() {
            *pixel = (0x100 * (p + 1) + i) as u16;
        }
    }
    let mut encoder = Encoder::new(Vec::new(), header).unwrap();
    encoder.write_frame(&frame).unwrap();
    let bytes = encoder.finish().unwrap();
    let mut expected = b"YUV4MPEG2 W3 H3 C420p12\nFRAME\n".to_vec();
    for (high, count) in [(1, 9), (2, 4), (3, 4)] {
        expected.extend((0..count).flat_map(|low| [low, high]));
    }
    assert_eq!(bytes, expected);
    assert_eq!(Decoder::new(&bytes[..]).unwrap().next().unwrap().unwrap(), frame);
}

#[test]
fn headers_that_no_reader_takes_are_not_written() {
    let header = |width, height, extension: &[u8]| {
        let mut header = StreamHeader::new(width, height, Color::Unstated);
        header.extensions = vec![extension.to_vec().into()].into();
        header
    };
    // The line is 17 bytes longer than the extension.
    let (longest, longer) = ([b'x'; 1024 - 17], [b'x'; 1025 - 17]);
    let cases = [
        (header(1, 1, b"a=b"), true),
        (header(1, 1, b""), true),
        (header(1, 1, &longest), true),
        (header(1, 1, &longer), false),
        (header(0, 1, b""), false),
        (header(1, 0, b""), false),
        (header(1, 1, b"a b"), false),
        (header(1, 1, b"a\nFRAME"), false),
    ];
    for (header, writable) in cases {
        let mut output = Vec::new();
        match Encoder::new(&mut output, header.clone()) {
            Ok(encoder) => {
                assert!(writable);
                encoder.finish().unwrap();
                assert_eq!(Decoder::new(&output[..]).unwrap().header(), &header);
            }
            Err(error) => {
                assert!(!writable && matches!(error, StreamError::UnwritableHeader));
                assert_eq!(output, b"");
            }
        }
    }
}

#[test]
fn another_color_drops_what_ffmpeg_says_of_the_old_one() {
    let mut header = Decoder::new(&include_bytes!("../data/420_35x27.y4m")[..]).unwrap().header().clone();
    header.set_color(Color::Yuv444);
    let line = Encoder::new(Vec::new(), header).unwrap().finish().unwrap();
    assert_eq!(line, b"YUV4MPEG2 W35 H27 F25:1 Ip A36:35 C444 XCOLORRANGE=LIMITED\n");
}

#[test]
fn patient_writers_get_all_and_others_the_beginning() {
    let decoder = Decoder::new(SMALL).unwrap();
    let header = decoder.header().clone();
    let frames: Vec<VideoFrame> = decoder.map(|frame| frame.unwrap()).collect();
    let write = |writer: &mut Stepping<Vec<u8>>| {
        let mut encoder = Encoder::new(writer, header.clone())?;
        let written = frames.iter().try_for_each(|frame| encoder.write_frame(frame));
        if written.is_err() {
            assert!(matches!(encoder.write_frame(&frames[0]), Err(StreamError::AfterFailure)));
            assert!(matches!(encoder.finish(), Err(StreamError::AfterFailure)));
            return written;
        }
        encoder.finish().map(|_| ())
    };
    for steps in patient_steps() {
        let mut writer = Stepping::new(Vec::new(), &steps, usize::MAX);
        write(&mut writer).unwrap();
        assert_eq!(writer.inner, SMALL);
        for left in 0..SMALL.len() {
            let mut writer = Stepping::new(Vec::new(), &steps, left);
            let error = write(&mut writer).unwrap_err();
            assert_eq!(cause(&error).unwrap(), "the cable is out");
            assert_eq!(writer.inner, &SMALL[..left]);
        }
    }
    let mut full = Stepping::new(Vec::new(), &[Step::Take(0)], usize::MAX);
    let error = write(&mut full).unwrap_err();
    assert!(matches!(error, StreamError::Io(cause) if cause.kind() == ErrorKind::WriteZero));
    // All bytes are written, and the flush fails.
    let mut writer = Stepping::new(Vec::new(), &[Step::Take(usize::MAX)], SMALL.len());
    assert_eq!(cause(&write(&mut writer).unwrap_err()).unwrap(), "the cable is out");
    assert_eq!(writer.inner, SMALL);
}

#[test]
fn decoders_and_errors_go_between_threads() {
    fn goes<T: Send + Sync + 'static>() {}
    goes::<Decoder<io::Empty>>();
    goes::<Encoder<io::Sink>>();
    goes::<StreamError>();
    goes::<VideoFrame>();
}

#[test]
fn frames_of_bytes_are_none_of_a_deep_stream() {
    let mut bytes = FrameBuilder::new(4, 2, Monochrome, 8).build::<u8>().unwrap();
    bytes.bit_depth = 10.try_into().unwrap();
    let mut frame = VideoFrame::from(bytes);
    let header = StreamHeader::new(4, 2, Color::new(Monochrome, 10, None).unwrap());
    let mut encoder = Encoder::new(Vec::new(), header).unwrap();
    assert!(matches!(encoder.write_frame(&frame), Err(StreamError::Mismatch)));
    let stream = [&encoder.finish().unwrap()[..], b"FRAME\n", &[0; 16]].concat();
    let mut decoder = Decoder::new(&stream[..]).unwrap();
    assert!(matches!(decoder.read_into(&mut frame), Err(StreamError::Mismatch)));
    assert!(decoder.next().unwrap().is_ok());
}

#[test]
fn after_a_failure_no_frame_is_looked_at() {
    let header = StreamHeader::new(4, 2, Color::Yuv420Jpeg);
    // The header line has 25 bytes.
    let writer = Stepping::new(Vec::new(), &[Step::Take(usize::MAX)], 25);
    let mut encoder = Encoder::new(writer, header).unwrap();
    assert!(matches!(encoder.write(&blank(4, 2, Yuv420)), Err(StreamError::Io(_))));
    for frame in other_frames() {
        assert!(matches!(encoder.write_frame(&frame), Err(StreamError::AfterFailure)), "{frame:?}");
    }
}

#[test]
fn blank_frames_have_no_border() {
    let header = |depth| StreamHeader::new(4, 2, Color::new(Yuv422, depth, None).unwrap());
    let eight = FrameBuilder::new(4, 2, Yuv422, 8).build::<u8>().unwrap();
    assert_eq!(VideoFrame::blank(&header(8)), Ok(eight.into()));
    let deep = FrameBuilder::new(4, 2, Yuv422, 12).build::<u16>().unwrap();
    assert_eq!(VideoFrame::blank(&header(12)), Ok(deep.into()));
}

#[test]
fn crops_of_either_pixel_type_are_those_of_their_frames() {
    for file in [&include_bytes!("../data/444_7x5.y4m")[..], include_bytes!("../data/mono10_7x5.y4m")] {
        let whole = Decoder::new(file).unwrap().next().unwrap().unwrap();
        let wanted = match &whole {
            VideoFrame::EightBits(frame) => VideoFrame::from(frame.crop(3, 1, 4, 2).unwrap()),
            VideoFrame::HighDepth(frame) => VideoFrame::from(frame.crop(3, 1, 4, 2).unwrap()),
        };
        assert_eq!(whole.crop(3, 1, 4, 2), Ok(wanted));
    }
}

#[test]
fn another_color_leaves_other_extensions() {
    let mut header = Decoder::new(&b"YUV4MPEG2 W2 H1 C420jpeg XYSCSS=420JPEG XYSCSS XYSCSS=MONO XYSCSSES=1 XYSCSS=\n"[..]).unwrap().header().clone();
    header.set_color(Color::Yuv444);
    let line = Encoder::new(Vec::new(), header).unwrap().finish().unwrap();
    assert_eq!(line, b"YUV4MPEG2 W2 H1 C444 XYSCSS XYSCSSES=1\n");
}

#[test]
fn errors_say_what_happened() {
    let texts = [
        (StreamError::UnwritableHeader, "no line has what the header says"),
        (StreamError::Mismatch, "the frame is not what the header says"),
        (StreamError::Io(ErrorKind::TimedOut.into()), "a read or a write of the stream failed"),
        (StreamError::AfterFailure, "the stream failed before"),
        (FrameError::OutOfMemory.into(), "out of memory"),
        (FrameError::UnsupportedResolution.into(), "frame too large"),
    ];
    for (error, text) in texts {
        assert_eq!(error.to_string(), text, "{error:?}");
    }
}

#[test]
fn streams_that_would_block_are_not_asked_again() {
    let steps = [Step::Take(usize::MAX), Step::Fail(ErrorKind::WouldBlock)];
    let would_block = |error| matches!(error, StreamError::Io(cause) if cause.kind() == ErrorKind::WouldBlock);
    assert!(would_block(Decoder::new(Stepping::new(SMALL, &steps, usize::MAX)).unwrap_err()));
    let header = StreamHeader::new(4, 2, Color::Yuv420Jpeg);
    let mut encoder = Encoder::new(Stepping::new(Vec::new(), &steps, usize::MAX), header).unwrap();
    assert!(would_block(encoder.write(&blank(4, 2, Yuv420)).unwrap_err()));
}
