//! Decoders and encoders over readers and writers that fail, or that report more bytes than the slice has.

#![cfg(feature = "std")]

use std::error::Error;
use std::io::{self, ErrorKind, Read, Write};
use v_frame_proved::y4m::{Color, Decoder, Encoder, StreamError, StreamHeader, VideoFrame};

/// A stream of two frames of 4 bytes. The header line has 22 bytes, and a frame 10 bytes with its line.
const STREAM: &[u8] = b"YUV4MPEG2 W2 H2 Cmono\nFRAME\nabcdFRAME\nefgh";

/// A reader or a writer of at most `sound` bytes. A later call reads or writes whole slices and reports one byte more.
struct Boaster {
    bytes: Vec<u8>,
    sound: usize,
    flush: io::Result<()>,
}

impl Boaster {
    fn new(bytes: &[u8], sound: usize) -> Self {
        Boaster { bytes: bytes.to_vec(), sound, flush: Ok(()) }
    }

    /// Returns the count that is reported for `count` bytes.
    fn reported(&mut self, count: usize) -> usize {
        if count <= self.sound {
            self.sound -= count;
            count
        } else {
            self.sound = 0;
            count + 1
        }
    }
}

impl Read for Boaster {
    fn read(&mut self, buf: &mut [u8]) -> io::Result<usize> {
        let count = (&self.bytes[..]).read(buf)?;
        self.bytes.drain(..count);
        Ok(self.reported(count))
    }
}

impl Write for Boaster {
    fn write(&mut self, buf: &[u8]) -> io::Result<usize> {
        self.bytes.extend(buf);
        Ok(self.reported(buf.len()))
    }

    fn flush(&mut self) -> io::Result<()> {
        std::mem::replace(&mut self.flush, Ok(()))
    }
}

/// Tests that an error has the kind `InvalidData` and says how many bytes were reported for how many.
#[track_caller]
fn is_of_count<A>(result: Result<A, StreamError>, reported: usize, offered: usize) {
    let Err(StreamError::Io(error)) = result else { panic!("no error of a reader or a writer") };
    assert_eq!(error.kind(), ErrorKind::InvalidData);
    assert_eq!(error.to_string(), format!("{reported} bytes were reported for a slice of {offered} bytes"));
}

fn header() -> StreamHeader {
    StreamHeader::new(2, 2, Color::Mono)
}

#[test]
fn a_reader_that_reports_too_many_bytes_is_an_error() {
    for sound in 0..22 {
        is_of_count(Decoder::new(Boaster::new(STREAM, sound)), 2, 1);
    }
    for (sound, offered) in [(22, 6), (27, 6), (28, 4), (31, 4)] {
        let mut decoder = Decoder::new(Boaster::new(STREAM, sound)).expect("a header");
        let mut frame = VideoFrame::blank(&header()).expect("memory");
        is_of_count(decoder.read_into(&mut frame), offered + 1, offered);
        assert_eq!(frame, VideoFrame::blank(&header()).expect("memory"));
        assert!(matches!(decoder.read_into(&mut frame), Err(StreamError::AfterFailure)));
    }
    let mut decoder = Decoder::new(Boaster::new(STREAM, 32)).expect("a header");
    assert!(decoder.next().expect("a frame").is_ok());
    is_of_count(decoder.next().expect("an error"), 7, 6);
    assert!(decoder.next().is_none());
    assert_eq!(Decoder::new(Boaster::new(STREAM, STREAM.len())).expect("a header").filter_map(Result::ok).count(), 2);
}

#[test]
fn a_writer_that_reports_too_many_bytes_is_an_error() {
    is_of_count(Encoder::new(Boaster::new(b"", 21), header()), 23, 22);
    for sound in 22..32 {
        let mut encoder = Encoder::new(Boaster::new(b"", sound), header()).expect("the line is written");
        let failed = encoder.write_frame(&VideoFrame::blank(&header()).expect("memory"));
        assert!(matches!(&failed, Err(StreamError::Io(error)) if error.kind() == ErrorKind::InvalidData));
        assert_eq!(encoder.into_inner().bytes[..22], STREAM[..22]);
    }
}

#[test]
fn a_failed_write_leaves_the_writer() -> Result<(), Box<dyn Error>> {
    let frame = VideoFrame::blank(&header())?;
    for length in 22..32 {
        let mut place = vec![1; length];
        let mut encoder = Encoder::new(&mut place[..], header())?;
        assert!(matches!(encoder.write_frame(&frame), Err(StreamError::Io(_))));
        assert!(matches!(encoder.write_frame(&frame), Err(StreamError::AfterFailure)));
        assert!(matches!(encoder.flush(), Err(StreamError::AfterFailure)));
        assert!(encoder.into_inner().is_empty());
        assert_eq!(place, b"YUV4MPEG2 W2 H2 Cmono\nFRAME\n\0\0\0\0"[..length]);
    }
    Ok(())
}

#[test]
fn a_failed_flush_leaves_the_writer() -> Result<(), Box<dyn Error>> {
    let mut writer = Boaster::new(b"", usize::MAX);
    writer.flush = Err(ErrorKind::TimedOut.into());
    let mut encoder = Encoder::new(writer, header())?;
    let failed = encoder.flush();
    assert!(matches!(failed, Err(StreamError::Io(error)) if error.kind() == ErrorKind::TimedOut));
    encoder.write_frame(&VideoFrame::blank(&header())?)?;
    encoder.flush()?;
    assert_eq!(encoder.into_inner().bytes, b"YUV4MPEG2 W2 H2 Cmono\nFRAME\n\0\0\0\0");
    Ok(())
}

#[test]
fn a_borrowed_stream_outlives_what_could_not_begin() {
    let mut reader = &b"no stream\nrest"[..];
    assert!(Decoder::new(&mut reader).is_err());
    assert_eq!(reader, b"rest");
    let mut place = [0; 10];
    let mut writer = &mut place[..];
    assert!(Encoder::new(&mut writer, header()).is_err());
    assert!(writer.is_empty());
    assert_eq!(&place, b"YUV4MPEG2 ");
}
