//! Copies that fail: the frames that were counted, reported and written before.

use std::io::{self, ErrorKind, Write};
use v_frame_proved::formats::VideoFormat;
use v_frame_proved::streams::{Container, CopyOptions, Place, Problem, Progress, Rectangle, Sink, Source, StreamError};
use v_frame_proved::streams::copy_stream;

/// A writer that accepts a number of bytes and then fails.
#[derive(Debug)]
struct Room(usize);

impl Write for Room {
    fn write(&mut self, bytes: &[u8]) -> io::Result<usize> {
        if self.0 == 0 {
            return Err(ErrorKind::StorageFull.into());
        }
        let taken = bytes.len().min(self.0);
        self.0 -= taken;
        Ok(taken)
    }

    fn flush(&mut self) -> io::Result<()> {
        Ok(())
    }
}

/// Keeps the last number that was reported.
struct Told(u64);

impl Progress for Told {
    fn show(&mut self, frames: u64) {
        self.0 = frames;
    }
}

/// Returns the result of a copy to a writer that accepts `room` bytes: its error, the number of frames read and written, the
/// last number reported, and the number of bytes that are still accepted.
fn stopped(line: &str, frames: usize, container: Container, options: &CopyOptions, room: usize) -> (StreamError, [u64; 3], usize) {
    let header = format!("YUV4MPEG2 {line}\n");
    let len = Source::y4m(Place::First, header.as_bytes()).expect("a header").frame_len();
    let frame = [b"FRAME\n".to_vec(), vec![5; len]].concat();
    let input = [header.into_bytes(), frame.repeat(frames)].concat();
    let mut source = Source::y4m(Place::First, input.as_slice()).expect("a header");
    let (mut sink, mut told) = (Sink::new(container, Room(room)), Told(0));
    let error = copy_stream(&mut source, &mut sink, options, &mut told).expect_err("an error");
    (error, [source.frames(), sink.frames, told.0], sink.writer.get_ref().0)
}

#[test]
fn frames_that_were_written_are_counted() {
    let plain = CopyOptions::new();
    let format = |name| CopyOptions { format: VideoFormat::named(name), ..CopyOptions::new() };
    let part = Rectangle { x: 2, y: 0, width: 2, height: 2 };
    let cropped = CopyOptions { crop: Some(part), ..CopyOptions::new() };
    let skipping = CopyOptions { skip: 2, ..CopyOptions::new() };
    // The options, the number of bytes of two frames and a part of the third, and the number of frames read. A frame that is
    // copied unchanged is counted after its last byte, and a frame that is edited after it was read.
    let cases = [(&plain, 2 * 24 + 5, 2), (&format("nv12"), 2 * 24 + 23, 3), (&cropped, 2 * 6 + 1, 3), (&skipping, 2 * 24 + 1, 4)];
    for (options, room, read) in cases {
        let (error, counts, left) = stopped("W8 H2 F25:1 C420jpeg", 9, Container::Raw, options, room);
        assert_eq!((error.place, error.frames, error.cause), (Place::Output, 2, Some(ErrorKind::StorageFull)), "{options:?}");
        assert_eq!((counts, left), ([read, 2, 2], 0), "{options:?}");
    }
}

#[test]
fn frames_of_many_blocks_are_counted_at_their_end() {
    let (error, counts, _) = stopped("W1024 H100 F25:1 Cmono", 3, Container::Raw, &CopyOptions::new(), 2 * 102_400 - 1);
    assert_eq!((error.place, error.frames, counts), (Place::Output, 1, [1, 1, 1]));
}

#[test]
fn nothing_is_written_before_all_tests() {
    let half = |max_pixels| CopyOptions { half: true, max_pixels, ..CopyOptions::new() };
    let (error, counts, left) = stopped("W8 H2 F25:1 C420jpeg", 1, Container::Y4m, &half(15), 99);
    assert!(matches!(error.problem, Problem::TooManyPixels(15)), "{error}");
    assert_eq!((error.place, counts, left), (Place::First, [0, 0, 0], 99));
}
