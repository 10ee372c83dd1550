//! Streams that count their failures and keep the cause of the last one: the number of calls, and the bytes that are written.

#![cfg(feature = "std")]

mod support;

use std::io::{self, ErrorKind, Read, Write};
use support::planes::{bordered, sample};
use support::streams::{Then, reader, writer};
use v_frame_proved::chroma::ChromaSubsampling::{Monochrome, Yuv420};
use v_frame_proved::frame::{Frame, FrameBuilder};
use v_frame_proved::pixel::Pixel;
use v_frame_proved::planar::{Counted, PlanarError, WriteFault, planar_len, read_frame, video_frame, write_frame};
use v_frame_proved::y4m::{self, Y4mError};

#[test]
fn a_write_is_one_call_and_no_flush() {
    let mut out = Counted::new(writer(2).after_calls(2, Then::Fails(ErrorKind::Interrupted)));
    for (bytes, taken, writes, empty_writes, failures) in
        [(&[1, 2, 3][..], Some(2), 1, 0, 0), (&[], Some(0), 2, 1, 0), (&[3], None, 3, 1, 1)]
    {
        assert_eq!(out.write(bytes).ok(), taken);
        assert_eq!((out.get_ref().counts(), out.failures()), ([writes, empty_writes, 0], failures));
        assert_eq!(out.get_ref().taken, [1, 2]);
    }
    assert_eq!(out.write_all(&[]), Ok(()));
    assert_eq!((out.get_ref().counts(), out.failures()), ([3, 1, 0], 1));
}

#[test]
fn writing_all_calls_until_all_is_taken_or_a_call_fails() {
    // The number of bytes that a call accepts, the number of calls that succeed, the result, the number of calls, the number of
    // failures, and the number of bytes accepted.
    for (most, takes, answer, calls, failures, taken) in [
        (2, 64, Ok(()), 3, 0, 5),
        (9, 64, Ok(()), 1, 0, 5),
        (2, 0, Err(WriteFault::Failed), 1, 1, 0),
        (2, 2, Err(WriteFault::Failed), 3, 1, 4),
        (0, 64, Err(WriteFault::TookNothing), 1, 0, 0),
    ] {
        let mut out = Counted::new(writer(most).after_calls(takes, Then::Fails(ErrorKind::Interrupted)));
        assert_eq!(out.write_all(&[1, 2, 3, 4, 5]), answer, "{takes} calls of {most}");
        assert_eq!((out.get_ref().counts(), out.failures()), ([calls, 0, 0], failures));
        assert_eq!(out.get_ref().taken, [1, 2, 3, 4, 5][..taken]);
    }
}

#[test]
fn a_read_is_one_call() {
    let mut input = Counted::new(reader(&[1, 2, 3, 4], 3).fails_after_calls(2, ErrorKind::Interrupted));
    let mut buf = [0; 4];
    assert_eq!((input.read(&mut buf).ok(), input.get_ref().reads), (Some(3), 1));
    assert_eq!((input.read(&mut []).ok(), input.get_ref().reads), (Some(0), 2));
    assert_eq!((input.read(&mut buf).ok(), input.get_ref().reads), (None, 3));
    assert_eq!((buf, input.failures(), input.get_ref().left), ([1, 2, 3, 0], 1, &[4][..]));
}

/// A stream whose calls all fail with one cause.
struct Broken(ErrorKind);

impl Read for Broken {
    fn read(&mut self, _: &mut [u8]) -> io::Result<usize> {
        Err(self.0.into())
    }
}

impl Write for Broken {
    fn write(&mut self, _: &[u8]) -> io::Result<usize> {
        Err(self.0.into())
    }

    fn flush(&mut self) -> io::Result<()> {
        Err(self.0.into())
    }
}

/// Returns the cause of the last failure, and the number of failures.
fn failures<S>(stream: &Counted<S>) -> (Option<ErrorKind>, u64) {
    (stream.last_failure(), stream.failures())
}

#[test]
fn the_cause_of_each_failure_is_kept() {
    for cause in [ErrorKind::BrokenPipe, ErrorKind::StorageFull, ErrorKind::Interrupted, ErrorKind::Other] {
        let mut stream = Counted::new(Broken(cause));
        assert_eq!(failures(&stream), (None, 0));
        assert!(stream.read(&mut [0; 2]).is_err());
        assert_eq!(failures(&stream), (Some(cause), 1));
        assert!(stream.write(&[1, 2]).is_err() && stream.flush().is_err());
        assert_eq!(failures(&stream), (Some(cause), 3));
        let mut frame = video_frame::<u8>(3, 3, Yuv420, 8, 0).expect("a frame");
        let mut stream = Counted::new(Broken(cause));
        assert_eq!(read_frame(&mut stream, &mut frame), Err(PlanarError::Read));
        assert_eq!(write_frame(&mut stream, &frame), Err(PlanarError::Write));
        assert_eq!(failures(&stream), (Some(cause), 2));
    }
}

#[test]
fn what_fails_nothing_has_no_cause() {
    let mut frame = video_frame::<u8>(3, 3, Yuv420, 8, 0).expect("a frame");
    let mut input = Counted::new([1, 2, 3, 4, 5].as_slice());
    let truncated = PlanarError::Truncated { expected: 17, found: 5 };
    assert_eq!(read_frame(&mut input, &mut frame), Err(truncated));
    assert_eq!(input.last_failure(), None);
}

#[test]
fn a_picture_is_read_written_and_sent_on_its_way_by_a_flush() {
    let mut picture = video_frame::<u8>(3, 2, Yuv420, 8, 0).expect("a frame");
    let bytes = [1, 2, 3, 4, 5, 6, 7, 8, 9, 10, 11, 12];
    assert_eq!(read_frame(&mut Counted::new(bytes.as_slice()), &mut picture), Ok(true));
    assert_eq!(picture.y_plane.row(1), Some(&[4, 5, 6][..]));
    assert_eq!(picture.v_plane.as_ref().and_then(|plane| plane.row(0)), Some(&[9, 10][..]));
    let mut out = Counted::new(io::BufWriter::new(writer(usize::MAX)));
    assert_eq!(write_frame(&mut out, &picture), Ok(()));
    assert_eq!(out.get_ref().get_ref().taken, []);
    assert!(out.flush().is_ok());
    assert_eq!((&out.get_ref().get_ref().taken[..], failures(&out)), (&bytes[..10], (None, 0)));
}

/// A writer whose writes fail, and whose flushes fail after the second one.
#[derive(Default)]
struct Flushing(usize);

impl Write for Flushing {
    fn write(&mut self, _: &[u8]) -> io::Result<usize> {
        Err(ErrorKind::BrokenPipe.into())
    }

    fn flush(&mut self) -> io::Result<()> {
        self.0 += 1;
        if self.0 > 2 { Err(ErrorKind::StorageFull.into()) } else { Ok(()) }
    }
}

#[test]
fn a_flush_is_one_call_and_its_failure_is_counted() {
    let mut out = Counted::new(Flushing::default());
    assert_eq!((out.flush().is_ok(), out.get_ref().0, failures(&out)), (true, 1, (None, 0)));
    assert!(out.write(&[1]).is_err());
    assert_eq!((out.flush().is_ok(), out.get_ref().0, failures(&out)), (true, 2, (Some(ErrorKind::BrokenPipe), 1)));
    assert_eq!((out.flush().is_ok(), out.get_ref().0, failures(&out)), (false, 3, (Some(ErrorKind::StorageFull), 2)));
    assert!(out.write(&[1]).is_err());
    assert_eq!(failures(&out), (Some(ErrorKind::BrokenPipe), 3));
}

/// Tests that writers of this behavior receive the whole frame, without a flush or an empty write.
fn check_slow<T: Pixel>(frame: &Frame<T>, bytes: &[u8], most: &[usize]) {
    for &most in most {
        let mut out = Counted::new(writer(most));
        assert_eq!(write_frame(&mut out, frame), Ok(()), "{most} bytes a call");
        let [writes, empty_writes, flushes] = out.get_ref().counts();
        assert_eq!((empty_writes, flushes, out.failures()), (0, 0, 0), "{most} bytes a call");
        assert!(writes >= bytes.len() / most && out.get_ref().taken == bytes, "{most} bytes a call");
    }
}

/// Returns a row of numbered pixels, and its bytes.
fn long_row<T: Pixel>(width: usize) -> (Frame<T>, Vec<u8>) {
    let mut frame = FrameBuilder::new(width, 1, Monochrome, 8 * size_of::<T>() as u8).build::<T>().expect("a frame");
    frame.y_plane = bordered([width, 1, 1, 2, 0, 0]);
    let values: Vec<T> = (0..width).map(|x| sample(0, x, 0)).collect();
    frame.y_plane.copy_from_slice(&values).expect("so many pixels");
    let bytes = values.iter().flat_map(|&value| value.into().to_le_bytes().into_iter().take(size_of::<T>()));
    (frame, bytes.collect())
}

fn check_long_rows<T: Pixel>(widths: &[usize]) {
    for &width in widths {
        let (frame, bytes) = long_row::<T>(width);
        assert_eq!((planar_len(&frame), bytes.len()), (bytes.len(), width * size_of::<T>()));
        check_slow(&frame, &bytes, &[4096]);
    }
}

#[test]
fn rows_are_taken_in_parts() {
    let mut frame = FrameBuilder::new(2, 3, Monochrome, 8).build::<u8>().expect("a frame");
    frame.y_plane.copy_from_slice(&[1, 2, 3, 4, 5, 6]).expect("six pixels");
    check_slow(&frame, &[1, 2, 3, 4, 5, 6], &[1, 4, 6]);
    check_long_rows::<u8>(&[8_193, 65_537, 69_632, 69_633, 140_000]);
    check_long_rows::<u16>(&[32_769, 65_537, 80_000]);
}

#[test]
fn a_long_text_goes_out_whole() {
    let text: Vec<u8> = (0..1_200_007).map(|place| (place % 251) as u8).collect();
    for most in [1, 4099, usize::MAX] {
        let mut out = Counted::new(writer(most));
        assert_eq!(out.write_all(&text), Ok(()));
        assert_eq!((out.get_ref().taken == text, out.get_ref().writes), (true, text.len().div_ceil(most)));
    }
    // A slice accepts the frame if it is long enough.
    for (room, answer) in [(1_200_007, Ok(())), (1_200_008, Ok(())), (1_200_006, Err(WriteFault::TookNothing))] {
        let mut target = vec![0; room];
        let mut out = Counted::new(target.as_mut_slice());
        assert_eq!((out.write_all(&text), out.failures()), (answer, 0));
        let taken = room - out.into_inner().len();
        assert_eq!((taken, target[..taken] == text[..taken]), (room.min(text.len()), true));
    }
}

/// Writes a picture, with or without the line in front of it.
fn write<W: Write>(out: &mut Counted<W>, picture: &Frame<u8>, has_line: bool) -> Result<(), Y4mError> {
    if has_line { y4m::write_frame(out, picture) } else { write_frame(out, picture).map_err(Y4mError::Planar) }
}

/// Returns a picture of 1101 by 1001 luma pixels and two chroma planes of 551 by 501 pixels, and its bytes, with or without the
/// line in front of it.
fn large_picture(has_line: bool) -> (Frame<u8>, Vec<u8>) {
    let mut picture = video_frame::<u8>(1101, 1001, Yuv420, 8, 3).expect("a frame");
    let mut bytes = if has_line { b"FRAME\n".to_vec() } else { Vec::new() };
    for (index, number) in [251, 241, 239].into_iter().enumerate() {
        let plane = picture.plane_mut(index).expect("a plane");
        plane.pixels_mut().zip(0_usize..).for_each(|(pixel, place)| *pixel = (place % number) as u8);
        bytes.extend(plane.pixels());
    }
    (picture, bytes)
}

#[test]
fn a_large_picture_goes_out_whole() {
    for has_line in [false, true] {
        let (picture, bytes) = large_picture(has_line);
        assert_eq!(bytes.len(), 1_654_203 + if has_line { 6 } else { 0 });
        for most in [1, usize::MAX] {
            let mut out = Counted::new(writer(most));
            assert_eq!(write(&mut out, &picture, has_line), Ok(()));
            assert!(out.get_ref().taken == bytes);
            assert!(most > 1 || out.get_ref().writes == bytes.len());
        }
        for (less, answer) in [(0, Ok(())), (1, Err(Y4mError::Planar(PlanarError::WriteZero)))] {
            let mut target = vec![0; bytes.len() - less];
            let mut out = Counted::new(target.as_mut_slice());
            assert_eq!(write(&mut out, &picture, has_line), answer);
            assert_eq!((out.failures(), out.into_inner().len()), (0, 0));
            assert!(target == bytes[..bytes.len() - less]);
        }
    }
}

/// A reader that returns the byte 7, 1000 times for each call, and is interrupted once.
struct InterruptedOnce {
    calls: usize,
    at: usize,
}

impl Read for InterruptedOnce {
    fn read(&mut self, buf: &mut [u8]) -> io::Result<usize> {
        self.calls += 1;
        if self.calls == self.at {
            return Err(ErrorKind::Interrupted.into());
        }
        let count = buf.len().min(1000);
        buf[..count].fill(7);
        Ok(count)
    }
}

#[test]
fn a_read_that_is_interrupted_anywhere_is_not_tried_again() {
    let blank: Frame<u8> = video_frame(100, 100, Monochrome, 8, 0).expect("a frame");
    for at in 1..=10 {
        let mut frame = blank.clone();
        let mut input = Counted::new(InterruptedOnce { calls: 0, at });
        assert_eq!(read_frame(&mut input, &mut frame), Err(PlanarError::Read), "call {at}");
        assert_eq!((input.failures(), input.last_failure()), (1, Some(ErrorKind::Interrupted)));
        assert_eq!((input.get_ref().calls, &frame), (at, &blank));
        assert_eq!(read_frame(&mut input, &mut frame), Ok(true));
        assert_eq!((input.failures(), input.get_ref().calls), (1, at + 10));
        assert!(frame.y_plane.pixels().all(|pixel| pixel == 7));
    }
}
