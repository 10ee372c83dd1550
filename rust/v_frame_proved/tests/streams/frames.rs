//! A frame of a stream after skipped ones, and crops of it.

use crate::SMALL;
use v_frame_proved::chroma::ChromaSubsampling::{Monochrome, Yuv411, Yuv420, Yuv422, Yuv444};
use v_frame_proved::crop::CropError;
use v_frame_proved::frame::{Frame, FrameBuilder};
use v_frame_proved::plane::{Plane, PlaneGeometry};
use v_frame_proved::streams::{Picture, Place, Problem, Rectangle, Source, check_crop, crop_frame};

/// Returns a frame whose pixels are numbered, with nines in the padding.
fn numbered(format: v_frame_proved::chroma::ChromaSubsampling) -> Frame<u8> {
    let builder = FrameBuilder::new(8, 4, format, 8).luma_padding_left(4).luma_padding_top(2);
    let mut frame = builder.build::<u8>().expect("a frame");
    for (plane, first) in frame.planes_mut().zip([0, 100, 200]) {
        plane.data_mut().fill(99);
        plane.pixels_mut().zip(first..).for_each(|(pixel, number)| *pixel = number);
    }
    frame
}

#[test]
fn parts_of_frames_are_the_crops_by_hand() {
    let mut taken = 0;
    for format in [Monochrome, Yuv420, Yuv422, Yuv411, Yuv444] {
        let frame = numbered(format);
        for at in 0..9 * 5 * 10 * 6 {
            let (x, y, width, height) = (at % 9, at / 9 % 5, at / 45 % 10, at / 450);
            let part = Rectangle { x, y, width, height };
            match (crop_frame(&frame, &part), frame.crop(x, y, width, height)) {
                (Ok(made), Ok(crop)) => {
                    assert_eq!(made, crop, "{format:?} {part:?}");
                    taken += 1;
                }
                (Err(problem), Err(error)) => {
                    let is_outside = matches!(problem, Problem::EmptyCrop | Problem::CropOutside);
                    assert!(is_outside || matches!(error, CropError::Misaligned { .. }), "{format:?} {part:?}");
                }
                both => panic!("{format:?} {part:?}: {both:?}"),
            }
        }
    }
    // There are 36 ranges of columns and 10 ranges of rows. The sums count the ranges that begin at every column or row, at
    // every second one, or at every fourth one.
    assert_eq!(taken, 2 * 36 * 10 + 20 * 6 + 20 * 10 + 12 * 10);
}

#[test]
fn parts_are_refused_for_the_first_reason() {
    let part = |x, y, width, height| Rectangle { x, y, width, height };
    let problem = |frame: &Frame<u8>, part| format!("{:?}", crop_frame(frame, &part).unwrap_err());
    let frame = numbered(Yuv411);
    assert_eq!(problem(&frame, part(9, 9, 0, 1)), "EmptyCrop");
    assert_eq!(problem(&frame, part(9, 9, 1, 0)), "EmptyCrop");
    assert_eq!(problem(&frame, part(1, 0, 8, 1)), "CropOutside");
    assert_eq!(problem(&frame, part(1, 3, 1, 2)), "CropOutside");
    assert_eq!(problem(&frame, part(usize::MAX, 0, 2, 1)), "CropOutside");
    assert_eq!(problem(&frame, part(2, 0, 1, 1)), "CropMisaligned { columns: 4, rows: 1 }");
    let mut small_chroma = numbered(Yuv444);
    small_chroma.v_plane = Some(Plane::new(PlaneGeometry::unpadded(2, 2, 1, 1).unwrap()).unwrap());
    assert_eq!(problem(&small_chroma, part(0, 0, 3, 2)), "CropOutside");
    assert!(crop_frame(&small_chroma, &part(0, 0, 2, 2)).is_ok());
    std::mem::swap(&mut small_chroma.u_plane, &mut small_chroma.v_plane);
    assert_eq!(problem(&small_chroma, part(0, 0, 3, 2)), "CropOutside");
    small_chroma.u_plane = None;
    assert!(crop_frame(&small_chroma, &part(0, 0, 3, 2)).expect("a part").u_plane.is_none());
}

#[test]
fn parts_keep_the_bit_depth() {
    let mut frame = FrameBuilder::new(4, 2, Yuv422, 10).build::<u16>().expect("a frame");
    frame.y_plane[1][2] = 1023;
    frame.v_plane.as_mut().expect("chroma")[1][1] = 512;
    let part = crop_frame(&frame, &Rectangle { x: 2, y: 1, width: 2, height: 1 }).expect("a part");
    assert_eq!((part.bit_depth.get(), part.subsampling), (10, Yuv422));
    assert_eq!((&part.y_plane[0], &part.v_plane.expect("chroma")[0]), (&[1023, 0][..], &[512][..]));
}

#[test]
fn parts_of_pictures_are_sought_in_the_header() {
    let source = Source::y4m(Place::Second, b"YUV4MPEG2 W7 H5 F25:1 C420jpeg\n".as_slice()).expect("a header");
    let checked = |x, y, width, height| check_crop(&source, &Rectangle { x, y, width, height });
    assert!(checked(0, 0, 7, 5).is_ok() && checked(6, 4, 1, 1).is_ok());
    let error = checked(2, 4, 2, 2).unwrap_err();
    assert_eq!((error.place, error.frames, error.cause), (Place::Second, 0, None));
    assert_eq!(error.to_string(), "frame 1: the crop is not inside the picture");
    assert!(matches!(checked(0, 0, 0, 5).unwrap_err().problem, Problem::EmptyCrop));
    assert!(matches!(checked(2, 1, 2, 2).unwrap_err().problem, Problem::CropMisaligned { columns: 2, rows: 2 }));
}

/// Skips `before` frames of SMALL and reads one. Returns the result, the bytes of the frame, and the number of frames counted.
fn read_behind(bytes: &[u8], before: u64) -> (Result<bool, String>, Vec<u8>, u64) {
    let mut source = Source::y4m(Place::First, bytes).expect("a header");
    let mut picture = Picture::<u8>::new(&source, 3).expect("memory");
    let read = picture.read_nth(&mut source, before).map_err(|error| error.to_string());
    (read, picture.bytes().to_vec(), source.frames())
}

#[test]
fn frames_are_read_behind_others() {
    assert_eq!(read_behind(SMALL, 0), (Ok(true), b"abcdefg".to_vec(), 1));
    assert_eq!(read_behind(SMALL, 1), (Ok(true), b"hijklmn".to_vec(), 2));
    assert_eq!(read_behind(SMALL, 2), (Ok(true), b"opqrstu".to_vec(), 3));
    for before in [3, 4, u64::MAX] {
        assert_eq!(read_behind(SMALL, before), (Ok(false), vec![0; 7], 3));
    }
    let broken = &SMALL[..SMALL.len() - 1];
    let text = "frame 3: truncated frame, expected 7 bytes, found 6".to_string();
    for before in [2, 3] {
        let (read, _, frames) = read_behind(broken, before);
        assert_eq!((read, frames), (Err(text.clone()), 2));
    }
}
