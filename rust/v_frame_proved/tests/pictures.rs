//! PNG files. The expected files were made with Python's `struct`, `zlib.crc32` and `zlib.adler32`. Python's `zlib`
//! decompressed the compressed ones.

#![cfg(feature = "std")]

mod support;

use std::io::ErrorKind;
use support::planes::{entry, plane_of, weighted};
use support::streams::{Then, Writer, writer};
use v_frame_proved::plane::RowsRef;
use v_frame_proved::png::{
    ColorSpace, Compression, Crc32Digest, Header, PngError, PngWriter, Samples, crc32, write_png, write_png_with,
};
use v_frame_proved::rgb::{ColorRange, Rgb, RgbMatrix, Standard, rows::yuv444_to_rgb};

const BT2020_PQ: ColorSpace = ColorSpace::Cicp { primaries: 9, transfer: 16, full_range: true };

/// Returns pseudorandom bytes.
fn noise(count: usize) -> Vec<u8> {
    (0..count).map(|i| entry(i, 7919, 256)).collect()
}

fn header(width: u32, height: u32, samples: Samples, color_space: ColorSpace) -> Header {
    Header { width, height, samples, color_space }
}

#[test]
fn checksums_of_bytes_and_of_parts() {
    assert_eq!(crc32(&[]), 0);
    assert_eq!(crc32(b"123456789"), 0xCBF4_3926);
    let bytes = noise(1000);
    assert_eq!(crc32(&bytes), 0x23C0_DA92);
    let mut digest = Crc32Digest::new();
    bytes.chunks(37).for_each(|part| digest.update(part));
    assert_eq!(digest.value(), 0x23C0_DA92);
}

/// Returns the file of these bytes. Writing row by row and all at once give the same file.
fn file_of(picture: Header, compression: Compression, bytes: &[u8]) -> Vec<u8> {
    let size = picture.row_size();
    let mut png = PngWriter::with_compression(Vec::new(), picture, compression).expect("begun");
    bytes.chunks(size).for_each(|row| png.write_row(row).expect("a row"));
    png.finish().expect("finished");
    assert_eq!((png.header(), png.compression(), png.rows_left()), (picture, compression, 0));
    let file = png.into_inner();
    let rows = RowsRef::new(bytes, size, picture.height as usize, size).expect("rows");
    assert_eq!(write_png_with(Vec::new(), picture, compression, &rows).expect("written"), file);
    file
}

/// The file of 2 by 2 gray pixels: 7 and 0 in the first row, and 255 and 128 in the second.
const FOUR: [u8; 84] = [
    137, 80, 78, 71, 13, 10, 26, 10, 0, 0, 0, 13, 73, 72, 68, 82, 0, 0, 0, 2, 0, 0, 0, 2, 8, 0, 0, 0, 0, 87, 221, 82,
    248, 0, 0, 0, 27, 73, 68, 65, 84, 120, 1, 0, 3, 0, 252, 255, 0, 7, 0, 0, 3, 0, 252, 255, 0, 255, 128, 1, 0, 0, 255,
    255, 2, 167, 1, 135, 125, 218, 21, 217, 0, 0, 0, 0, 73, 69, 78, 68, 174, 66, 96, 130,
];

/// The compressed file of 20 by 2 black pixels. Each row is a zero followed by a match of twenty bytes.
const BLACK: [u8; 86] = [
    137, 80, 78, 71, 13, 10, 26, 10, 0, 0, 0, 13, 73, 72, 68, 82, 0, 0, 0, 20, 0, 0, 0, 2, 8, 0, 0, 0, 0, 125, 109,
    163, 87, 0, 0, 0, 29, 73, 68, 65, 84, 120, 1, 98, 192, 6, 0, 0, 0, 0, 255, 255, 98, 192, 6, 0, 0, 0, 0, 255, 255,
    1, 0, 0, 255, 255, 0, 42, 0, 1, 117, 175, 174, 41, 0, 0, 0, 0, 73, 69, 78, 68, 174, 66, 96, 130,
];

#[test]
fn small_files_are_these_bytes() {
    let gray = header(2, 2, Samples::Gray8, ColorSpace::Unnamed);
    assert_eq!(file_of(gray, Compression::Stored, &[7, 0, 255, 128]), FOUR);
    let black = header(20, 2, Samples::Gray8, ColorSpace::Unnamed);
    assert_eq!(file_of(black, Compression::Fixed, &[0; 40]), BLACK);
}

/// The compressed file of 3 by 2 gray pixels. For the second row, the filters Up and Sub give equal sums, which are less than
/// the sum of the row itself. The first of the two filters is used.
const TIE: [u8; 88] = [
    137, 80, 78, 71, 13, 10, 26, 10, 0, 0, 0, 13, 73, 72, 68, 82, 0, 0, 0, 3, 0, 0, 0, 2, 8, 0, 0, 0, 0, 184, 31, 57,
    198, 0, 0, 0, 31, 73, 68, 65, 84, 120, 1, 98, 228, 226, 226, 6, 0, 0, 0, 255, 255, 98, 100, 96, 148, 5, 0, 0, 0,
    255, 255, 1, 0, 0, 255, 255, 0, 236, 0, 64, 35, 75, 138, 131, 0, 0, 0, 0, 73, 69, 78, 68, 174, 66, 96, 130,
];

#[test]
fn of_filters_that_leave_as_little_the_first_is_taken() {
    let gray = header(3, 2, Samples::Gray8, ColorSpace::Unnamed);
    assert_eq!(file_of(gray, Compression::Fixed, &[10, 20, 31, 0, 1, 30]), TIE);
}

/// With white rows, the checksum reaches the largest values between two reductions.
#[test]
fn checksums_of_white_rows() {
    let picture = header(5652, 3, Samples::Gray8, ColorSpace::Unnamed);
    let file = file_of(picture, Compression::Stored, &[255; 3 * 5652]);
    assert_eq!(file[file.len() - 20..][..4], [213, 13, 253, 148]);
}

/// Pictures of noise, with the length of each file and the sum of its bytes, each multiplied by its position from 1 on.
const FILES: [(u32, u32, Samples, ColorSpace, Compression, usize, u64); 17] = {
    use ColorSpace::{Srgb, Unnamed};
    use Compression::{Fixed, Stored};
    use Samples::{Gray8, Gray16, Rgb8, Rgb16};
    [
        (5, 3, Gray8, Unnamed, Stored, 101, 430_299),
        (5, 3, Gray16, Srgb, Stored, 145, 960_975),
        (5, 3, Rgb8, BT2020_PQ, Stored, 147, 1_063_567),
        (5, 3, Rgb16, Srgb, Stored, 205, 2_220_914),
        (1, 1, Gray8, Unnamed, Stored, 75, 166_941),
        (32_767, 1, Gray8, Unnamed, Stored, 32_841, 68_703_272_440),
        (32_768, 2, Gray8, Unnamed, Stored, 65_638, 274_492_240_909),
        (20_000, 3, Rgb16, BT2020_PQ, Stored, 360_243, 8_269_348_972_750),
        (640, 97, Rgb8, Unnamed, Stored, 186_914, 2_223_912_208_972),
        (3, 9_000, Gray8, Srgb, Stored, 81_109, 326_156_616_492),
        (5, 3, Gray8, Unnamed, Fixed, 106, 567_489),
        (5, 3, Gray16, Unnamed, Fixed, 113, 674_352),
        (5, 3, Rgb8, Unnamed, Fixed, 110, 508_399),
        (5, 3, Rgb16, Unnamed, Fixed, 184, 2_097_888),
        (32_767, 1, Gray8, Unnamed, Fixed, 577, 15_111_644),
        (20_000, 3, Rgb16, Unnamed, Fixed, 9_196, 4_440_587_436),
        (300, 200, Gray8, Unnamed, Fixed, 4_205, 966_265_021),
    ]
};

#[test]
fn files_of_each_layout_and_of_long_and_many_rows() {
    for (width, height, samples, color_space, compression, length, sum) in FILES {
        let picture = header(width, height, samples, color_space);
        let file = file_of(picture, compression, &noise(picture.row_size() * height as usize));
        assert_eq!((file.len(), weighted(&file)), (length, sum), "{picture:?}, {compression:?}");
    }
}

#[test]
fn rows_below_a_row_that_they_equal_are_short() {
    let row: Vec<u8> = (0..64_u8).flat_map(|x| [x.wrapping_mul(4); 3]).collect();
    let file = file_of(header(64, 64, Samples::Rgb8, ColorSpace::Unnamed), Compression::Fixed, &row.repeat(64));
    assert_eq!((file.len(), weighted(&file)), (711, 24_251_930));
}

#[test]
fn planes_with_borders_are_written() {
    let layout = [2, 2, 1, 1, 1, 0];
    let plane = plane_of::<u8>(layout, &[9, 9, 9, 9, 9, 7, 0, 9, 9, 255, 128, 9]);
    let picture = header(2, 2, Samples::Gray8, ColorSpace::Unnamed);
    let mut png = PngWriter::new(Vec::new(), picture).expect("begun");
    png.write_plane(&plane.as_plane_ref()).expect("the plane");
    png.finish().expect("finished");
    assert_eq!(png.into_inner(), FOUR);
    let deep = plane_of::<u16>(layout, &[9, 9, 9, 9, 9, 258, 65_535, 9, 9, 3, 32_768, 9]);
    let picture = header(2, 2, Samples::Gray16, ColorSpace::Unnamed);
    let mut png = PngWriter::new(Vec::new(), picture).expect("begun");
    png.write_plane_u16(&deep.as_plane_ref()).expect("the plane");
    png.finish().expect("finished");
    assert_eq!(png.into_inner(), file_of(picture, Compression::Stored, &[1, 2, 255, 255, 0, 3, 128, 0]));
}

#[test]
fn luma_without_chroma_is_written_as_gray() {
    let (luma, chroma) = ([7, 0, 255, 128], [128; 4]);
    let [y, u, v] = [&luma, &chroma, &chroma].map(|samples| RowsRef::new(samples, 2, 2, 2).expect("rows"));
    let mut bytes = [0; 12];
    let matrix = RgbMatrix::new(Standard::Bt709, ColorRange::Full);
    yuv444_to_rgb::<Rgb>(&y, &u, &v, &mut bytes, 6, 2, 6, matrix);
    assert_eq!(bytes, [7, 7, 7, 0, 0, 0, 255, 255, 255, 128, 128, 128]);
    let picture = header(2, 2, Samples::Rgb8, ColorSpace::Srgb);
    let rows = RowsRef::new(&bytes, 6, 2, 6).expect("rows");
    let file = write_png(Vec::new(), picture, &rows).expect("written");
    assert_eq!(file, file_of(picture, Compression::Stored, &bytes));
}

/// Tests that an error is that of a writer with this behavior, and keeps its cause.
#[track_caller]
fn must_be_of(error: &PngError, then: Then) {
    match (error, then) {
        (PngError::Write(cause), Then::Fails(kind)) => assert_eq!(cause.kind(), kind),
        (PngError::WriteZero, Then::TakesNone) => {}
        _ => panic!("{error:?} where a writer {then:?}"),
    }
}

/// Tests that writing rows to a writer with this behavior fails with its error, after all bytes that it accepts, and that the
/// picture is closed.
fn stops(out: Writer, then: Then, compression: Compression, rows: &RowsRef<'_, u8>, taken: &[u8]) {
    let picture = header(5, 3, Samples::Rgb8, ColorSpace::Srgb);
    let mut png = PngWriter::with_compression(out, picture, compression).expect("begun");
    let error = png.write_rows(rows).and_then(|_| png.finish()).expect_err("a failure");
    must_be_of(&error, then);
    assert_eq!(png.get_ref().taken, taken);
    assert!(matches!(png.finish(), Err(PngError::Closed)));
    assert!(matches!(png.write_row(&[0; 15]), Err(PngError::Closed)));
}

#[test]
fn each_write_fails_in_turn() {
    let picture = header(5, 3, Samples::Rgb8, ColorSpace::Srgb);
    let bytes = noise(45);
    let rows = RowsRef::new(&bytes, 15, 3, 15).expect("rows");
    for compression in [Compression::Stored, Compression::Fixed] {
        let file = file_of(picture, compression, &bytes);
        for count in 0..file.len() {
            for then in [Then::Fails(ErrorKind::StorageFull), Then::TakesNone] {
                stops(writer(5).after_bytes(count, then), then, compression, &rows, &file[..count]);
            }
        }
    }
}

#[test]
fn an_early_failure_closes() {
    let bytes = noise(40_000);
    let then = Then::Fails(ErrorKind::StorageFull);
    let picture = header(40_000, 4, Samples::Gray8, ColorSpace::Unnamed);
    let mut png = PngWriter::new(writer(5).after_bytes(100, then), picture).expect("begun");
    png.write_row(&bytes).expect("a row that waits");
    must_be_of(&png.write_row(&bytes).expect_err("a failure"), then);
    assert_eq!(png.get_ref().taken.len(), 100);
    assert!(matches!(png.write_row(&bytes), Err(PngError::Closed)));
    assert_eq!(png.get_ref().taken.len(), 100);
}

#[test]
fn sizes_that_no_file_has_are_refused() {
    for (width, height) in [(0, 1), (1, 0), (0x8000_0000, 1), (1, 0x8000_0000)] {
        let picture = header(width, height, Samples::Gray8, ColorSpace::Unnamed);
        assert!(!picture.is_size());
        let error = PngWriter::new(Vec::new(), picture).expect_err("a refusal");
        assert_eq!(error.to_string(), format!("no PNG of {width} by {height} pixels"));
    }
    let largest = header(0x7FFF_FFFF, 0x7FFF_FFFF, Samples::Rgb16, ColorSpace::Srgb);
    assert!(largest.is_size());
    assert_eq!(largest.row_size(), 12_884_901_882);
    assert!(PngWriter::new(Vec::new(), largest).is_ok());
}

#[test]
fn rows_that_do_not_belong_are_refused() {
    let picture = header(2, 2, Samples::Gray8, ColorSpace::Unnamed);
    let mut png = PngWriter::new(Vec::new(), picture).expect("begun");
    assert!(matches!(png.write_row(&[1]), Err(PngError::RowLength { expected: 2, found: 1 })));
    assert!(matches!(png.finish(), Err(PngError::RowsMissing { count: 2 })));
    let bytes = [1, 2, 3, 4, 5, 6];
    let three = RowsRef::new(&bytes, 2, 3, 2).expect("rows");
    assert!(matches!(png.write_rows(&three), Err(PngError::NoRowLeft)));
    let wide = RowsRef::new(&bytes, 3, 2, 3).expect("rows");
    assert!(matches!(png.write_rows(&wide), Err(PngError::RowLength { expected: 2, found: 3 })));
    let deep = RowsRef::new(&[1, 2], 1, 2, 1).expect("rows");
    assert!(matches!(png.write_rows_u16(&deep), Err(PngError::BitDepth)));
    let colors = header(2, 1, Samples::Rgb8, ColorSpace::Unnamed);
    let three = RowsRef::new(&[1, 2, 3], 3, 1, 3).expect("rows");
    let mut out = PngWriter::new(Vec::new(), colors).expect("begun");
    assert!(matches!(out.write_rows_u16(&three), Err(PngError::BitDepth)));
    assert_eq!(png.rows_left(), 2);
    png.write_row(&[1, 2]).expect("a row");
    assert_eq!(png.rows_left(), 1);
    png.write_row(&[3, 4]).expect("a row");
    assert!(matches!(png.write_row(&[5, 6]), Err(PngError::NoRowLeft)));
    assert!(matches!(png.write_row(&[5]), Err(PngError::NoRowLeft)));
    png.finish().expect("finished");
    assert!(matches!(png.finish(), Err(PngError::Closed)));
    assert!(matches!(png.write_row(&[5, 6]), Err(PngError::Closed)));
}
