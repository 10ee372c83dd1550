//! Planes, views, geometries, bytes of pixels and header lines.

use crate::case::{Case, case};
use crate::pictures::{geometry, header_of_no_columns, header_with_a_space, plane, plane_without_values, rows};
use crate::pictures::{rows_of_words, stream, too_large, words};
use std::ops::{Index, IndexMut};
use v_frame_proved::chroma::ChromaSubsampling;
use v_frame_proved::planar::Counted;
use v_frame_proved::{pixel, planar, plane, png, semi_planar, streams, y4m};

pub const CASES: &[Case] = &[
    case!(plane::Plane::visible_row, "y (3) is not below the height (3)", &plane(4, 3), 3),
    case!(plane::Plane::visible_row_mut, "y (3) is not below the height (3)", &mut plane(4, 3), 3),
    case!(plane::Plane::visible_pixel_mut, "x (4) is not below the width (4)", &mut plane(4, 3), 4, 2),
    case!(plane::Plane::visible_pixel_mut, "y (3) is not below the height (3)", &mut plane(4, 3), 3, 3),
    case!(
        plane::Plane::visible_region_mut, "region 3x3 at (2, 0) is empty or outside of 4x3",
        &mut plane(4, 3), 2, 0, 3, 3
    ),
    case!(
        plane::Plane::visible_region_mut, "region 4x2 at (0, 2) is empty or outside of 4x3",
        &mut plane(4, 3), 0, 2, 4, 2
    ),
    case!(
        plane::Plane::visible_region_mut, "region 0x2 at (1, 1) is empty or outside of 4x3",
        &mut plane(4, 3), 1, 1, 0, 2
    ),
    case!(
        plane::Plane::<u8>::new, "no buffer is as large as PlaneGeometry { width: 4294967296, height: 4294967296",
        too_large()
    ),
    case!(
        plane::Plane::<u8>::new_uninit,
        "no buffer is as large as PlaneGeometry { width: 4294967296, height: 4294967296",
        too_large()
    ),
    case!(plane::Plane::assume_init, "an entry of the buffer of a plane of 4x3 is `None`", plane_without_values(4, 3)),
    case!(
        plane::split_row_mut, "a buffer of 11 entries is not that of PlaneGeometry { width: 4, height: 3",
        &mut [0; 11], geometry(4, 3), 2
    ),
    case!(plane::split_row_mut, "y (3) is not below the height of geometry (3)", &mut [0; 12], geometry(4, 3), 3),
    case!(
        plane::visible_rows_mut, "a buffer of 11 entries is not that of PlaneGeometry { width: 4, height: 3",
        &mut [0; 11], geometry(4, 3), 0, 2
    ),
    case!(plane::visible_rows_mut, "y (1) is not below z (1)", &mut [0; 12], geometry(4, 3), 1, 1),
    case!(plane::visible_rows_mut, "z (3) is not below the height of geometry (3)", &mut [0; 12], geometry(4, 3), 0, 3),
    case!(
        plane::PlaneRef::visible_region, "region 3x3 at (2, 0) is empty or outside of 4x3",
        &plane(4, 3).as_plane_ref(), 2, 0, 3, 3
    ),
    case!(
        plane::PlaneRef::visible_region, "region 4x2 at (0, 2) is empty or outside of 4x3",
        &plane(4, 3).as_plane_ref(), 0, 2, 4, 2
    ),
    case!(
        plane::PlaneRef::visible_region, "region 0x2 at (1, 1) is empty or outside of 4x3",
        &plane(4, 3).as_plane_ref(), 1, 1, 0, 2
    ),
    case!(
        plane::PlaneRef::visible_region, "region 2x0 at (1, 1) is empty or outside of 4x3",
        &plane(4, 3).as_plane_ref(), 1, 1, 2, 0
    ),
    case!(plane::PlaneRef::visible_row, "y (3) is not below the height (3)", &plane(4, 3).as_plane_ref(), 3),
    case!(plane::PlaneRef::visible_pixel, "x (4) is not below the width (4)", &plane(4, 3).as_plane_ref(), 4, 2),
    case!(plane::PlaneRef::visible_pixel, "y (3) is not below the height (3)", &plane(4, 3).as_plane_ref(), 3, 3),
    case!(
        plane::PlaneRef::write_bytes, "the length of bytes (23) is not byte_len (24)",
        &words(4, 3).as_plane_ref(), &mut [0; 23]
    ),
    case!(plane::RowsRef::visible_row, "y (3) is not below the height (3)", &rows(4, 3), 3),
    case!(plane::RowsRef::visible_region, "region 3x3 at (2, 0) is empty or outside of 4x3", &rows(4, 3), 2, 0, 3, 3),
    case!(plane::RowsRef::visible_region, "region 4x2 at (0, 2) is empty or outside of 4x3", &rows(4, 3), 0, 2, 4, 2),
    case!(plane::RowsRef::visible_region, "region 0x2 at (1, 1) is empty or outside of 4x3", &rows(4, 3), 1, 1, 0, 2),
    case!(plane::RowsRef::visible_region, "region 2x0 at (1, 1) is empty or outside of 4x3", &rows(4, 3), 1, 1, 2, 0),
    case!(plane::copy_rows, "3 rows of 4 entries, 4 apart, do not fit 11 entries", rows(4, 3), &mut [0; 11], 4, 3, 4),
    case!(plane::copy_rows, "the width of source (5) is not width (4)", rows(5, 3), &mut [0; 12], 4, 3, 4),
    case!(plane::copy_rows, "the height of source (2) is not height (3)", rows(4, 2), &mut [0; 12], 4, 3, 4),
    case!(
        plane::decode_rows, "3 rows of 4 entries, 4 apart, do not fit 11 entries",
        rows(8, 3), &mut [0_u16; 11], 4, 3, 4
    ),
    case!(
        plane::decode_rows, "width of source (7) is not width (4) times size_of::<T>() (2)",
        rows(7, 3), &mut [0_u16; 12], 4, 3, 4
    ),
    case!(plane::decode_rows, "height of source (2) is not height (3)", rows(8, 2), &mut [0_u16; 12], 4, 3, 4),
    case!(
        plane::encode_rows, "3 rows of 4 entries, 4 apart, do not fit 11 entries",
        rows_of_words(2, 3), &mut [0; 11], 4, 3, 4
    ),
    case!(
        plane::encode_rows, "width (4) is not size_of::<T>() (2) times the width of source (3)",
        rows_of_words(3, 3), &mut [0; 12], 4, 3, 4
    ),
    case!(plane::encode_rows, "height of source (2) is not height (3)", rows_of_words(2, 2), &mut [0; 12], 4, 3, 4),
    case!(
        plane::PlaneGeometry::alloc_height,
        "no buffer is as large as PlaneGeometry { width: 4294967296, height: 4294967296",
        &too_large()
    ),
    case!(
        plane::PlaneGeometry::alloc_size,
        "no buffer is as large as PlaneGeometry { width: 4294967296, height: 4294967296",
        &too_large()
    ),
    case!(
        plane::PlaneGeometry::data_origin,
        "no buffer is as large as PlaneGeometry { width: 4294967296, height: 4294967296",
        &too_large()
    ),
    case!(
        plane::PlaneGeometry::whole_buffer,
        "no buffer is as large as PlaneGeometry { width: 4294967296, height: 4294967296",
        &too_large()
    ),
    case!(
        plane::PlaneGeometry::region, "no buffer is as large as PlaneGeometry { width: 4294967296, height: 4294967296",
        &too_large(), 0, 0, 1, 1
    ),
    case!(
        plane::PlaneGeometry::region_with_border,
        "no buffer is as large as PlaneGeometry { width: 4294967296, height: 4294967296",
        &too_large(), 0, 0, 1, 1
    ),
    case!(
        plane::PlaneGeometry::visible_region,
        "no buffer is as large as PlaneGeometry { width: 4294967296, height: 4294967296",
        &too_large(), 0, 0, 1, 1
    ),
    case!(
        plane::PlaneGeometry::visible_region, "region 3x3 at (2, 0) is empty or outside of 4x3",
        &geometry(4, 3), 2, 0, 3, 3
    ),
    case!(
        plane::PlaneGeometry::visible_region, "region 4x2 at (0, 2) is empty or outside of 4x3",
        &geometry(4, 3), 0, 2, 4, 2
    ),
    case!(
        plane::PlaneGeometry::visible_region, "region 0x2 at (1, 1) is empty or outside of 4x3",
        &geometry(4, 3), 1, 1, 0, 2
    ),
    case!(
        plane::PlaneGeometry::visible_region, "region 2x0 at (1, 1) is empty or outside of 4x3",
        &geometry(4, 3), 1, 1, 2, 0
    ),
    case!(Index::index, "y (3) is not below the height (3)", &plane(4, 3), 3),
    case!(Index::index, "y (3) is not below the height (3)", &plane(4, 3).as_plane_ref(), 3),
    case!(Index::index, "y (3) is not below the height (3)", &rows(4, 3), 3),
    case!(IndexMut::index_mut, "y (3) is not below the height (3)", &mut plane(4, 3), 3),
    case!(
        pixel::encode_row, "length of bytes (3) is not size_of::<T>() (2) times the length of row (2)",
        &mut [0; 3], &[1_u16, 2]
    ),
    case!(png::encode_samples, "length of bytes (5) is not twice the length of samples (2)", &[1, 2], &mut [0; 5]),
    case!(
        planar::show_planar_bytes, "the length of bytes (5) is not the planar_len of a frame of 2x2",
        &mut planar::video_frame::<u8>(2, 2, ChromaSubsampling::Yuv420, 8, 0).expect("memory"), &[0; 5]
    ),
    case!(
        semi_planar::show_semi_planar_bytes, "the length of bytes (5) is not that of a frame of 2x2 at 8 bits in Nv12",
        &mut planar::video_frame::<u8>(2, 2, ChromaSubsampling::Yuv420, 8, 0).expect("memory"), &[0; 5],
        semi_planar::SemiPlanarFormat::Nv12
    ),
    case!(
        semi_planar::show_semi_planar_bytes, "the length of bytes (6) is not that of a frame of 2x2 at 8 bits in P010",
        &mut planar::video_frame::<u8>(2, 2, ChromaSubsampling::Yuv420, 8, 0).expect("memory"), &[0; 6],
        semi_planar::SemiPlanarFormat::P010
    ),
    case!(
        y4m::write_header, "a header of 0x3 has no line: a size is 0",
        &mut Counted::new(Vec::new()), &header_of_no_columns()
    ),
    case!(y4m::write_header, "a header of 4x3 has no line", &mut Counted::new(Vec::new()), &header_with_a_space()),
    case!(
        streams::Sink::write_header, "a header of 0x3 has no line: a size is 0",
        &mut streams::Sink::new(streams::Container::Y4m, Vec::new()), &header_of_no_columns()
    ),
    case!(
        streams::Picture::<u8>::read, "a picture of 3x2, Monochrome at 8 bits, cannot take frames of 4x3, Mono",
        &mut streams::Picture::new(&stream(b"YUV4MPEG2 W3 H2 F25:1 Cmono\n"), 6).expect("memory"),
        &mut stream(b"YUV4MPEG2 W4 H3 F25:1 Cmono\n")
    ),
    // Both frames have six bytes.
    case!(
        streams::Picture::<u8>::read, "a picture of 3x2, Monochrome at 8 bits, cannot take frames of 2x3, Mono",
        &mut streams::Picture::new(&stream(b"YUV4MPEG2 W3 H2 F25:1 Cmono\n"), 6).expect("memory"),
        &mut stream(b"YUV4MPEG2 W2 H3 F25:1 Cmono\n")
    ),
    case!(
        streams::Picture::<u8>::read, "a picture of 2x2, Yuv420 at 8 bits, cannot take frames of 2x1, Yuv444",
        &mut streams::Picture::new(&stream(b"YUV4MPEG2 W2 H2 F25:1 C420jpeg\n"), 6).expect("memory"),
        &mut stream(b"YUV4MPEG2 W2 H1 F25:1 C444\n")
    ),
    case!(
        streams::Picture::<u8>::read_nth, "a picture of 3x2, Monochrome at 8 bits, cannot take frames of 2x3, Mono",
        &mut streams::Picture::new(&stream(b"YUV4MPEG2 W3 H2 F25:1 Cmono\n"), 6).expect("memory"),
        &mut stream(b"YUV4MPEG2 W2 H3 F25:1 Cmono\n"), 1
    ),
];
