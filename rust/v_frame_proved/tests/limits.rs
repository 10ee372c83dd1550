//! The limits that the documentation names: bit depths at which SSIM is not a number, carriage returns in headers, and numbers
//! that are too large for a chart.

#![cfg(feature = "std")]

use v_frame_proved::chart::{Chart, Series, svg};
use v_frame_proved::measures;
use v_frame_proved::planar::Counted;
use v_frame_proved::plane::Plane;
use v_frame_proved::quality::{self, MeasureError};
use v_frame_proved::y4m::{Color, Decoder, Encoder, StreamHeader, read_header};

#[test]
fn ssim_of_black_planes_is_not_a_number_below_four_bits() {
    let black = Plane::from_slice(16, 8, &[0_u8; 128]).expect("a plane");
    let gray = Plane::from_slice(16, 8, &[1_u8; 128]).expect("a plane");
    let mut half = black.clone();
    half.rows_mut().for_each(|row| row[8..].fill(1)); // The left one of the three windows is black.
    for depth in 0..=20 {
        for (plane, is_number) in [(&black, depth > 3), (&half, depth > 3), (&gray, depth > 0)] {
            let similarity = measures::ssim(plane, plane, depth).expect("a window fits");
            let rows = measures::rows::ssim(plane, plane, depth).expect("a window fits");
            assert_eq!((!similarity.is_nan(), !rows.is_nan()), (is_number, is_number), "{depth} bits");
            assert!(!is_number || similarity == 1.0, "{depth} bits");
        }
        // The checked function rejects each depth that the pixels cannot have.
        let checked = quality::ssim(&black, &black, depth);
        let rejected = Err(MeasureError::UnsupportedBitDepth { found: depth });
        assert_eq!(checked, if depth == 8 { Ok(1.0) } else { rejected });
    }
}

#[test]
fn lax_readers_leave_out_a_last_carriage_return() {
    for (extensions, lax) in [
        (&[&b"COLOR=x\r"[..]][..], &[&b"COLOR=x"[..]][..]),
        (&[&b"a\r"[..], b"b"], &[&b"a\r"[..], b"b"]),
        (&[&b"a"[..], b"\r"], &[&b"a"[..], b""]),
    ] {
        let list = |texts: &[&[u8]]| texts.iter().map(|text| text.to_vec().into()).collect::<Vec<_>>().into();
        let mut header = StreamHeader::new(2, 2, Color::Mono);
        header.extensions = list(extensions);
        assert!(header.is_writable());
        let written = Encoder::new(Vec::new(), header.clone()).and_then(Encoder::finish).expect("a stream");
        assert_eq!(read_header(&mut Counted::new(&written[..])), Ok(header.clone()));
        let decoder = Decoder::new(&written[..]).expect("a header");
        header.extensions = list(lax);
        assert_eq!((decoder.header(), decoder.is_strict()), (&header, extensions == lax));
    }
}

/// Returns the heights of the points of a line through these values.
fn heights(values: &[f64]) -> Vec<f64> {
    let series = [Series { name: "a", values }];
    let text = svg(&Chart { title: "t", unit: "u", first: 0, series: &series }).expect("memory");
    assert!(!text.contains("NaN") && !text.contains("inf"));
    let line = text.lines().find(|line| line.contains("stroke-width=\"1.5\"")).expect("a line");
    let path = line.split("d=\"M").nth(1).and_then(|path| path.split('"').next()).expect("a path");
    path.split('L').map(|point| point.split(' ').nth(1).expect("a height").parse().expect("a number")).collect()
}

/// The middle of three values is drawn in the middle, unless the numbers are too large.
#[test]
fn too_large_numbers_are_drawn_at_a_wrong_height() {
    for top in [2.0, 2e15, 2e300, 2e306] {
        let [low, middle, high] = heights(&[0.0, top / 2.0, top])[..] else { panic!("not three points") };
        assert!(low > middle && middle > high && (low + high - 2.0 * middle).abs() < 0.2, "{top:e}");
    }
    assert_eq!(heights(&[-1e308, 1e308, 0.0]), [160.0, 0.0, 160.0]);
}
