//! Headers of streams with every color and interlacing: a header that is written can be read again.

#![cfg(feature = "std")]

use v_frame_proved::chroma::ChromaSubsampling as Format;
use v_frame_proved::y4m::{ChromaSiting, Color, Interlacing, Ratio, StreamHeader, header_line, parse_header};

const FORMATS: [Format; 5] =
    [Format::Monochrome, Format::Yuv420, Format::Yuv422, Format::Yuv444, Format::Yuv411];
const SITINGS: [Option<ChromaSiting>; 4] =
    [None, Some(ChromaSiting::Center), Some(ChromaSiting::Left), Some(ChromaSiting::Alternating)];
const INTERLACINGS: [Option<Interlacing>; 6] = [
    None,
    Some(Interlacing::Progressive),
    Some(Interlacing::TopFirst),
    Some(Interlacing::BottomFirst),
    Some(Interlacing::Mixed),
    Some(Interlacing::Unknown),
];

/// Returns whether there is a color with these properties: 8-bit 4:2:0 has a siting, and 4:1:1 has 8 bits.
fn is_color(format: Format, bit_depth: u8, siting: Option<ChromaSiting>) -> bool {
    match bit_depth {
        8 => siting.is_some() == (format == Format::Yuv420),
        9 | 10 | 12 | 14 | 16 => siting.is_none() && format != Format::Yuv411,
        _ => false,
    }
}

#[test]
fn each_color_comes_back_from_its_line() {
    for format in FORMATS {
        for bit_depth in 0..=255 {
            for siting in SITINGS {
                let color = Color::new(format, bit_depth, siting);
                assert_eq!(color.is_some(), is_color(format, bit_depth, siting), "{format:?} {bit_depth} {siting:?}");
                if let Some(color) = color {
                    assert_eq!((color.subsampling(), color.bit_depth(), color.siting()), (format, bit_depth, siting));
                    INTERLACINGS.into_iter().for_each(|interlacing| comes_back(color, interlacing));
                }
            }
        }
    }
}

/// In the YUV4MPEG2 format, a stream without a color, or with the color 420, has chroma as in JPEG.
#[test]
fn chroma_without_a_stated_place_lies_in_the_center() {
    for color in [Color::Unstated, Color::Yuv420, Color::Yuv420Jpeg] {
        let found = (color.subsampling(), color.bit_depth(), color.siting());
        assert_eq!(found, (Format::Yuv420, 8, Some(ChromaSiting::Center)), "{color:?}");
    }
}

fn comes_back(color: Color, interlacing: Option<Interlacing>) {
    let ratio = Some(Ratio { numerator: u64::MAX, denominator: u64::MAX });
    let header = StreamHeader {
        frame_rate: ratio,
        pixel_aspect: ratio,
        interlacing,
        ..StreamHeader::new(usize::MAX, usize::MAX, color)
    };
    assert_eq!(parse_header(&header_line(&header).unwrap()), Ok(header));
}
