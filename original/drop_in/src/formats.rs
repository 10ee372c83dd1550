//! Uses the formats of frames.

use std::num::NonZeroU8;
use v_frame::chroma::ChromaSubsampling;

/// The formats of 0.7.0.
pub const FORMATS: [ChromaSubsampling; 4] =
    [ChromaSubsampling::Yuv420, ChromaSubsampling::Yuv422, ChromaSubsampling::Yuv444, ChromaSubsampling::Monochrome];

/// Sizes of luma: even sizes, odd sizes and large sizes.
const SIZES: [(usize, usize); 7] = [(16, 8), (15, 8), (16, 7), (1, 1), (0, 0), (usize::MAX, usize::MAX - 1), (usize::MAX - 1, 4)];

/// Prints the properties of each format.
pub fn print() {
    for format in FORMATS {
        let ratio: Option<(NonZeroU8, NonZeroU8)> = format.subsample_ratio();
        println!("{format:?} {} {} {} {ratio:?}", format as u8, short_name(format), format.has_chroma());
        for (width, height) in SIZES {
            let size: Option<(usize, usize)> = format.chroma_dimensions(width, height);
            println!("  {width} by {height}: {size:?}");
        }
        let others = FORMATS.iter().filter(|other| **other != format).count();
        println!("  {others} others, {:?}", FORMATS.iter().position(|other| *other == format));
    }
    let copied = FORMATS[0];
    println!("{}", matches!(copied, ChromaSubsampling::Yuv420) && copied == FORMATS[0].clone());
}

/// The last arm is for formats that a later version may add.
#[allow(unreachable_patterns)]
fn short_name(format: ChromaSubsampling) -> &'static str {
    match format {
        ChromaSubsampling::Yuv420 => "420",
        ChromaSubsampling::Yuv422 => "422",
        ChromaSubsampling::Yuv444 => "444",
        ChromaSubsampling::Monochrome => "400",
        _ => "unknown",
    }
}
