//! The texts of formats: `Display`, and `FromStr` for the same texts. This module is written by hand and not generated from
//! proved sources. The texts of streams and their parsers are generated.
//!
//! | type | texts |
//! |---|---|
//! | [`ChromaSubsampling`] | `4:2:0`, `4:2:2`, `4:4:4`, `4:1:1`, and `4:0:0` for monochrome |
//! | [`rgb::Standard`](crate::rgb::Standard) | `BT.601`, `BT.709`, `BT.2020`; parsed without regard to case, and without the dot too |
//! | [`rgb::ColorRange`](crate::rgb::ColorRange) | `limited`, `full`; parsed without regard to case |
//! | [`formats::VideoFormat`](crate::formats::VideoFormat) \* | the short name, such as `420p10`; ffmpeg's name is parsed too |
//! | [`formats::Component`](crate::formats::Component) \* | `Y`, `U`, `V` |
//! | [`semi_planar::SemiPlanarFormat`](crate::semi_planar::SemiPlanarFormat) \* | `nv12`, `p010` and so on; `p010le` is parsed too |
//! | [`y4m::Color`](crate::y4m::Color) \* | the text after `C` in a header, such as `420mpeg2` |
//! | [`y4m::Depth`](crate::y4m::Depth) \* | the number of bits, such as `10` |
//! | [`y4m::Ratio`](crate::y4m::Ratio) \* | the text after `F` or `A` in a header, such as `30000:1001` |
//! | [`y4m::Interlacing`](crate::y4m::Interlacing) \* | the letter after `I` in a header, such as `p` |
//! | [`y4m::ChromaSiting`](crate::y4m::ChromaSiting) \* | `center`, `left`, `alternating` |
//!
//! \* with the feature `std`.
//!
//! ```
//! use v_frame_proved::chroma::ChromaSubsampling;
//! use v_frame_proved::rgb::Standard;
//!
//! let format: ChromaSubsampling = "4:2:2".parse()?;
//! assert_eq!(format, ChromaSubsampling::Yuv422);
//! assert_eq!(format!("{format}, {}", "bt709".parse::<Standard>()?), "4:2:2, BT.709");
//! let error = "4:2".parse::<ChromaSubsampling>().unwrap_err();
//! assert_eq!(error.to_string(), "expected a chroma subsampling such as 4:2:0");
//! # Ok::<(), v_frame_proved::names::ParseNameError>(())
//! ```

use crate::chroma::ChromaSubsampling;
use crate::rgb::{ColorRange, Standard};
use core::fmt;
use core::str::FromStr;

/// The error of a text that is none of the texts of a type. Its message says what was expected, with an example.
#[derive(Debug, Clone, Copy, PartialEq, Eq, Hash)]
pub struct ParseNameError {
    expected: &'static str,
}

impl fmt::Display for ParseNameError {
    fn fmt(&self, f: &mut fmt::Formatter<'_>) -> fmt::Result {
        write!(f, "expected {}", self.expected)
    }
}

impl core::error::Error for ParseNameError {}

/// Implements `Display`, which writes the text of a value, padded as the format specification says, and `FromStr`.
macro_rules! text {
    ($name:ty, $value:ident => $text:expr, $parsed:ident => $parse:expr, $expected:expr) => {
        impl fmt::Display for $name {
            fn fmt(&self, f: &mut fmt::Formatter<'_>) -> fmt::Result {
                let $value = *self;
                f.pad($text)
            }
        }

        parse! { $name, $parsed => $parse, $expected }
    };
}

/// Implements `FromStr`.
macro_rules! parse {
    ($name:ty, $text:ident => $parse:expr, $expected:expr) => {
        impl FromStr for $name {
            type Err = ParseNameError;

            /// # Errors
            ///
            /// [`ParseNameError`] if the text is none of the texts of this type.
            fn from_str($text: &str) -> Result<Self, ParseNameError> {
                $parse.ok_or(ParseNameError { expected: $expected })
            }
        }
    };
}

/// Returns the value that has the text, without regard to the case of ASCII letters.
fn without_case<V: Copy>(table: &[(&str, V)], text: &str) -> Option<V> {
    table.iter().find(|(name, _)| name.eq_ignore_ascii_case(text)).map(|&(_, value)| value)
}

text! {
    ChromaSubsampling,
    format => match format {
        ChromaSubsampling::Yuv420 => "4:2:0",
        ChromaSubsampling::Yuv422 => "4:2:2",
        ChromaSubsampling::Yuv444 => "4:4:4",
        ChromaSubsampling::Yuv411 => "4:1:1",
        ChromaSubsampling::Monochrome => "4:0:0",
    },
    text => match text {
        "4:2:0" => Some(ChromaSubsampling::Yuv420),
        "4:2:2" => Some(ChromaSubsampling::Yuv422),
        "4:4:4" => Some(ChromaSubsampling::Yuv444),
        "4:1:1" => Some(ChromaSubsampling::Yuv411),
        "4:0:0" => Some(ChromaSubsampling::Monochrome),
        _ => None,
    },
    "a chroma subsampling such as 4:2:0"
}

text! {
    Standard,
    standard => match standard {
        Standard::Bt601 => "BT.601",
        Standard::Bt709 => "BT.709",
        Standard::Bt2020 => "BT.2020",
    },
    text => without_case(
        &[
            ("BT.601", Standard::Bt601),
            ("BT601", Standard::Bt601),
            ("BT.709", Standard::Bt709),
            ("BT709", Standard::Bt709),
            ("BT.2020", Standard::Bt2020),
            ("BT2020", Standard::Bt2020),
        ],
        text,
    ),
    "BT.601, BT.709 or BT.2020"
}

text! {
    ColorRange,
    range => match range {
        ColorRange::Limited => "limited",
        ColorRange::Full => "full",
    },
    text => without_case(&[("limited", ColorRange::Limited), ("full", ColorRange::Full)], text),
    "limited or full"
}

#[cfg(feature = "std")]
mod of_streams {
    use super::ParseNameError;
    use crate::formats::{Component, VideoFormat};
    use crate::semi_planar::SemiPlanarFormat;
    use crate::y4m::{ChromaSiting, Color, Depth, Interlacing, Ratio};
    use core::fmt;
    use core::str::FromStr;

    text! {
        VideoFormat,
        format => format.short_name(),
        text => VideoFormat::named(text),
        "a video format such as 420p10 or yuv420p10le"
    }

    text! {
        SemiPlanarFormat,
        format => VideoFormat::SemiPlanar(format).short_name(),
        text => match VideoFormat::named(text) {
            Some(VideoFormat::SemiPlanar(format)) => Some(format),
            _ => None,
        },
        "a semi-planar format such as nv12"
    }

    parse! {
        Component,
        text => [Component::Y, Component::U, Component::V].into_iter().find(|component| component.letter() == text),
        "Y, U or V"
    }

    text! {
        Color,
        color => color.text(),
        text => Color::parse(text.as_bytes()),
        "a color such as 420jpeg or 422p10"
    }

    text! {
        Interlacing,
        interlacing => interlacing.text(),
        text => Interlacing::parse(text.as_bytes()),
        "p, t, b, m or ?"
    }

    text! {
        ChromaSiting,
        siting => match siting {
            ChromaSiting::Center => "center",
            ChromaSiting::Left => "left",
            ChromaSiting::Alternating => "alternating",
        },
        text => match text {
            "center" => Some(ChromaSiting::Center),
            "left" => Some(ChromaSiting::Left),
            "alternating" => Some(ChromaSiting::Alternating),
            _ => None,
        },
        "center, left or alternating"
    }

    impl fmt::Display for Depth {
        fn fmt(&self, f: &mut fmt::Formatter<'_>) -> fmt::Result {
            fmt::Display::fmt(&self.bits(), f)
        }
    }

    parse! {
        Depth,
        text => match text {
            "9" => Some(Depth::Nine),
            "10" => Some(Depth::Ten),
            "12" => Some(Depth::Twelve),
            "14" => Some(Depth::Fourteen),
            "16" => Some(Depth::Sixteen),
            _ => None,
        },
        "a bit depth of 9, 10, 12, 14 or 16"
    }

    /// Writes the two numbers with a colon between them, such as `30000:1001`.
    impl fmt::Display for Ratio {
        fn fmt(&self, f: &mut fmt::Formatter<'_>) -> fmt::Result {
            f.pad(&self.text().map_err(|_refused| fmt::Error)?)
        }
    }

    parse! {
        Ratio,
        text => text
            .split_once(':')
            .and_then(|(numerator, denominator)| Some(Ratio::new(number(numerator)?, number(denominator)?))),
        "a ratio such as 30000:1001"
    }

    /// Parses a decimal number without a plus sign and without leading zeros, as headers require.
    fn number(text: &str) -> Option<u64> {
        let is_canonical = text == "0" || text.starts_with(|first: char| ('1'..='9').contains(&first));
        text.parse().ok().filter(|_| is_canonical)
    }

    /// This method is written by hand and not generated from proved sources.
    impl Ratio {
        /// Returns the ratio of two numbers, such as 30000 and 1001. The numbers are not reduced.
        ///
        /// ```
        /// use v_frame_proved::y4m::Ratio;
        ///
        /// let rate = Ratio::new(30000, 1001);
        /// assert_eq!((rate.numerator, rate.denominator), (30000, 1001));
        /// assert_eq!(rate.to_string(), "30000:1001");
        /// assert_eq!("30000:1001".parse(), Ok(rate));
        /// ```
        #[inline]
        #[must_use]
        pub const fn new(numerator: u64, denominator: u64) -> Self {
            Ratio { numerator, denominator }
        }
    }
}
