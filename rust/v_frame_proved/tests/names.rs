//! Texts of formats, which are parsed back; errors as trait objects; equal values with equal hashes.

use std::collections::HashSet;
use std::error::Error;
use std::fmt::{Debug, Display};
use std::hash::{DefaultHasher, Hash, Hasher};
use std::str::FromStr;
use v_frame_proved::chroma::ChromaSubsampling;
use v_frame_proved::names::ParseNameError;
use v_frame_proved::plane::{PlaneGeometry, SubsamplingError};
use v_frame_proved::replay::ReplayStopped;
use v_frame_proved::rgb::{ColorRange, Standard};
use v_frame_proved::sequence::Sequence;
use v_frame_proved::turn::Turn;

/// Tests that a value has this text, padded too, and that the text is parsed.
#[track_caller]
fn has_text<V: FromStr<Err = ParseNameError> + Display + Debug + PartialEq>(value: V, text: &str) {
    assert_eq!(value.to_string(), text);
    assert_eq!(format!("{value:>12}"), format!("{text:>12}"));
    assert_eq!(format!("{value:-<12}|"), format!("{text:-<12}|"));
    assert_eq!(text.parse(), Ok(value));
}

/// Tests that a type rejects all of these texts with this message.
#[track_caller]
fn rejects<V: FromStr<Err = ParseNameError> + Debug>(message: &str, texts: &[&str]) {
    for text in texts {
        assert_eq!(text.parse::<V>().unwrap_err().to_string(), message, "{text:?}");
    }
}

#[test]
fn formats_of_frames_and_colors() {
    has_text(ChromaSubsampling::Yuv420, "4:2:0");
    has_text(ChromaSubsampling::Yuv422, "4:2:2");
    has_text(ChromaSubsampling::Yuv444, "4:4:4");
    has_text(ChromaSubsampling::Yuv411, "4:1:1");
    has_text(ChromaSubsampling::Monochrome, "4:0:0");
    rejects::<ChromaSubsampling>(
        "expected a chroma subsampling such as 4:2:0",
        &["", "420", "4:2:0 ", "4:4:0", "4:1:0"],
    );
    has_text(Standard::Bt601, "BT.601");
    has_text(Standard::Bt709, "BT.709");
    has_text(Standard::Bt2020, "BT.2020");
    for (text, standard) in [("bt601", Standard::Bt601), ("Bt.709", Standard::Bt709), ("BT2020", Standard::Bt2020)] {
        assert_eq!(text.parse(), Ok(standard));
    }
    rejects::<Standard>("expected BT.601, BT.709 or BT.2020", &["", "709", "BT..709", "bt470bg", "BT.709 "]);
    has_text(ColorRange::Limited, "limited");
    has_text(ColorRange::Full, "full");
    assert_eq!(["FULL".parse(), "Limited".parse()], [Ok(ColorRange::Full), Ok(ColorRange::Limited)]);
    rejects::<ColorRange>("expected limited or full", &["", "tv", "full "]);
}

#[cfg(feature = "std")]
mod of_streams {
    use super::{has_text, rejects};
    use v_frame_proved::formats::{Component, VideoFormat};
    use v_frame_proved::semi_planar::SemiPlanarFormat;
    use v_frame_proved::y4m::{ChromaSiting, Color, Depth, Interlacing, Ratio, parse_header};

    /// The texts after the letter `C` that the format of YUV4MPEG2 streams and ffmpeg define, without alpha.
    const COLORS: [&str; 28] = [
        "420", "420jpeg", "420mpeg2", "420paldv", "411", "422", "444", "mono", "420p9", "420p10", "420p12", "420p14",
        "420p16", "422p9", "422p10", "422p12", "422p14", "422p16", "444p9", "444p10", "444p12", "444p14", "444p16",
        "mono9", "mono10", "mono12", "mono14", "mono16",
    ];

    #[test]
    fn colors_and_formats() {
        for text in COLORS {
            let color: Color = text.parse().expect("a color");
            has_text(color, text);
            let header = parse_header(format!("YUV4MPEG2 W2 H2 C{text}").as_bytes()).expect("a header");
            assert_eq!(header.color, color);
            has_text(VideoFormat::Planar(color), text);
        }
        // A header without a color has no text, and a text cannot mean that.
        assert_eq!(Color::Unstated.to_string(), "");
        rejects::<Color>("expected a color such as 420jpeg or 422p10", &["", "C420", "420 ", "444alpha", "420P10"]);
        for (text, format) in [
            ("nv12", SemiPlanarFormat::Nv12),
            ("nv21", SemiPlanarFormat::Nv21),
            ("nv16", SemiPlanarFormat::Nv16),
            ("nv24", SemiPlanarFormat::Nv24),
            ("p010", SemiPlanarFormat::P010),
            ("p012", SemiPlanarFormat::P012),
            ("p016", SemiPlanarFormat::P016),
        ] {
            has_text(format, text);
            has_text(VideoFormat::SemiPlanar(format), text);
        }
        assert_eq!("p010le".parse(), Ok(SemiPlanarFormat::P010));
        assert_eq!("yuv420p10le".parse(), Ok(VideoFormat::Planar(Color::Yuv420HighDepth(Depth::Ten))));
        rejects::<SemiPlanarFormat>("expected a semi-planar format such as nv12", &["", "420", "yuv420p", "nv13"]);
        rejects::<VideoFormat>("expected a video format such as 420p10 or yuv420p10le", &["", "rgb24", "420p11"]);
    }

    #[test]
    fn parts_of_formats() {
        for (text, depth) in [
            ("9", Depth::Nine),
            ("10", Depth::Ten),
            ("12", Depth::Twelve),
            ("14", Depth::Fourteen),
            ("16", Depth::Sixteen),
        ] {
            has_text(depth, text);
        }
        rejects::<Depth>("expected a bit depth of 9, 10, 12, 14 or 16", &["", "8", "11", "010", "+10"]);
        for (text, interlacing) in [
            ("p", Interlacing::Progressive),
            ("t", Interlacing::TopFirst),
            ("b", Interlacing::BottomFirst),
            ("m", Interlacing::Mixed),
            ("?", Interlacing::Unknown),
        ] {
            has_text(interlacing, text);
        }
        rejects::<Interlacing>("expected p, t, b, m or ?", &["", "P", "tt", "progressive"]);
        has_text(ChromaSiting::Center, "center");
        has_text(ChromaSiting::Left, "left");
        has_text(ChromaSiting::Alternating, "alternating");
        rejects::<ChromaSiting>("expected center, left or alternating", &["", "Center", "top"]);
        for (text, component) in [("Y", Component::Y), ("U", Component::U), ("V", Component::V)] {
            assert_eq!((component.to_string().as_str(), text.parse()), (text, Ok(component)));
        }
        rejects::<Component>("expected Y, U or V", &["", "y", "YU", "Cb"]);
    }

    #[test]
    fn ratios() {
        const FILM: Ratio = Ratio::new(24000, 1001);
        assert_eq!(FILM, Ratio { numerator: 24000, denominator: 1001 });
        has_text(FILM, "24000:1001");
        has_text(Ratio::new(0, 0), "0:0");
        has_text(Ratio::new(50, 2), "50:2");
        has_text(Ratio::new(1, 0), "1:0");
        assert_eq!(Ratio::new(u64::MAX, 1).to_string(), "18446744073709551615:1");
        assert_eq!("18446744073709551615:18446744073709551615".parse(), Ok(Ratio::new(u64::MAX, u64::MAX)));
        let texts = [
            "", ":", "25", "25:", ":1", "25:1:1", "25/1", "+25:1", "25:+1", "025:1", "25:01", "00:1", " 25:1", "25:1 ",
            "25 :1", "-25:1", "2.5:1", "18446744073709551616:1", "1:18446744073709551616", "٢:1",
        ];
        rejects::<Ratio>("expected a ratio such as 30000:1001", &texts);
        // A header line accepts the same texts. A space would begin another parameter.
        for text in texts.into_iter().filter(|text| !text.contains(' ')) {
            assert!(parse_header(format!("YUV4MPEG2 W2 H2 F{text}").as_bytes()).is_err(), "{text:?}");
        }
    }
}

/// Tests the message of an error as a trait object.
#[track_caller]
fn says(error: &dyn Error, message: &str) {
    assert_eq!(error.to_string(), message);
    assert!(error.source().is_none());
}

#[test]
fn errors_are_trait_objects() {
    says(&SubsamplingError, "a size or a padding is not divisible by the subsampling ratio");
    let stopped = ReplayStopped::<u8> { done: Sequence::from(Vec::new()) };
    says(&stopped, "out of memory after 0 calls");
    says(&"".parse::<ColorRange>().unwrap_err(), "expected limited or full");
    fn uneven() -> Result<(), Box<dyn Error + Send + Sync>> {
        PlaneGeometry::unpadded(3, 2, 1, 1).ok_or("no geometry")?.for_subsampling(ChromaSubsampling::Yuv420)?;
        Ok(())
    }
    assert!(uneven().unwrap_err().is::<SubsamplingError>());
}

#[cfg(feature = "std")]
#[test]
fn errors_of_writers_are_trait_objects() {
    use v_frame_proved::planar::WriteFault;
    says(&WriteFault::Failed, "a write failed");
    says(&WriteFault::TookNothing, "a write accepted no bytes");
}

/// Returns the hash of a value.
fn hash_of(value: &(impl Hash + ?Sized)) -> u64 {
    let mut hasher = DefaultHasher::new();
    value.hash(&mut hasher);
    hasher.finish()
}

#[test]
fn equal_values_have_equal_hashes() {
    let geometry = |width| PlaneGeometry::new(width, 2, 1, 1, 0, 0, 1, 1).expect("a geometry");
    let sizes: HashSet<PlaneGeometry> = [4, 5, 4, 5, 6].map(geometry).into();
    assert_eq!(sizes.len(), 3);
    let formats: HashSet<_> = [ChromaSubsampling::Yuv420, ChromaSubsampling::Yuv444, ChromaSubsampling::Yuv420].into();
    assert_eq!(formats.len(), 2);
    let turns: HashSet<_> = [Turn::Rotate90, Turn::Rotate270, Turn::Rotate90].into();
    assert_eq!(turns.len(), 2);
    let list = Sequence::from(vec![1_u8, 2]);
    assert_eq!(hash_of(&list), hash_of(&list.clone()));
    // A sequence is also a slice, whose hash a map with another key type may look up.
    assert_eq!(hash_of(&list), hash_of(&[1_u8, 2][..]));
}

#[cfg(feature = "std")]
#[test]
fn equal_headers_have_equal_hashes() {
    use v_frame_proved::y4m::{HeaderError, StreamHeader, parse_header};
    let header = |line: &str| parse_header(format!("YUV4MPEG2 W2 H2 {line}").as_bytes());
    let headers: HashSet<StreamHeader> =
        ["F25:1 Xa", "Xa F25:1", "F50:2 Xa", "F25:1 Xb"].map(|line| header(line).expect("a header")).into();
    assert_eq!(headers.len(), 3); // The first two differ only in the order of the parameters.
    let errors: HashSet<HeaderError> =
        ["Q", "Q", "C4"].map(|line| header(line).expect_err("no header")).into();
    assert_eq!(errors.len(), 2);
}
