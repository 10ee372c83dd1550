//! Debug texts of markers and of streams. Those of streams show their properties, but not the reader, the writer or the pixels.

#![cfg(feature = "std")]

use std::io::{self, Read};
use v_frame_proved::planar::Counted;
use v_frame_proved::rgb::{ChromaU, ChromaV, Luma};
use v_frame_proved::streams::{Container, NoObserver, Picture, Place, Silent, Sink, Source, StreamError};
use v_frame_proved::y4m::{Decoder, Encoder};

/// A reader without a debug text.
struct Quiet<'a>(&'a [u8]);

impl Read for Quiet<'_> {
    fn read(&mut self, bytes: &mut [u8]) -> io::Result<usize> {
        self.0.read(bytes)
    }
}

/// A writer that does not implement `Write`. A debug text does not require it.
struct Anything;

/// Returns the debug texts of both streams, whatever their readers and writers are.
fn shown<R, W>(source: &Source<R>, sink: &Sink<W>) -> String {
    format!("{source:?} {sink:?}")
}

#[test]
fn markers_show_their_names() {
    assert_eq!(format!("{Luma:?} {ChromaU:?} {ChromaV:?}"), "Luma ChromaU ChromaV");
    assert_eq!(format!("{NoObserver:?} {Silent:?}"), "NoObserver Silent");
}

#[test]
fn streams_show_what_is_known_of_them() -> Result<(), StreamError> {
    let mut source = Source::y4m(Place::Second, Quiet(b"YUV4MPEG2 W2 H1 Cmono10\nFRAME\n\x07\x00\x09\x00"))?;
    let mut picture = Picture::<u16>::new(&source, 2)?;
    assert!(picture.read(&mut source)?);
    let of_picture = "Picture { width: 2, height: 1, subsampling: Monochrome, bit_depth: 10, .. }";
    assert_eq!(format!("{picture:?}"), of_picture);

    let header = format!("{:?}", source.header());
    assert!(header.starts_with("StreamHeader { width: 2, height: 1, "), "{header}");
    let of_source = format!("Source {{ place: Second, container: Y4m, header: {header}, frames: 1, .. }}");
    let sink = Sink { container: Container::Raw, frames: 3, writer: Counted::new(Anything) };
    assert_eq!(shown(&source, &sink), format!("{of_source} Sink {{ container: Raw, frames: 3, .. }}"));
    Ok(())
}

#[test]
fn decoders_and_encoders_show_their_headers() {
    let decoder = Decoder::new(Quiet(b"YUV4MPEG2 W2 H1 Cmono10\nFRAME\n\x07\x00\x09\x00")).unwrap();
    let header = decoder.header().clone();
    assert_eq!(format!("{decoder:?}"), format!("Decoder {{ header: {header:?}, .. }}"));
    let encoder = Encoder::new(Vec::new(), header.clone()).unwrap();
    assert_eq!(format!("{encoder:?}"), format!("Encoder {{ header: {header:?}, .. }}"));
}
