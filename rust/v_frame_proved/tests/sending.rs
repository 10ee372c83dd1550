//! All functions that write bytes follow one rule: after a partial write they continue, and they stop at the first write that
//! fails or accepts no bytes. An interrupted write counts as failed.

#![cfg(feature = "std")]

mod support;

use std::io::{self, ErrorKind};
use support::streams::{Then, Writer, writer};
use v_frame_proved::bytes::send;
use v_frame_proved::chart::{Chart, Series, write_svg};
use v_frame_proved::planar::{Counted, WriteFault};
use v_frame_proved::plane::RowsRef;
use v_frame_proved::png::{ColorSpace, Header, PngError, Samples, write_png};

const BYTES: [u8; 12] = [1, 2, 3, 4, 5, 6, 7, 8, 9, 10, 11, 12];

/// Writes something. If a write accepts no bytes, the kind of the error is `WriteZero`.
type Send = fn(&mut Writer) -> Result<(), ErrorKind>;

fn bytes(out: &mut Writer) -> Result<(), ErrorKind> {
    send(out, &BYTES).map_err(|fault| io::Error::from(fault).kind())
}

fn counted_bytes(out: &mut Writer) -> Result<(), ErrorKind> {
    let mut out = Counted::new(out);
    let sent = out.write_all(&BYTES);
    assert_eq!((out.failures() == 1, out.failures() > 1), (sent == Err(WriteFault::Failed), false));
    sent.map_err(|fault| match fault {
        WriteFault::Failed => out.last_failure().expect("a cause"),
        WriteFault::TookNothing => ErrorKind::WriteZero,
        other => panic!("{other:?}"),
    })
}

fn picture(out: &mut Writer) -> Result<(), ErrorKind> {
    let header = Header { width: 4, height: 3, samples: Samples::Gray8, color_space: ColorSpace::Unnamed };
    let rows = RowsRef::new(&BYTES, 4, 3, 4).expect("rows");
    write_png(out, header, &rows).map(drop).map_err(|error| match error {
        PngError::Write(cause) => cause.kind(),
        PngError::WriteZero => ErrorKind::WriteZero,
        other => panic!("{other}"),
    })
}

fn chart(out: &mut Writer) -> Result<(), ErrorKind> {
    let series = [Series { name: "Y", values: &[1.0, 2.0] }];
    let chart = Chart { title: "title", unit: "unit", first: 1, series: &series };
    write_svg(out, &chart).map_err(|error| error.kind())
}

#[test]
fn all_bytes_go_out_by_one_rule() {
    for (name, send) in [("bytes", bytes as Send), ("counted", counted_bytes), ("PNG", picture), ("chart", chart)] {
        let mut whole = writer(usize::MAX);
        assert_eq!((send(&mut whole), whole.writes), (Ok(()), 1), "{name}");
        let mut short = writer(3);
        assert_eq!((send(&mut short), short.writes), (Ok(()), whole.taken.len().div_ceil(3)), "{name}");
        assert_eq!(short.taken, whole.taken, "{name}");
        for calls in 0..4 {
            for (then, kind) in [
                (Then::Fails(ErrorKind::Interrupted), ErrorKind::Interrupted),
                (Then::Fails(ErrorKind::StorageFull), ErrorKind::StorageFull),
                (Then::TakesNone, ErrorKind::WriteZero),
            ] {
                let mut out = writer(3).after_calls(calls, then);
                assert_eq!((send(&mut out), out.writes), (Err(kind), calls + 1), "{name} after {calls} writes");
                assert_eq!(out.taken, whole.taken[..3 * calls], "{name} after {calls} writes");
            }
        }
    }
}
