//! The recorded runs with streams in memory, including outputs whose reader closes the pipe.

use super::cases::{Case, Room, cases};
use crate::generated::yuv_commands::{Streams, run};
use crate::generated::yuv_system::write_text;
use crate::support::HostRuntime;
use std::io::{self, ErrorKind, Write};
use v_frame_proved::planar::PlanarError;
use v_frame_proved::streams::{Place, Problem, StreamError};
use v_frame_proved::y4m::Y4mError;

/// A pipe that accepts a number of bytes and then breaks.
struct Pipe {
    taken: Vec<u8>,
    room: usize,
}

impl Write for Pipe {
    fn write(&mut self, bytes: &[u8]) -> io::Result<usize> {
        let count = bytes.len().min(self.room);
        if count == 0 {
            return Err(io::Error::from(ErrorKind::BrokenPipe));
        }
        self.taken.extend(&bytes[..count]);
        self.room -= count;
        Ok(count)
    }

    fn flush(&mut self) -> io::Result<()> {
        Ok(())
    }
}

#[test]
fn kept_runs_write_what_they_should() {
    let room = Room::new("runs");
    std::env::set_current_dir(room.folder()).expect("the folder");
    let rt = HostRuntime::new().expect("standard streams");
    let cases = cases();
    for case in &cases {
        check(&rt, &room, case);
    }
    assert_eq!(cases.len(), 379);
}

/// Makes a run and checks its output.
fn check(rt: &HostRuntime, room: &Room, case: &Case) {
    let given = case.given(room);
    let mut error = Vec::new();
    let mut output = Pipe {
        taken: Vec::new(),
        room: case.room.unwrap_or(usize::MAX),
    };
    let streams = Streams {
        input: given.as_slice(),
        output: &mut output,
        error: &mut error,
        is_terminal: false,
        output_is_terminal: false,
    };
    let words: Vec<&str> = case.words.iter().map(String::as_str).collect();
    let status = run(rt, &words, streams).code();
    case.check(room, &output.taken, &error, status);
}

/// Returns the failed write and the error of the system, if a text was not written.
fn fault(written: Result<(), StreamError>) -> Option<(PlanarError, Option<ErrorKind>)> {
    match written.err()? {
        StreamError { place: Place::Output, frames: 0, problem: Problem::Stream(Y4mError::Planar(fault)), cause } => Some((fault, cause)),
        other => panic!("{other:?}"),
    }
}

#[test]
fn a_text_that_is_not_written_has_its_cause() {
    let mut full = [0; 3];
    assert_eq!(fault(write_text(&mut full.as_mut_slice(), "four")), Some((PlanarError::WriteZero, None)));
    assert_eq!(full, *b"fou");
    let mut broken = Pipe { taken: Vec::new(), room: 3 };
    let told = fault(write_text(&mut broken, "four"));
    assert_eq!(told, Some((PlanarError::Write, Some(ErrorKind::BrokenPipe))));
    assert_eq!(broken.taken, b"fou");
    assert_eq!(fault(write_text(&mut Vec::new(), "four")), None);
}
