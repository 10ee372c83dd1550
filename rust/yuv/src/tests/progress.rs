//! The frame count on a terminal.

use crate::generated::yuv_system::{ProgressLine, Shown};
use crate::support::HostRuntime;
use std::thread::sleep;
use std::time::{Duration, Instant};
use v_frame_proved::streams::Progress;

/// A count without a percentage is at least six characters shorter than the one with a percentage before it, and overwrites all
/// of it.
#[test]
fn a_count_covers_a_longer_one() {
    let rt = HostRuntime::new().expect("standard streams");
    let mut out = Vec::new();
    let mut line = ProgressLine::new(&rt, &mut out, Shown::EachCount);
    for expected in [Some(8), None] {
        line.expect(expected);
        sleep(Duration::from_millis(110));
        line.show(4);
    }
    let text = String::from_utf8(out).expect("text");
    let lines: Vec<&str> = text.split('\r').collect();
    assert!(lines.len() == 3 && lines[1].starts_with("4 frames, 50 %, ") && lines[2].starts_with("4 frames, "), "{lines:?}");
    assert!(lines[2].ends_with("      ") && lines[2].len() == lines[1].len(), "{lines:?}");
}

/// If several counts are reported at once after a long frame, the first one is shown immediately and the last one at the end.
/// The test is repeated if a busy machine delays some of them.
#[test]
fn a_count_is_shown_once_in_a_while() {
    let rt = HostRuntime::new().expect("standard streams");
    for _ in 0..20 {
        let mut out = Vec::new();
        let mut line = ProgressLine::new(&rt, &mut out, Shown::EachCount);
        sleep(Duration::from_millis(350));
        let begun = Instant::now();
        (1..=3).for_each(|frames| line.show(frames));
        let at_once = begun.elapsed() < Duration::from_millis(50);
        line.end();
        let text = String::from_utf8(out).expect("text");
        let counts: Vec<&str> = text.split('\r').skip(1).map(|it| it.split(' ').next().expect("a count")).collect();
        if at_once {
            assert_eq!(counts, ["1", "3"], "{text:?}");
            return;
        }
    }
    panic!("three counts in a row took 50 ms twenty times");
}
