//! Cases of the original crate and its results, recorded for the program that `rt` builds. This test compares them with the
//! results of the crate that cargo builds.
//!
//! The modules that parse a line, make a call and print its result are those of a program over `v_frame` 0.7.0, unchanged. This
//! file combines them as that program does, with one more format, which 0.7.0 lacks.

extern crate v_frame_proved as v_frame;

#[path = "../../../original/src/bin/answers/calls.rs"]
mod calls;
#[path = "../../../original/src/bin/answers/frames.rs"]
mod frames;
#[path = "../../../original/src/bin/answers/print.rs"]
mod print;
#[path = "../../../original/src/bin/answers/tokens.rs"]
mod tokens;

use frames::{Spec, edit};
use print::{print_build, print_frame};
use tokens::{Read, Tokens};
use v_frame::chroma::ChromaSubsampling;
use v_frame::frame::{Frame, FrameError};
use v_frame::pixel::Pixel;

const CASES: &str = include_str!("../../../crates/test_original_cases/stdin");
const ANSWERS: &str = include_str!("../../../crates/test_original_cases/stdout");

/// Builds a frame. A format without a name in 0.7.0 is `Yuv411`.
fn build<T: Pixel>(spec: &Spec) -> Result<Frame<T>, FrameError> {
    spec.build(spec.format.unwrap_or(ChromaSubsampling::Yuv411))
}

/// Builds the frame that a line describes, and makes the edits in the lines below it.
fn frame<T: Pixel>(lines: &[&str]) -> Read<Frame<T>> {
    let mut head = Tokens::new(lines[0]);
    head.keyword("frame")?;
    let spec = Spec::read(&mut head)?;
    assert_eq!(spec.bytes, size_of::<T>(), "the pixels of {}", lines[0]);
    let mut frame = build(&spec).map_err(|error| format!("not built: {error}"))?;
    for line in &lines[1..] {
        edit(&mut frame, line)?;
    }
    Ok(frame)
}

/// Prints whether two frames are equal, if there are two.
fn print_equality<T: Pixel>(frames: &[Frame<T>], out: &mut String) {
    if let [one, other] = frames {
        out.push_str(if one == other { "equal true\n" } else { "equal false\n" });
    }
}

/// Prints the results of builds.
fn answer_builds(lines: &[&str], out: &mut String) -> Read<()> {
    for line in lines {
        let mut words = Tokens::new(line);
        words.keyword("build")?;
        let spec = Spec::read(&mut words)?;
        if spec.bytes == 1 {
            print_build(build::<u8>(&spec), out);
        } else {
            print_build(build::<u16>(&spec), out);
        }
    }
    Ok(())
}

/// Prints the results of calls on each of the frames.
fn answer_calls<T: Pixel>(described: &[&str], calls: &[&str], out: &mut String) -> Read<()> {
    let each = described.chunk_by(|_, next| !next.starts_with("frame "));
    let mut frames = each.map(frame::<T>).collect::<Read<Vec<_>>>()?;
    print_equality(&frames, out);
    for frame in &mut frames {
        for call in calls {
            calls::answer(frame, &mut Tokens::new(call), out)?;
        }
        print_frame(frame, out);
    }
    print_equality(&frames, out);
    Ok(())
}

/// Returns the results for the lines of a case, without its last line.
fn answer(case: &str) -> Read<String> {
    let lines: Vec<&str> = case.lines().collect();
    let place = lines.iter().position(|line| line.starts_with("calls ")).ok_or("no line names the number of calls")?;
    let (described, calls) = (&lines[1..place], &lines[place + 1..]);
    assert_eq!(lines[place], format!("calls {}", calls.len()));
    let mut head = Tokens::new(lines[0]);
    head.keyword("case")?;
    let mut out = format!("case {}\n", head.word()?);
    match head.word()? {
        "build" => answer_builds(calls, &mut out)?,
        _ if described[0].starts_with("frame u8 ") => answer_calls::<u8>(described, calls, &mut out)?,
        _ => answer_calls::<u16>(described, calls, &mut out)?,
    }
    Ok(out)
}

#[test]
fn cases_are_answered_as_the_original_does() {
    let (cases, kept) = (CASES.split_terminator("end\n"), ANSWERS.split_terminator("end\n"));
    assert_eq!((cases.clone().count(), kept.clone().count()), (265, 265));
    for (case, kept) in cases.zip(kept) {
        let answered = answer(case).unwrap_or_else(|fault| panic!("{fault} in\n{case}"));
        for (number, (found, wanted)) in answered.lines().zip(kept.lines()).enumerate() {
            assert_eq!(found, wanted, "line {number} of the answer to\n{case}");
        }
        assert_eq!(answered, kept, "{case}");
    }
}
