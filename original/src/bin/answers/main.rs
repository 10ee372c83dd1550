//! Reads cases from standard input, and prints the results of `v_frame` 0.7.0. `original/README.md` describes the format.
//!
//! If 0.7.0 lacks a format, the program prints a line `lacks FORMAT` in place of a build, or in place of all results of a case with frames.

mod calls;
mod frames;
mod print;
mod tokens;

use frames::{Spec, edit};
use print::{print_build, print_frame};
use std::fmt::Write as _;
use std::io::{self, BufWriter, Read as _, Write as _};
use std::process::ExitCode;
use tokens::{Read, Tokens};
use v_frame::frame::Frame;
use v_frame::pixel::Pixel;

fn main() -> ExitCode {
    match answer_input() {
        Ok(()) => ExitCode::SUCCESS,
        Err(fault) => {
            eprintln!("{fault}");
            ExitCode::FAILURE
        }
    }
}

/// Runs case after case. If a case is wrong, the results of the cases before it are printed.
fn answer_input() -> Read<()> {
    let mut text = String::new();
    io::stdin().read_to_string(&mut text).map_err(|error| error.to_string())?;
    let lines: Vec<&str> = text.lines().collect();
    let mut out = BufWriter::new(io::stdout().lock());
    for case in lines.split_inclusive(|line| *line == "end") {
        let answer = answer_case(case).map_err(|fault| format!("{}: {fault}", case[0]))?;
        out.write_all(answer.as_bytes()).map_err(|error| error.to_string())?;
    }
    out.flush().map_err(|error| error.to_string())
}

/// Returns the output for the lines of one case.
fn answer_case(case: &[&str]) -> Read<String> {
    let [head, body @ .., "end"] = case else {
        return Err("the case has no end".to_string());
    };
    let mut head = Tokens::new(head);
    head.keyword("case")?;
    let id = head.word()?;
    let kind = head.word()?;
    head.end()?;
    let mut out = format!("case {id}\n");
    match kind {
        "build" => answer_builds(body, &mut out)?,
        "replay" | "pair" => answer_frames(body, kind == "pair", &mut out)?,
        other => return Err(format!("unknown kind of case: {other}")),
    }
    out.push_str("end\n");
    Ok(out)
}

/// Prints the results of builds.
fn answer_builds(body: &[&str], out: &mut String) -> Read<()> {
    for line in counted(body, "calls")? {
        let mut tokens = Tokens::new(line);
        tokens.keyword("build")?;
        let spec = Spec::read(&mut tokens)?;
        match spec.format {
            None => out.push_str("lacks Yuv411\n"),
            Some(format) if spec.bytes == 1 => print_build(spec.build::<u8>(format), out),
            Some(format) => print_build(spec.build::<u16>(format), out),
        }
    }
    Ok(())
}

/// Prints the results of calls on one frame or on two. The first frame determines the pixel type.
fn answer_frames(body: &[&str], is_pair: bool, out: &mut String) -> Read<()> {
    let heads = body.iter().filter_map(|line| line.strip_prefix("frame "));
    let mut specs = Vec::new();
    for head in heads {
        specs.push(Spec::read(&mut Tokens::new(head))?);
    }
    if specs.len() != if is_pair { 2 } else { 1 } {
        return Err("another number of frames than the kind of the case has".to_string());
    }
    if specs.iter().any(|spec| spec.format.is_none()) {
        out.push_str("lacks Yuv411\n");
        return Ok(());
    }
    match specs[0].bytes {
        1 => answer_typed::<u8>(body, &specs, out),
        _ => answer_typed::<u16>(body, &specs, out),
    }
}

/// Prints the results of calls on frames with pixels of type `T`.
fn answer_typed<T: Pixel>(body: &[&str], specs: &[Spec], out: &mut String) -> Read<()> {
    let mut frames: Vec<Frame<T>> = Vec::new();
    let mut rest = body;
    for spec in specs {
        let mut frame = spec.frame::<T>()?;
        rest = &rest[1..];
        while let Some((line, behind)) = rest.split_first()
            && !line.starts_with("frame ")
            && !line.starts_with("calls ")
        {
            edit(&mut frame, line)?;
            rest = behind;
        }
        frames.push(frame);
    }
    let calls = counted(rest, "calls")?;
    print_equality(&frames, out);
    for frame in &mut frames {
        for call in calls {
            calls::answer(frame, &mut Tokens::new(call), out)?;
        }
        print_frame(frame, out);
    }
    print_equality(&frames, out);
    Ok(())
}

/// Prints whether two frames are equal.
fn print_equality<T: Pixel>(frames: &[Frame<T>], out: &mut String) {
    if let [one, other] = frames {
        let _ = writeln!(out, "equal {}", one == other);
    }
}

/// Returns the lines after a line that states their number, to the end of the case.
fn counted<'a, 'b>(lines: &'b [&'a str], name: &str) -> Read<&'b [&'a str]> {
    let (head, rest) = lines.split_first().ok_or("lines are missing")?;
    let mut head = Tokens::new(head);
    head.keyword(name)?;
    let count = head.size()?;
    head.end()?;
    if rest.len() == count { Ok(rest) } else { Err(format!("{count} lines named, {} found", rest.len())) }
}
