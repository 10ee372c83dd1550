//! Tests the parsing of command lines.

use crate::generated::yuv_reports::ReportForm;
use crate::generated::yuv_words::{
    Call, Command, CommandName, Options, RawVideo, Topic, UsageError, read_command, usage_text,
};
use v_frame_proved::formats::Rectangle;
use v_frame_proved::y4m::Ratio;

/// Command lines, each after `$ yuv `, followed by the parsed command or the error message.
const CALLS: &str = include_str!("words.txt");

#[test]
fn calls_ask_for_what_they_should() {
    let mut calls = CALLS.split("$ yuv ");
    assert_eq!(calls.next(), Some(""));
    for (line, wanted) in calls.map(|call| call.split_once('\n').expect("a line")) {
        let words: Vec<&str> = line.split_whitespace().collect();
        let told = match read_command(&words) {
            Ok(command) => told_of(&command),
            Err(error) => format!("{error}\n"),
        };
        assert_eq!(told, wanted, "{line}");
    }
}

#[test]
fn help_has_the_options_that_are_taken() {
    let names = ["info", "compare", "copy", "sum", "stats", "show", "diff", "plot"];
    let shown = names.map(|name| {
        let Ok(Command::Help(Topic::Command(topic))) = read_command(&["help", name]) else { panic!("{name}") };
        let words = topic.options().iter().map(|option| option.help().split_whitespace().next().unwrap_or_default());
        words.collect::<Vec<_>>()
    });
    for (name, own) in names.iter().zip(&shown) {
        for option in shown.iter().flatten() {
            let is_refused = matches!(read_command(&[*name, *option]), Err(UsageError::NotOfCommand { .. }));
            assert_eq!(is_refused, !own.contains(option), "{name} {option}");
        }
    }
}

/// If there are too many files, the first surplus one is reported.
#[test]
fn the_first_file_too_many_is_told() {
    for (line, extra) in [("info a b", "b"), ("sum a b c", "b"), ("stats a b c", "b"), ("copy a b c", "c"), ("plot a b c d", "d"),
        ("info a b c d", "b"), ("stats a --count 1 b c d e", "b"), ("sum a -- b c d", "b"), ("show -- a b c d", "c"), ("copy a b -- c", "c")] {
        let words: Vec<&str> = line.split(' ').collect();
        let Err(error) = read_command(&words) else { panic!("{line}") };
        assert_eq!(error.to_string(), format!("too many files: unexpected '{extra}'"), "{line}");
    }
}

/// Returns a line for the command, and one for each option that is given.
fn told_of(command: &Command<'_>) -> String {
    let Call { name, first, second, third, options } = match command {
        Command::Help(topic) => {
            let options = if let Topic::Command(command) = topic { command.options() } else { &[] };
            let texts = options.iter().map(|option| option.help());
            return usage_text(*topic).to_string() + &texts.collect::<String>();
        }
        Command::Version => return "version\n".to_string(),
        Command::Call(call) => call,
    };
    let head = match name {
        CommandName::Info => format!("info of {first}"),
        CommandName::Compare => format!("compare {first} and {second}"),
        CommandName::Copy => format!("copy {first} to {second}"),
        CommandName::Sum => format!("sum of {first}"),
        CommandName::Stats => format!("stats of {first}"),
        CommandName::Show => format!("show {first} as {second}"),
        CommandName::Diff => format!("diff of {first} and {second} as {third}"),
        CommandName::Plot => format!("plot of {first} and {second} as {third}"),
    };
    format!("{head}\n{}", told_of_options(options))
}

/// Returns a line for each option that is given.
fn told_of_options(options: &Options) -> String {
    [
        flag("header", options.header),
        flag("ssim", options.ssim),
        flag("frames", options.frames),
        flag("exact", options.exact),
        flag("csv", options.form == ReportForm::Csv),
        flag("json", options.form == ReportForm::Json),
        flag("planes", options.planes),
        flag("histogram", options.histogram),
        number("skip", options.skip),
        number("skip second", options.skip_second),
        number("count", options.count),
        number("frame", options.frame),
        some(options.matrix, |matrix| format!("matrix {matrix:?}")),
        some(options.range, |range| format!("range {range:?}")),
        some(options.plane, |plane| format!("plane {plane:?}")),
        crop(options.crop),
        some(options.gain, |gain| format!("gain {gain}")),
        flag("half", options.half),
        some(options.format, |it| format!("format {} {} bits", it.ffmpeg_name(), it.bit_depth())),
        ratio("rate", options.rate),
        ratio("aspect", options.aspect),
        raw("raw", options.raw),
        raw("raw second", options.raw_second),
        flag("raw output", options.raw_output),
        number("max pixels", options.max_pixels),
        flag("progress", options.progress),
        flag("force", options.force),
        flag("salvage", options.salvage),
    ]
    .concat()
}

/// Returns the line of an option that is given.
fn some<T>(option: Option<T>, told: impl Fn(T) -> String) -> String {
    option.map_or(String::new(), |value| format!("  {}\n", told(value)))
}

fn flag(name: &str, is_given: bool) -> String {
    some(is_given.then_some(name), str::to_string)
}

fn number(name: &str, option: Option<u64>) -> String {
    some(option, |number| format!("{name} {number}"))
}

fn ratio(name: &str, option: Option<Ratio>) -> String {
    some(option, |it| format!("{name} {} to {}", it.numerator, it.denominator))
}

fn crop(option: Option<Rectangle>) -> String {
    some(option, |it| format!("crop at {} {}, {} by {}", it.x, it.y, it.width, it.height))
}

fn raw(name: &str, option: Option<RawVideo>) -> String {
    let told = |it: RawVideo| {
        let (chroma, bits) = (it.format.subsampling(), it.format.bit_depth());
        let format = format!("{chroma:?} {bits} bits, {}", it.format.short_name());
        let range = if it.full_range { ", full range" } else { "" };
        format!("{name} {} by {}, {format}{range}", it.width, it.height)
    };
    some(option, told) + &option.map_or(String::new(), |it| ratio("  rate", it.rate))
}
