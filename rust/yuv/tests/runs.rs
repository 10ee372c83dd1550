//! Tests the program itself with the recorded runs whose standard output accepts everything.

#[path = "../src/tests/cases.rs"]
mod cases;

use cases::{Case, Room, cases};
use std::ffi::OsString;
use std::fs;
use std::io::Write;
use std::os::unix::ffi::OsStringExt;
use std::process::{Command, Output, Stdio};
use std::thread;
use v_frame_proved::chart::{Chart, Series, svg};

#[test]
fn the_program_writes_what_kept_runs_do() {
    let room = Room::new("program");
    for case in cases().iter().filter(|case| case.room.is_none()) {
        let output = output_of(&room, case);
        let status = output.status.code().and_then(|code| u8::try_from(code).ok());
        case.check(&room, &output.stdout, &output.stderr, status.expect("a status"));
    }
}

/// Runs the program in the directory, with its standard input.
fn output_of(room: &Room, case: &Case) -> Output {
    let mut program = Command::new(env!("CARGO_BIN_EXE_yuv"))
        .args(&case.words)
        .current_dir(room.folder())
        .stdin(Stdio::piped())
        .stdout(Stdio::piped())
        .stderr(Stdio::piped())
        .spawn()
        .expect("the program");
    let (mut input, given) = (program.stdin.take().expect("a pipe"), case.given(room));
    // If a run does not read all its input, writing the input fails.
    let writing = thread::spawn(move || input.write_all(&given));
    let output = program.wait_with_output().expect("an output");
    let _ = writing.join();
    output
}

#[test]
fn an_argument_that_is_not_utf8_is_refused() {
    let words = ["info".into(), OsString::from_vec(vec![0xff])];
    let output = Command::new(env!("CARGO_BIN_EXE_yuv")).args(words).output().expect("an output");
    assert_eq!((output.status.code(), output.stdout.as_slice()), (Some(2), &b""[..]));
    assert!(output.stderr.starts_with(b"yuv: an argument is not valid UTF-8\n"), "{output:?}");
}

/// Returns a stream of 4:4:4 frames of 8 by 8 pixels with this bit depth, whose planes have one value each.
fn flat_stream(depth: u8, frames: &[[u16; 3]]) -> Vec<u8> {
    let mut stream = format!("YUV4MPEG2 W8 H8 C444p{depth}\n").into_bytes();
    for planes in frames {
        stream.extend(b"FRAME\n");
        stream.extend(planes.iter().flat_map(|value| value.to_le_bytes().repeat(64)));
    }
    stream
}

/// Returns the output of a run.
fn run(room: &Room, words: &[&str]) -> Output {
    Command::new(env!("CARGO_BIN_EXE_yuv")).args(words).current_dir(room.folder()).output().expect("an output")
}

/// Returns the chart of a measure, with the values of Y, U and V in the frames from the second one on.
fn chart(title: &str, unit: &str, [y, u, v]: [[f64; 2]; 3]) -> String {
    let series = [("Y", &y), ("U", &u), ("V", &v)].map(|(name, values)| Series { name, values });
    svg(&Chart { title, unit, first: 2, series: &series }).expect("drawn")
}

/// Returns the head of a plot of this height, up to the names of the files.
fn head_of(height: usize) -> String {
    format!(
        "<svg xmlns=\"http://www.w3.org/2000/svg\" width=\"960\" height=\"{height}\" viewBox=\"0 0 960 {height}\">\n\
         <rect width=\"960\" height=\"{height}\" fill=\"#ffffff\"/>\n\
         <text x=\"76\" y=\"15\" font-family=\"sans-serif\" font-size=\"13\" fill=\"#333333\">"
    )
}

/// A plot of identical videos says so, marks each frame, and has no SSIM if planes are small. Long names are shortened in the middle.
#[test]
fn a_plot_names_its_files_and_says_if_they_are_identical() {
    let room = Room::new("plots");
    let output = run(&room, &["plot", "mono_7x5.y4m", "mono_7x5.y4m", "-"]);
    let text = String::from_utf8_lossy(&output.stdout).into_owned();
    let head = format!("{}mono_7x5.y4m and mono_7x5.y4m: all frames are identical</text>\n", head_of(220));
    assert!(output.status.code() == Some(0) && text.starts_with(&head) && !text.contains("SSIM"), "{text}");
    assert!(text.contains(">marks at the top: infinite, as of identical frames</text>"), "{text}");
    for (count, shown) in [(48, "n".repeat(44) + ".y4m"), (49, "n".repeat(22) + "..." + &"n".repeat(19) + ".y4m")] {
        let name = "n".repeat(count - 4) + ".y4m";
        fs::copy(room.folder().join("mono_7x5.y4m"), room.folder().join(&name)).expect("a copy");
        let text = String::from_utf8(run(&room, &["plot", &name, "mono_7x5.y4m", "-"]).stdout).expect("text");
        assert!(text.contains(&format!(">{shown} and mono_7x5.y4m: all frames are identical<")), "{text}");
    }
}

/// If flat planes differ by `d`, their PSNR is 20 log10(1023 / d), and their SSIM is that of the means. Both were computed in
/// Python.
#[test]
fn a_plot_draws_both_measures_of_each_plane() {
    let room = Room::new("plot");
    let write = |name: &str, frames: &[_]| fs::write(room.folder().join(name), flat_stream(10, frames)).expect("a file");
    write("one.y4m", &[[400, 500, 600]; 3]);
    write("other.y4m", &[[401, 502, 604], [408, 516, 632], [404, 505, 607]]);
    let words = ["plot", "one.y4m", "other.y4m", "-", "--skip=1"];
    let output = run(&room, &words);
    let ratios = [
        [42.135712934404324, 48.15631284768395],
        [36.11511302112471, 46.218112587522825],
        [30.09451310784508, 43.29555187395806],
    ];
    let similarities = [
        [0.9998039609897984, 0.9999504977505715],
        [0.9995041235566926, 0.9999504976604107],
        [0.9986516125444492, 0.9999327339456806],
    ];
    let (ratios, similarities) = (chart("PSNR", "dB", ratios), chart("SSIM", "", similarities));
    let head = format!("{}{}</text>\n", head_of(420), "one.y4m and other.y4m");
    let ratios = format!("<g transform=\"translate(0 20)\">\n{ratios}</g>\n");
    let wanted = format!("{head}{ratios}<g transform=\"translate(0 220)\">\n{similarities}</g>\n</svg>\n");
    assert_eq!((output.status.code(), String::from_utf8_lossy(&output.stdout)), (Some(0), wanted.into()));
}

/// The PSNR values of planes that differ by 1, 2 and 4, and of all planes together, were computed in Python: 20 log10((2^depth
/// - 1) / d).
#[test]
fn ratios_are_those_of_each_depth() {
    let room = Room::new("depths");
    let cases = [
        (9, [45.71743760255168, 54.16841800269425, 48.14781808941463, 42.127218176135]),
        (10, [51.74653227410063, 60.1975126742432, 54.176912760963575, 48.15631284768395]),
        (12, [63.79409772178618, 72.24507812192874, 66.22447820864912, 60.2038782953695]),
        (14, [75.83688822496156, 84.28786862510412, 78.2672687118245, 72.24666879854487]),
        (16, [87.87848567516242, 96.32946607530499, 90.30886616202537, 84.28826624874574]),
    ];
    for (depth, wanted) in cases {
        fs::write(room.folder().join("one.y4m"), flat_stream(depth, &[[200, 210, 220]])).expect("a file");
        fs::write(room.folder().join("other.y4m"), flat_stream(depth, &[[201, 208, 224]])).expect("a file");
        let output = run(&room, &["compare", "one.y4m", "other.y4m", "--csv"]);
        let text = String::from_utf8(output.stdout).expect("a table");
        let cells: Vec<f64> = text.lines().nth(1).expect("a frame").split(',').map(|it| it.parse().expect("a number")).collect();
        assert_eq!((output.status.code(), &cells[..5]), (Some(1), &[1.0, 7.0, 1.0, 4.0, 16.0][..]));
        assert!(cells[5..].iter().zip(wanted).all(|(found, it)| (found - it).abs() < 1e-9), "{depth} bits: {cells:?}");
    }
}

/// Chroma sizes are rounded up, so that 15 columns or rows of luma have 8 of chroma.
#[test]
fn chroma_whose_size_is_rounded_up_has_windows() {
    let room = Room::new("windows");
    let write = |name: &str, format: &str, (width, height): (usize, usize), samples: usize| {
        let mut stream = format!("YUV4MPEG2 W{width} H{height} C{format}\nFRAME\n").into_bytes();
        stream.resize(stream.len() + samples, 100);
        fs::write(room.folder().join(name), stream).expect("a file");
    };
    let cases = [
        ("420jpeg", (15, 15), 225 + 128, true),
        ("420jpeg", (14, 15), 210 + 112, false),
        ("420jpeg", (15, 14), 210 + 112, false),
        ("422", (15, 8), 120 + 128, true),
        ("422", (14, 8), 112 + 112, false),
        ("411", (29, 8), 232 + 128, true),
        ("411", (28, 8), 224 + 112, false),
        ("444", (8, 7), 168, false),
    ];
    let refusal = "yuv: one.y4m: --ssim requires planes of at least 8x8 samples\n";
    for (format, size, samples, has_windows) in cases {
        write("one.y4m", format, size, samples);
        let output = run(&room, &["compare", "one.y4m", "one.y4m", "--ssim"]);
        let (text, error) = (String::from_utf8_lossy(&output.stdout), String::from_utf8_lossy(&output.stderr));
        if has_windows {
            assert!(text.contains("ssim: all planes 1.000000, Y 1.000000, U 1.000000, V 1.000000\n"), "{format} {size:?}: {text}{error}");
        } else {
            assert_eq!((output.status.code(), text.as_ref(), error.as_ref()), (Some(2), "", refusal), "{format} {size:?}");
        }
    }
    // The first stream is checked before the two are compared.
    write("large.y4m", "mono", (8, 8), 64);
    let said = |words: [&str; 2]| String::from_utf8(run(&room, &["compare", words[0], words[1], "--ssim"]).stderr).expect("text");
    assert_eq!(said(["one.y4m", "large.y4m"]), refusal);
    assert_eq!(said(["large.y4m", "one.y4m"]), "yuv: the headers disagree on the size: 8x8 and 8x7\nyuv: the headers disagree on the chroma format: luma only and 4:4:4\nyuv: one.y4m: the streams have different sizes\n");
}

/// The default that the help states for an option is the one that is used.
#[test]
fn help_tells_what_nobody_asks_for() {
    let room = Room::new("defaults");
    fs::write(room.folder().join("one.y4m"), flat_stream(10, &[[400, 500, 600], [9, 99, 999]])).expect("a file");
    fs::write(room.folder().join("other.y4m"), flat_stream(10, &[[405, 500, 600], [8, 98, 998]])).expect("a file");
    let (shown, compared) = (["show", "one.y4m", "-"], ["diff", "one.y4m", "other.y4m", "-"]);
    let cases = [
        (&shown[..], "--frame", "1", "2"),
        (&compared, "--frame", "1", "2"),
        (&compared, "--gain", "8", "16"),
    ];
    for (words, option, value, other) in cases {
        let help = String::from_utf8(run(&room, &["help", words[0]]).stdout).expect("text");
        let line = help.lines().find(|line| line.trim_start().starts_with(option)).expect("a line");
        assert!(line.ends_with(&format!(" ({value})")), "{line}");
        let picture = |value| run(&room, &[words, &[option, value]].concat()).stdout;
        let (wanted, others) = (picture(value), picture(other));
        assert!(run(&room, words).stdout == wanted && others != wanted, "{words:?} {option} {value}");
    }
}

/// The colors of a picture are those that the header and the size say, unless an option says others. The program reports them.
#[test]
fn colors_are_those_of_the_header_and_the_size() {
    let room = Room::new("colors");
    let write = |name: &str, height: usize, range: &str| {
        let mut stream = format!("YUV4MPEG2 W2 H{height} C444{range}\nFRAME\n").into_bytes();
        for value in [120, 90, 200] {
            stream.resize(stream.len() + 2 * height, value);
        }
        fs::write(room.folder().join(name), stream).expect("a file");
    };
    for (height, matrix, other) in [(2, "bt601", "bt709"), (576, "bt601", "bt709"), (577, "bt709", "bt601"), (1080, "bt709", "bt601")] {
        for (declared, range) in [("", "limited"), (" XCOLORRANGE=LIMITED", "limited"), (" XCOLORRANGE=FULL", "full"), (" XCOLORRANGE=FULLER", "limited")] {
            write("one.y4m", height, declared);
            let shown = run(&room, &["show", "one.y4m", "-"]);
            assert_eq!(String::from_utf8_lossy(&shown.stderr), format!("matrix {matrix}, range {range}\n"), "{height}{declared}");
            let asked = |matrix: &str, range: &str| {
                let output = run(&room, &["show", "one.y4m", "-", "--matrix", matrix, "--range", range]);
                assert_eq!(String::from_utf8_lossy(&output.stderr), format!("matrix {matrix}, range {range}\n"));
                output.stdout
            };
            assert!(shown.stdout == asked(matrix, range), "{height}{declared}");
            assert!(shown.stdout != asked(other, range), "{height}{declared}");
            let other = if range == "full" { "limited" } else { "full" };
            assert!(shown.stdout != asked(matrix, other), "{height}{declared}");
        }
    }
    let output = run(&room, &["show", "one.y4m", "one.png"]);
    assert_eq!((output.stdout.as_slice(), output.stderr.as_slice()), (&b"matrix bt709, range limited\n"[..], &b""[..]));
    let output = run(&room, &["show", "one.y4m", "gray.png", "--plane", "u"]);
    assert_eq!((output.stdout.as_slice(), output.stderr.as_slice()), (&b""[..], &b""[..]));
}

/// What was measured before a stream breaks off is one JSON object, and says why.
#[test]
fn a_broken_stream_has_a_whole_object() {
    let room = Room::new("object");
    let whole = flat_stream(10, &[[400, 500, 600], [9, 99, 999]]);
    fs::write(room.folder().join("one.y4m"), &whole).expect("a file");
    fs::write(room.folder().join("late.y4m"), &whole[..whole.len() - 100]).expect("a file");
    let fault = "frame 2: truncated frame, expected 384 bytes, found 284";
    for (words, count) in [(["compare", "one.y4m", "late.y4m", "--json"].as_slice(), 1), (&["compare", "late.y4m", "one.y4m", "--json", "--skip", "1"], 0)] {
        let output = run(&room, words);
        let (text, error) = (String::from_utf8_lossy(&output.stdout), String::from_utf8_lossy(&output.stderr));
        assert_eq!((output.status.code(), error.as_ref()), (Some(2), format!("yuv: late.y4m: {fault}\n").as_str()));
        assert!(text.starts_with("{\n  \"frames\": [") && text.ends_with("\n}\n"), "{text}");
        assert!(text.contains(&format!("],\n  \"error\": \"{fault}\",\n  \"count\": {count}")), "{text}");
        assert_eq!((text.matches('{').count(), text.matches("\"frame\": ").count()), (text.matches('}').count(), count), "{text}");
    }
}

/// A name of 255 bytes, which is the maximum, is truncated so that each of a hundred suffixes fits. In this test, the first ten
/// suffixed names exist already.
#[test]
fn a_long_name_has_room_for_each_ending() {
    let room = Room::new("long");
    let name = "n".repeat(255);
    for number in 0..10 {
        let ending = if number == 0 { ".partial".to_string() } else { format!(".partial{number}") };
        for kept in 240..=255 - ending.len() {
            fs::write(room.folder().join(format!("{}{ending}", &name[..kept])), "taken").expect("a file");
        }
    }
    let output = run(&room, &["copy", "mono_7x5.y4m", &name]);
    assert_eq!((output.status.code(), String::from_utf8_lossy(&output.stderr).as_ref()), (Some(0), ""));
    let copied = fs::read(room.folder().join(&name)).expect("a copy");
    assert!(copied == fs::read(room.folder().join("mono_7x5.y4m")).expect("a file"));
}

#[test]
fn a_stream_that_breaks_off_has_its_whole_frames_told() {
    let room = Room::new("broken");
    let mut stream = flat_stream(10, &[[1, 2, 3]; 12]);
    stream.pop();
    fs::write(room.folder().join("one.y4m"), stream).expect("a file");
    let output = run(&room, &["info", "one.y4m"]);
    let (text, error) = (String::from_utf8_lossy(&output.stdout), String::from_utf8_lossy(&output.stderr));
    assert!(output.status.code() == Some(2) && text.ends_with("\nframes: 11\n"), "{text}");
    assert_eq!(error, "yuv: one.y4m: frame 12: truncated frame, expected 384 bytes, found 383\n");
}

#[test]
fn semi_planar_video_has_no_sums_of_planes() {
    let room = Room::new("semi_planar");
    fs::write(room.folder().join("one.yuv"), [0; 48]).expect("a file");
    for format in ["nv12", "nv21", "nv16", "nv24", "p010", "p012", "p016"] {
        let output = run(&room, &["sum", "--planes", "--raw", &format!("2x2:{format}"), "one.yuv"]);
        let error = String::from_utf8_lossy(&output.stderr);
        assert_eq!(output.status.code(), Some(2), "{format}");
        assert_eq!((output.stdout.len(), error.as_ref()), (0, "yuv: one.yuv: --planes requires planar video\n"), "{format}");
    }
}

/// If the target is standard output, it is reported by the name that was given for it, unless that is `-`.
#[test]
fn standard_output_has_the_name_that_it_was_given_by() {
    let room = Room::new("names");
    for (name, shown) in [("-", "standard output"), ("/dev/stdout", "/dev/stdout"), ("/proc/self/fd/1", "/proc/self/fd/1")] {
        let full = fs::OpenOptions::new().write(true).open("/dev/full").expect("a full device");
        let mut program = Command::new(env!("CARGO_BIN_EXE_yuv"));
        let output = program.args(["copy", "mono_7x5.y4m", name]).current_dir(room.folder()).stdout(full).output().expect("an output");
        let error = String::from_utf8_lossy(&output.stderr);
        assert_eq!((output.status.code(), error.as_ref()), (Some(2), format!("yuv: {shown}: write failed: No space left on device\n").as_str()));
    }
}

/// The sum of 65792 samples of 65535 exceeds 2^32.
#[test]
fn statistics_of_a_large_sum() {
    let room = Room::new("statistics");
    let mut stream = b"YUV4MPEG2 W257 H256 Cmono16\nFRAME\n".to_vec();
    stream.resize(stream.len() + 2 * 257 * 256, 255);
    fs::write(room.folder().join("one.y4m"), stream).expect("a file");
    let output = run(&room, &["stats", "one.y4m"]);
    let wanted = "Y: minimum 65535, maximum 65535, mean 65535.00, outside the nominal range 65792\n";
    assert_eq!((output.status.code(), String::from_utf8_lossy(&output.stdout).as_ref()), (Some(0), wanted));
}

/// A truncated frame of 40000 bytes is read in several parts if its samples are not needed.
#[test]
fn bytes_of_all_parts_of_a_frame_are_counted() {
    let room = Room::new("parts");
    for found in [1, 16383, 16384, 16385, 32768, 39999] {
        let mut stream = b"YUV4MPEG2 W200 H200 Cmono\nFRAME\n".to_vec();
        stream.resize(stream.len() + found, 7);
        fs::write(room.folder().join("one.y4m"), stream).expect("a file");
        for words in [&["info", "one.y4m"][..], &["copy", "one.y4m", "other.y4m"], &["sum", "one.y4m"], &["sum", "one.y4m", "--skip=1"]] {
            let output = run(&room, words);
            let wanted = format!("yuv: one.y4m: frame 1: truncated frame, expected 40000 bytes, found {found}\n");
            assert_eq!((output.status.code(), String::from_utf8_lossy(&output.stderr)), (Some(2), wanted.into()), "{words:?}");
        }
    }
}

/// A copy to another format removes only the extensions that state the format.
#[test]
fn copies_in_another_format_keep_other_extensions() {
    let room = Room::new("extensions");
    let stream = b"YUV4MPEG2 W2 H1 C420jpeg XYSCSS=420JPEG XYSCSS XYSCSSES=1 XCOLORRANGE=FULL XYSCSS=\nFRAME\nabcd";
    fs::write(room.folder().join("one.y4m"), stream).expect("a file");
    for (words, wanted) in [
        (&["copy", "one.y4m", "-", "--format=444"][..], &b"YUV4MPEG2 W2 H1 C444 XYSCSS XYSCSSES=1 XCOLORRANGE=FULL\nFRAME\nabccdd"[..]),
        (&["copy", "one.y4m", "-", "--format=gray"], b"YUV4MPEG2 W2 H1 Cmono XYSCSS XYSCSSES=1 XCOLORRANGE=FULL\nFRAME\nab"),
        (&["copy", "one.y4m", "-"], stream),
    ] {
        let output = run(&room, words);
        assert_eq!((output.status.code(), output.stdout.as_slice()), (Some(0), wanted), "{words:?}");
    }
}
