//! The recorded runs of `yuv`: a line with the arguments of each, the files that they read, and the expected output.

use std::fs;
use std::path::{Path, PathBuf};

/// A run: its arguments, the file that is its standard input, the number of bytes that its standard output accepts, and the
/// file whose bytes it should write there. Such output is not printed.
pub struct Case {
    pub line: String,
    pub words: Vec<String>,
    pub input: Option<String>,
    pub room: Option<usize>,
    output: Option<String>,
    wanted: Vec<u8>,
}

/// A directory with the files, which is removed at the end. A file that a run writes there is there for the next run.
pub struct Room(PathBuf);

impl Room {
    /// Copies the files.
    pub fn new(name: &str) -> Self {
        let folder = std::env::temp_dir().join(format!("yuv-{name}-{}", std::process::id()));
        fs::create_dir(&folder).expect("a folder");
        let room = Room(folder);
        for file in fs::read_dir(kept().join("data")).expect("files") {
            let file = file.expect("a file");
            fs::copy(file.path(), room.folder().join(file.file_name())).expect("a copy");
        }
        room
    }

    /// Returns the directory.
    pub fn folder(&self) -> &Path {
        &self.0
    }
}

impl Drop for Room {
    fn drop(&mut self) {
        let _ = fs::remove_dir_all(&self.0);
    }
}

/// Returns the directory of the recorded runs.
fn kept() -> PathBuf {
    Path::new(env!("CARGO_MANIFEST_DIR")).join("../../crates/test_yuv_runs")
}

/// Returns the runs in their order.
pub fn cases() -> Vec<Case> {
    let text = fs::read_to_string(kept().join("stdin")).expect("the runs");
    let printed = fs::read(kept().join("stdout")).expect("what they print");
    let mut left = printed.as_slice();
    let lines: Vec<&str> = text.lines().collect();
    let mut cases = Vec::new();
    for (number, line) in lines.iter().enumerate() {
        let next = lines.get(number + 1).map(|next| format!("\n$ yuv {next}\n"));
        let end = next.map_or(left.len(), |next| 1 + position(left, next.as_bytes()));
        cases.push(case(line, &left[..end]));
        left = &left[end..];
    }
    cases
}

/// Returns the position of `wanted` in `bytes`.
fn position(bytes: &[u8], wanted: &[u8]) -> usize {
    let mut windows = bytes.windows(wanted.len());
    windows.position(|window| window == wanted).expect("the next run")
}

/// Returns the run of a line.
fn case(line: &str, wanted: &[u8]) -> Case {
    let (rest, output) = parted(line, " = ");
    let (rest, room) = parted(rest, " | ");
    let (rest, input) = parted(rest, " < ");
    Case {
        line: line.to_string(),
        words: rest.split_whitespace().map(str::to_string).collect(),
        input: input.map(str::to_string),
        room: room.map(|room| room.parse().expect("a number")),
        output: output.map(str::to_string),
        wanted: wanted.to_vec(),
    }
}

/// Returns the text in front of a mark, and the text after it.
fn parted<'a>(line: &'a str, mark: &str) -> (&'a str, Option<&'a str>) {
    line.split_once(mark).map_or((line, None), |(front, back)| (front, Some(back)))
}

impl Case {
    /// Returns the bytes of standard input.
    pub fn given(&self, room: &Room) -> Vec<u8> {
        let file = self.input.as_ref().map(|name| room.folder().join(name));
        file.map_or(Vec::new(), |file| fs::read(file).expect("standard input"))
    }

    /// Checks the output and the exit status of a run.
    pub fn check(&self, room: &Room, written: &[u8], error: &[u8], status: u8) {
        let mut told = format!("$ yuv {}\n", self.line).into_bytes();
        match &self.output {
            Some(name) => {
                let same = written == fs::read(room.folder().join(name)).expect("an output");
                let words = if same { "those" } else { "and not those" };
                told.extend(format!("{} bytes, {words} of {name}\n", written.len()).bytes());
            }
            None => told.extend(written),
        }
        told.extend(error);
        told.extend(format!("status {status}\n").bytes());
        let (told, wanted) = (String::from_utf8_lossy(&told), String::from_utf8_lossy(&self.wanted));
        assert_eq!(told, wanted);
    }
}
