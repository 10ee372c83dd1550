//! Finds the assertions of public functions in the sources of the crate.

use std::fs;
use std::path::{Path, PathBuf};

/// A public function with assertions.
pub struct Asserting {
    /// Its public path.
    pub function: String,
    /// The messages of its assertions, with names in braces.
    pub messages: Vec<String>,
}

/// Returns the functions with assertions in all generated sources.
pub fn asserting_functions() -> Vec<Asserting> {
    let root = Path::new(env!("CARGO_MANIFEST_DIR")).join("src/generated");
    let mut files = Vec::new();
    collect_files(&root, &mut files);
    files.iter().flat_map(|file| functions_of(&module_of(file.strip_prefix(&root).expect("below")), file)).collect()
}

fn collect_files(folder: &Path, files: &mut Vec<PathBuf>) {
    for entry in fs::read_dir(folder).expect("a folder") {
        let path = entry.expect("an entry").path();
        if path.is_dir() {
            collect_files(&path, files);
        } else {
            files.push(path);
        }
    }
}

/// Returns the public module of a file, such as `ops::rows` for `v_frame_ops/rows/change.rs`.
fn module_of(file: &Path) -> String {
    let parts: Vec<_> = file.iter().map(|part| part.to_str().expect("text")).collect();
    let module = match (parts[0], parts[1]) {
        ("v_frame_raster", "geometry.rs") => "plane",
        ("v_frame_raster", _) => "pixel",
        (name, _) => name.strip_prefix("v_frame_").unwrap_or(name),
    };
    if matches!(parts[1], "rows" | "rows.rs") { format!("{module}::rows") } else { module.to_string() }
}

/// Returns the public functions with assertions in a file. Their panics are reported at the caller's line.
fn functions_of(module: &str, file: &Path) -> Vec<Asserting> {
    let text = fs::read_to_string(file).expect("a source");
    let lines: Vec<&str> = text.lines().collect();
    let mut found = Vec::new();
    let mut of_type = String::new();
    for (number, line) in lines.iter().enumerate() {
        if line.starts_with("impl") {
            of_type = format!("::{}", type_of(line));
        } else if *line == "}" {
            of_type.clear();
        } else if let Some(function) = line.trim_start().strip_prefix("pub fn ") {
            let name = function.split(['<', '(']).next().expect("a name");
            let messages = messages_of(&lines[number..]);
            let mut attributes = lines[..number].iter().rev().map_while(|line| line.trim_start().strip_prefix("#["));
            let is_reported_there = attributes.any(|attribute| attribute == "track_caller]");
            assert_eq!(is_reported_there, !messages.is_empty(), "{name} of {}", file.display());
            if is_reported_there {
                found.push(Asserting { function: format!("{module}{of_type}::{name}"), messages });
            }
        }
    }
    found
}

/// Returns the type in the first line of an `impl`, without its parameters.
fn type_of(line: &str) -> &str {
    let line = line.trim_start_matches("impl").trim_end_matches('{').trim();
    let own = line.rsplit_once("> ").map_or(line, |(_, own)| own);
    own.split('<').next().unwrap_or(own)
}

/// Returns the messages of the assertions of the function that begins here.
fn messages_of(lines: &[&str]) -> Vec<String> {
    let margin = lines[0].len() - lines[0].trim_start().len();
    let end = format!("{}}}", " ".repeat(margin));
    let length = lines.iter().position(|line| *line == end).expect("an end");
    lines[..length].join("\n").split(" assert!(").skip(1).map(message_of).collect()
}

/// Returns the message of an assertion.
fn message_of(assertion: &str) -> String {
    assertion.split('"').nth(1).expect("each assertion has a text").to_string()
}

/// Returns whether `message` is an instance of the pattern `text`, in which braces stand for any text.
pub fn is_made_from(message: &str, text: &str) -> bool {
    let mut pieces = text.split('{').map(|piece| piece.split_once('}').map_or(piece, |(_, behind)| behind));
    let Some(mut rest) = pieces.next().and_then(|first| message.strip_prefix(first)) else {
        return false;
    };
    pieces.all(|piece| match rest.split_once(piece) {
        Some((_, behind)) => {
            rest = behind;
            true
        }
        None => piece.is_empty(),
    })
}
