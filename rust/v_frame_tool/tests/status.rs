//! Tests the exit status of the program.
#![cfg(target_os = "linux")]

use std::fs::OpenOptions;
use std::process::{Command, Stdio};

#[test]
fn an_output_that_takes_nothing_is_a_failure() {
    let full = OpenOptions::new().write(true).open("/dev/full").expect("a full device");
    let mut program = Command::new(env!("CARGO_BIN_EXE_v_frame_tool"));
    let status = program.stdout(full).stderr(Stdio::null()).status().expect("a status");
    assert_eq!(status.code(), Some(1));
}
