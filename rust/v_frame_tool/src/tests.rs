//! Compares the error messages of the program with the table of all error messages.

use crate::generated::v_frame_tool_run::fault::ToolFault;
use v_frame_proved::frame::FrameError;
use v_frame_proved::plane::CopyError;

const TABLE: &str = include_str!("../../v_frame_proved/tests/data/error_texts.txt");

#[test]
fn faults_say_why() {
    let faults = [
        ("Frame", ToolFault::Frame(FrameError::UnsupportedBitDepth { found: 17 })),
        ("Copy", ToolFault::Copy(CopyError::InvalidStride { stride: 3, width: 4 })),
        ("OutOfMemory", ToolFault::OutOfMemory),
        ("Output", ToolFault::Output),
        ("WriteZero", ToolFault::WriteZero),
    ];
    let rows: Vec<&str> = TABLE.lines().filter(|row| row.starts_with("v_frame_tool_run ")).collect();
    let shown = faults.iter().map(|(name, fault)| format!("v_frame_tool_run ToolFault::{name} | {fault}"));
    assert_eq!(shown.collect::<Vec<_>>(), rows);
}
