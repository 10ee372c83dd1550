//! Tests of the parts of the program with streams in memory.

mod cases;
mod error_texts;
mod large_sums;
mod progress;
mod runs;
mod support;
mod words;
