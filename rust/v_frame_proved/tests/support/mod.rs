//! Helpers of several test files.

// Each test file is compiled as a program, and none of them uses all helpers.
#![allow(dead_code, unused_macros, unused_imports)]

pub mod cases;
pub mod draws;
pub mod planes;
pub mod streams;

/// Calls a function for the pixel type that the first argument of a case names.
macro_rules! for_type {
    ($call:ident, $case:expr) => {{
        let mut case = $case;
        match case.word() {
            "u8" => $call::<u8>(case),
            "u16" => $call::<u16>(case),
            other => panic!("no type of pixels: {other}"),
        }
    }};
}

/// Calls a function for the two pixel types that the first arguments of a case name.
macro_rules! for_types {
    ($call:ident, $case:expr) => {{
        let mut case = $case;
        match (case.word(), case.word()) {
            ("u8", "u8") => $call::<u8, u8>(case),
            ("u8", "u16") => $call::<u8, u16>(case),
            ("u16", "u8") => $call::<u16, u8>(case),
            ("u16", "u16") => $call::<u16, u16>(case),
            others => panic!("no types of pixels: {others:?}"),
        }
    }};
}

pub(crate) use {for_type, for_types};
