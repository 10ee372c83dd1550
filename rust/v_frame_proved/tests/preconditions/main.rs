//! Preconditions of public functions, each violated once: the call panics at the caller's line, and the message contains the
//! numbers.

#![cfg(feature = "std")]

mod case;
mod colors;
mod conversions;
mod interleaved;
mod numbers;
mod operations;
mod pictures;
mod planes;
mod sources;
mod turns;

use case::{Case, Report, reports};
use sources::{asserting_functions, is_made_from};
use std::collections::BTreeSet;
use std::sync::LazyLock;

/// Functions with assertions that no call in a test can violate, and the number of these assertions.
const UNBREAKABLE: [(&str, usize); 3] = [
    // A plane cannot have a width or a height of 2^62, since no buffer is large enough.
    ("resize::resize_nearest", 4),
    // The product of two sizes would have to be 2^64, or the source would have 2^48 pixels. Both need buffers of at least 2^32
    // bytes.
    ("resize::resize_area", 1),
    ("resize::rows::resize_area", 1),
];

/// Functions that are written by hand and report the caller's line.
const BY_HAND: [&str; 2] = ["Index::index", "IndexMut::index_mut"];

/// All cases, with the report of each.
static REPORTED: LazyLock<Vec<(&Case, Option<Report>)>> = LazyLock::new(|| {
    let tables = [
        colors::CASES,
        conversions::CASES,
        interleaved::CASES,
        numbers::CASES,
        operations::CASES,
        planes::CASES,
        turns::CASES,
    ];
    let cases: Vec<&Case> = tables.into_iter().flatten().collect();
    let reports = reports(&cases);
    cases.into_iter().zip(reports).collect()
});

/// Returns what is wrong with a report, if anything is.
fn fault(case: &Case, report: Option<&Report>) -> Option<String> {
    let Some(Report { message, place: (file, line) }) = report else {
        return Some("is not stopped".to_string());
    };
    if (file.as_str(), *line) != case.place {
        return Some(format!("is stopped at {file}:{line}: {message}"));
    }
    (!message.contains(case.message)).then(|| format!("is stopped by another message: {message}"))
}

#[test]
fn a_broken_condition_is_reported_at_the_callers_line() {
    let faults: Vec<_> = REPORTED
        .iter()
        .filter_map(|(case, report)| {
            let (file, line) = case.place;
            fault(case, report.as_ref()).map(|fault| format!("{file}:{line}: {} {fault}", case.function))
        })
        .collect();
    assert!(faults.is_empty(), "{}", faults.join("\n"));
}

/// Returns the path of a function, without types.
fn without_types(path: &str) -> String {
    let parts = path.split_once("::<").and_then(|(front, rest)| Some((front, rest.split_once('>')?.1)));
    parts.map_or(path.to_string(), |(front, behind)| format!("{front}{behind}"))
}

/// Returns the messages of a function.
fn messages_of(function: &str) -> BTreeSet<&'static str> {
    let of_function = REPORTED.iter().filter(|(case, _)| without_types(case.function) == function);
    of_function.filter_map(|(_, report)| report.as_ref()).map(|report| report.message.as_str()).collect()
}

#[test]
fn no_assertion_is_left_out() {
    let functions = asserting_functions();
    for asserting in &functions {
        let messages = messages_of(&asserting.function);
        let unbreakable = UNBREAKABLE.iter().find(|(function, _)| *function == asserting.function);
        let left = unbreakable.map_or(0, |(_, count)| *count);
        let is_broken = |text: &&String| messages.iter().any(|message| is_made_from(message, text));
        let unbroken: Vec<_> = asserting.messages.iter().filter(|text| !is_broken(text)).collect();
        assert_eq!(unbroken.len(), left, "{} is not stopped by: {unbroken:?}", asserting.function);
        // Several assertions of a function may have the same message.
        assert!(messages.len() + left >= asserting.messages.len(), "{} has too few cases", asserting.function);
    }
    let asserts = |name: &str| functions.iter().any(|asserting| asserting.function == name);
    for (case, _) in REPORTED.iter() {
        let name = without_types(case.function);
        assert!(asserts(&name) || BY_HAND.contains(&name.as_str()), "{name} asserts nothing");
    }
}
