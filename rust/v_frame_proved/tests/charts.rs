//! Charts whose writes fail after some bytes, or accept no more bytes, and the labels of the vertical axis.

#![cfg(feature = "std")]

mod support;

use std::io::ErrorKind;
use support::streams::{Then, writer};
use v_frame_proved::chart::{Chart, Series, svg, write_svg};

#[test]
fn each_write_of_a_chart_fails_in_turn() {
    let series = [Series { name: "Y", values: &[1.0, 2.0] }];
    let chart = Chart { title: "title", unit: "unit", first: 1, series: &series };
    let file = svg(&chart).expect("drawn").into_bytes();
    for count in [0, 1, 5, 6, 700, file.len() - 1] {
        for (then, kind) in
            [(Then::Fails(ErrorKind::StorageFull), ErrorKind::StorageFull), (Then::TakesNone, ErrorKind::WriteZero)]
        {
            let mut out = writer(5).after_bytes(count, then);
            let error = write_svg(&mut out, &chart).expect_err("a failure");
            assert_eq!((error.kind(), out.taken.as_slice()), (kind, &file[..count]), "after {count} bytes");
        }
    }
}

/// Returns the labels of the vertical axis of a chart of these values, from the bottom.
fn labels(values: &[f64]) -> String {
    let series = [Series { name: "Y", values }];
    let text = svg(&Chart { title: "title", unit: "unit", first: 1, series: &series }).expect("drawn");
    let labels: Vec<_> = text.lines().filter(|line| line.contains(" dy=\"4\" ")).collect();
    let texts = labels.iter().map(|it| it.trim_end_matches("</text>").rsplit('>').next().unwrap());
    texts.collect::<Vec<_>>().join(" ")
}

/// A step is the smallest of 1, 2 and 5 times a power of ten that is at least a sixth of the range of the values, and the ends
/// of the axis are multiples of it. The labels were computed with Python's fractions. If all values are
/// equal, the other end is 0.
#[test]
fn an_axis_has_few_and_round_steps() {
    let cases: [(&[f64], &str); 19] = [
        (&[0.0, 1.0], "0.0 0.2 0.4 0.6 0.8 1.0"),
        (&[36.5, 43.0], "36 38 40 42 44"),
        (&[-1.0, 1.0], "-1.0 -0.5 0.0 0.5 1.0"),
        (&[0.0, 6.0], "0 1 2 3 4 5 6"),
        (&[6.5, 0.0], "0 2 4 6 8"),
        (&[0.0, 13.0, f64::INFINITY], "0 5 10 15"),
        (&[-250.0, 1250.0], "-500 0 500 1000 1500"),
        (&[0.998, 0.9991], "0.9980 0.9982 0.9984 0.9986 0.9988 0.9990 0.9992"),
        (&[5.0, 5.0], "0 1 2 3 4 5"),
        (&[-3.0, -3.0], "-3.0 -2.5 -2.0 -1.5 -1.0 -0.5 0.0"),
        (&[0.0, 0.0], "0.0 0.2 0.4 0.6 0.8 1.0"),
        (&[0.0, 30.0], "0 5 10 15 20 25 30"),
        (&[1e12, 6e12], "1e12 2e12 3e12 4e12 5e12 6e12"),
        (&[0.0, 3e-11], "0 5e-12 10e-12 15e-12 20e-12 25e-12 30e-12"),
        (&[1e15, 1e15], "0 2e14 4e14 6e14 8e14 10e14"),
        // Divided by the step, the value farthest from 0 is an integer in floating-point numbers, but in exact arithmetic it
        // exceeds that integer.
        (&[-0.02, 0.030000000000000002], "-0.02 -0.01 0.00 0.01 0.02 0.03 0.04"),
        (&[-0.030000000000000002, 0.02], "-0.04 -0.03 -0.02 -0.01 0.00 0.01 0.02"),
        (&[f64::NAN], "0.0 0.2 0.4 0.6 0.8 1.0"),
        (&[], "0.0 0.2 0.4 0.6 0.8 1.0"),
    ];
    for (values, wanted) in cases {
        assert_eq!(labels(values), wanted, "{values:?}");
    }
}

#[test]
fn marks_of_large_numbers_are_evenly_apart() {
    let series = [Series { name: "Y", values: &[16_777_216.0, 16_777_221.0] }];
    let text = svg(&Chart { title: "title", unit: "unit", first: 1, series: &series }).expect("drawn");
    let labels = text.lines().filter(|line| line.contains(" dy=\"4\" ")).filter_map(|line| line.strip_prefix("<text x=\"68\" y=\""));
    let places: Vec<f64> = labels.map(|line| line.split('"').next().unwrap().parse().expect("a number")).collect();
    let first = places[1] - places[0];
    assert!(first < -1.0, "{places:?}");
    assert!(places.windows(2).all(|pair| (pair[1] - pair[0] - first).abs() < 0.11), "{places:?}");
}

/// Returns the chart of `count` series with these values, whose first frame has the number `first`.
fn chart_of(title: &str, first: u64, count: usize, values: &[f64]) -> String {
    let series = vec![Series { name: "Y", values }; count];
    svg(&Chart { title, unit: "unit", first, series: &series }).expect("drawn")
}

#[test]
fn frames_whose_number_is_a_multiple_of_the_step_are_marked() {
    for (first, count, wanted) in [(0, 5, "0 1 2 3 4"), (10, 5, "10 11 12 13 14"), (1, 5, "1 2 3 4 5"), (1, 1, "1"), (7, 1, "7")] {
        let text = chart_of("title", first, 1, &vec![0.0; count]);
        let marks = text.lines().filter(|line| line.contains(" y=\"177\" "));
        let numbers: Vec<_> = marks.map(|line| line.trim_end_matches("</text>").rsplit('>').next().unwrap()).collect();
        assert_eq!(numbers.join(" "), wanted, "from {first} on");
    }
}

#[test]
fn letters_that_xml_does_not_allow_are_replaced() {
    let text = chart_of("a\tb\nc\rd\0e\u{1f}f\u{fffe}g\u{ffff}h\u{10ffff}i\u{7f}<&>", 1, 1, &[0.0]);
    assert!(text.contains("a\tb\nc\rd?e?f?g?h\u{10ffff}i\u{7f}&lt;&amp;&gt;"), "{text}");
}

#[test]
fn colors_come_round_behind_the_seventh() {
    let text = chart_of("title", 1, 9, &[1.0, 2.0]);
    let lines: Vec<_> = text.lines().filter_map(|line| line.split_once("stroke=\"#").map(|it| &it.1[..6])).collect();
    let colors = ["0072b2", "d55e00", "009e73", "cc79a7", "e69f00", "56b4e9", "000000", "0072b2", "d55e00"];
    assert_eq!(lines[lines.len() - 9..], colors);
}

/// Values of plus infinity have marks at the top, in the row and the color of their series, and a note.
#[test]
fn infinite_values_have_marks_at_the_top() {
    let note = "<text x=\"924\" y=\"16\" text-anchor=\"end\">marks at the top: infinite, as of identical frames</text>\n";
    let marks = |text: &str, color: &str| {
        let head = format!("<path fill=\"none\" stroke=\"#{color}\" stroke-width=\"12\" d=\"");
        text.lines().find_map(|line| Some(line.strip_prefix(head.as_str())?.trim_end_matches("\"/>").to_string()))
    };
    let text = chart_of("title", 1, 1, &[1.0, f64::INFINITY, 2.0, f64::NEG_INFINITY, f64::INFINITY]);
    assert_eq!(marks(&text, "0072b2").as_deref(), Some("M288.0 38v3M924.0 38v3"));
    assert!(text.contains(note), "{text}");
    let text = chart_of("title", 1, 4, &[f64::INFINITY, 1.0]);
    for (color, wanted) in [("0072b2", "M76.0 38v3"), ("d55e00", "M76.0 41v3"), ("009e73", "M76.0 44v3"), ("cc79a7", "M76.0 38v3")] {
        assert_eq!(marks(&text, color).as_deref(), Some(wanted));
    }
    for values in [&[1.0, 2.0][..], &[f64::NAN], &[f64::NEG_INFINITY], &[f64::MAX]] {
        let text = chart_of("title", 1, 1, values);
        assert!(marks(&text, "0072b2").is_none() && !text.contains("marks at the top"), "{values:?}");
    }
    // Of 1,000 values in 848 columns the last one is in a column with another.
    let mut values = vec![0.0; 1000];
    values[999] = f64::INFINITY;
    let text = chart_of("title", 1, 1, &values);
    assert!(text.contains("stroke-width=\"2\" d=\"M923.6 38v3\"/>"), "frames 999 and 1000 are one column");
}

/// A band from the smallest to the largest value is drawn behind a line if a column has several values.
#[test]
fn only_columns_of_several_values_have_a_band() {
    for (count, banded) in [(2, false), (847, false), (848, false), (849, true), (2000, true)] {
        let values: Vec<f64> = (0..count).map(f64::from).collect();
        assert_eq!(chart_of("title", 1, 1, &values).contains("stroke-opacity=\"0.3\""), banded, "{count} values");
        assert_eq!(chart_of("title", 1, 1, &values).contains(">line: mean; band: minimum to maximum</text>"), banded, "{count} values");
    }
}
