//! Cases in files: each line has a call and its arguments, an equals sign, and the expected values.

use super::planes::Layout;
use std::fmt::Debug;
use std::str::{FromStr, SplitWhitespace};

/// A line of a file.
pub struct Case<'a> {
    line: &'a str,
    given: SplitWhitespace<'a>,
    wanted: SplitWhitespace<'a>,
}

/// Returns the cases of a call. There is at least one.
pub fn cases<'a>(file: &'a str, call: &str) -> Vec<Case<'a>> {
    let cases: Vec<_> = file.lines().filter_map(|line| case(line, call)).collect();
    assert!(!cases.is_empty(), "no case of {call}");
    cases
}

/// Returns the case in a line, if it is one of this call.
fn case<'a>(line: &'a str, call: &str) -> Option<Case<'a>> {
    let (given, wanted) = line.split_once(" =")?;
    let mut given = given.split_whitespace();
    (given.next() == Some(call)).then(|| Case { line, given, wanted: wanted.split_whitespace() })
}

/// Returns the values of the first line with this name.
pub fn values<V: FromStr<Err: Debug>>(file: &str, name: &str) -> Vec<V> {
    cases(file, name)[0].wanted()
}

/// Returns the values of the line with this name, followed by this word.
pub fn values_of<V: FromStr<Err: Debug>>(file: &str, name: &str, word: &str) -> Vec<V> {
    let mut found = cases(file, name).into_iter();
    found.find_map(|mut case| (case.word() == word).then(|| case.wanted())).expect("a line of this name")
}

impl<'a> Case<'a> {
    /// Returns the next argument.
    pub fn word(&mut self) -> &'a str {
        self.given.next().unwrap_or_else(|| panic!("{self}: a word is missing"))
    }

    /// Returns the next argument, parsed as a number.
    pub fn number<V: FromStr<Err: Debug>>(&mut self) -> V {
        self.word().parse().unwrap_or_else(|error| panic!("{self}: {error:?}"))
    }

    /// Returns the next argument, parsed as a layout: `WIDTHxHEIGHT+LEFT+RIGHT+TOP+BOTTOM`.
    pub fn layout(&mut self) -> Layout {
        let numbers: Vec<usize> =
            self.word().split(['x', '+']).map(|number| number.parse().expect("a number")).collect();
        numbers.try_into().expect("six numbers")
    }

    /// Returns the expected values.
    pub fn wanted<V: FromStr<Err: Debug>>(&self) -> Vec<V> {
        self.wanted.clone().map(|value| value.parse().expect("a value")).collect()
    }

    /// Compares the values with the expected ones.
    #[track_caller]
    pub fn expect<V: FromStr<Err: Debug> + PartialEq + Debug>(&self, found: &[V]) {
        assert_eq!(found, self.wanted::<V>(), "{self}");
    }
}

impl std::fmt::Display for Case<'_> {
    fn fmt(&self, f: &mut std::fmt::Formatter<'_>) -> std::fmt::Result {
        f.write_str(self.line)
    }
}
