//! The contents of the package in addition to its code: the examples of the README, which can be pasted unchanged, and the
//! license.

/// Returns the code blocks of Rust in the README.
fn examples() -> Vec<&'static str> {
    let parts = include_str!("../README.md").split("```rust\n").skip(1);
    parts.map(|part| part.split_once("\n```\n").expect("an end of the block").0).collect()
}

#[test]
fn examples_of_the_readme_are_whole_programs() {
    let examples = examples();
    assert_eq!(examples.len(), 4);
    for example in examples {
        assert!(example.starts_with("use "), "{example}");
        assert!(example.contains("\nfn main() -> Result<(), "), "{example}");
        // rustdoc hides such lines, but other viewers show them.
        assert!(example.lines().all(|line| line != "#" && !line.starts_with("# ")), "{example}");
    }
}

#[test]
fn the_license_is_beside_the_manifest() {
    assert!(include_str!("../LICENSE").starts_with("BSD 2-Clause License\n"));
}
