//! The files that the gate compares the proved library's vectors with are what this program
//! computes.

use std::fs;
use std::path::Path;

use second::vectors::{listing, vectors};

/// The number of the first line that differs, and that line on both sides; none if all agree.
fn first_difference(left: &str, right: &str) -> Option<String> {
    let (mut left, mut right) = (left.split_inclusive('\n'), right.split_inclusive('\n'));
    (1..).map(|number| (number, left.next(), right.next())).find_map(|lines| match lines {
        (_, None, None) => Some(None),
        (_, a, b) if a == b => None,
        (number, a, b) => Some(Some(format!("line {number}: file {a:?}, computed {b:?}"))),
    })?
}

/// Holds the stored file of a crate to what this subcommand writes.
fn agrees(name: &str, subcommand: &str, computed: &str) {
    let crates = Path::new(env!("CARGO_MANIFEST_DIR")).join("../crates");
    let path = crates.join(name).join("stdout");
    let file = fs::read_to_string(&path).unwrap_or_else(|error| {
        panic!("{}: {error}; write it with `second {subcommand}`", path.display())
    });
    if let Some(difference) = first_difference(&file, computed) {
        panic!("{} differs at {difference}", path.display());
    }
}

#[test]
fn the_file_is_what_is_computed() {
    agrees("vectors_isa", "vectors-isa", &vectors());
}

#[test]
fn the_file_of_the_listing_is_what_is_computed() {
    agrees("vectors_list", "vectors-list", &listing::vectors());
}

#[test]
fn a_difference_is_named_by_its_line() {
    assert_eq!(first_difference("a\nb\n", "a\nb\n"), None);
    let changed = first_difference("a\nb\n", "a\nc\n").expect("line 2 differs");
    assert!(changed.starts_with("line 2:"), "{changed}");
    let shorter = first_difference("a\n", "a\nb\n").expect("line 2 is missing");
    assert!(shorter.starts_with("line 2: file None"), "{shorter}");
    let unended = first_difference("a\nb\n", "a\nb").expect("line 2 has no newline");
    assert!(unended.starts_with("line 2:"), "{unended}");
}
