//! Tables and fenced blocks of a page.

use std::fs;
use std::path::{Path, PathBuf};

/// A place in the repository.
fn path(place: &str) -> PathBuf {
    Path::new(env!("CARGO_MANIFEST_DIR")).join("..").join(place)
}

/// A file of the repository.
pub fn file(place: &str) -> String {
    fs::read_to_string(path(place)).unwrap_or_else(|error| panic!("{place}: {error}"))
}

/// A page of `docs/`.
pub fn page(name: &str) -> String {
    file(&format!("docs/{name}"))
}

/// The cells of a table's line, without backticks.
fn cells(line: &str) -> Option<Vec<String>> {
    let inside = line.strip_prefix('|')?.strip_suffix('|')?;
    Some(inside.split('|').map(|cell| cell.trim().replace('`', "")).collect())
}

/// The rows of every table that has exactly these columns, which are one at least.
pub fn rows<const N: usize>(page: &str, columns: [&str; N]) -> Vec<[String; N]> {
    let mut rows = Vec::new();
    let mut lines = page.lines();
    while let Some(line) = lines.next() {
        if cells(line).is_some_and(|header| header == columns) {
            let ruler = lines.next().expect("a line below the header");
            assert!(ruler.starts_with("|---|"), "{ruler:?} below the header");
            rows.extend(lines.by_ref().map_while(cells).map(|row| {
                row.try_into().unwrap_or_else(|row| panic!("{row:?} has not {N} cells"))
            }));
        }
    }
    assert!(!rows.is_empty(), "no table with the columns {columns:?}");
    rows
}

/// The fenced blocks whose fence names this kind, which are one at least.
pub fn blocks(page: &str, kind: &str) -> Vec<String> {
    let fence = format!("\n```{kind}\n");
    let end = |rest: &str| rest.find("```\n").expect("a fence that ends the block");
    let found: Vec<String> =
        page.split(&fence).skip(1).map(|rest| rest[..end(rest)].into()).collect();
    assert!(!found.is_empty(), "no block of the kind {kind:?}");
    found
}

/// The pages name no file and no decision that isn't there.
#[test]
fn what_the_pages_name_is_there() {
    let decisions = page("DECISIONS.md");
    for page in ["MANIK.md", "PROGRAM.md", "ASSEMBLER.md"].map(page) {
        for name in page.split('`').filter(|name| name.ends_with(".antt") || name.ends_with(".h")) {
            assert!(path(name).exists(), "{name}");
        }
        for rest in page.split("decision ").skip(1) {
            let number: String = rest.chars().take_while(char::is_ascii_digit).collect();
            assert!(decisions.contains(&format!("\n{number}. **")), "decision {number}");
        }
    }
}
