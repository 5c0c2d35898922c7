//! The inputs of `examples/`: the stored input of `crates/examples` is made of these files, and its
//! stored answers are what this program computes. The format is in docs/EXAMPLES.md.
//! `WRITE_EXAMPLES=1 cargo test --test examples` writes both stored files anew.

use std::fs;
use std::path::{Path, PathBuf};

use second::script;

const NAME_WIDTH: usize = 40;

fn repository() -> PathBuf {
    PathBuf::from(env!("CARGO_MANIFEST_DIR")).join("..")
}

/// The files below a folder, each with its path from `examples/`, in the order of these paths.
fn inputs(folder: &Path, prefix: &str) -> Vec<(String, Vec<u8>)> {
    let mut found = Vec::new();
    for entry in fs::read_dir(folder).expect("examples/ can be read") {
        let path = entry.expect("an entry can be read").path();
        let file = path.file_name().expect("a name").to_string_lossy().into_owned();
        if path.is_dir() {
            found.extend(inputs(&path, &format!("{prefix}{file}/")));
        } else if let Some(stem) = file.strip_suffix(".txt") {
            found.push((format!("{prefix}{stem}"), fs::read(&path).expect("a file can be read")));
        }
    }
    found.sort();
    found
}

/// A name, padded with dots so that every header is equally long.
fn padded(name: &str) -> String {
    assert!(name.len() <= NAME_WIDTH, "{name} is longer than {NAME_WIDTH} bytes");
    format!("{name:.<NAME_WIDTH$}\n")
}

fn agrees(file: &str, made: &[u8]) {
    let path = repository().join("crates/examples").join(file);
    if std::env::var_os("WRITE_EXAMPLES").is_some() {
        fs::write(&path, made).expect("the stored file can be written");
    }
    let stored = fs::read(&path).expect("the stored file can be read");
    let same = stored.iter().zip(made).take_while(|(a, b)| a == b).count();
    assert!(stored == made, "crates/examples/{file} differs from byte {same} on");
}

#[test]
fn the_stored_input_is_made_of_the_files() {
    let mut made = Vec::new();
    for (name, input) in inputs(&repository().join("examples"), "") {
        made.extend_from_slice(padded(&name).as_bytes());
        made.extend_from_slice(format!("{:08x}", input.len()).as_bytes());
        made.extend_from_slice(&input);
    }
    agrees("stdin", &made);
}

#[test]
fn the_stored_answers_are_what_this_program_computes() {
    let mut made = String::new();
    for (name, input) in inputs(&repository().join("examples"), "") {
        made.push_str(&padded(&name));
        made.push_str(&script::answer(&input));
    }
    agrees("stdout", made.as_bytes());
}

#[test]
fn every_damaged_input_is_bad_and_no_other_is() {
    for (name, input) in inputs(&repository().join("examples"), "") {
        let is_bad = script::answer(&input).starts_with("bad\t");
        assert_eq!(is_bad, name.starts_with("bad/"), "{name}");
    }
}
