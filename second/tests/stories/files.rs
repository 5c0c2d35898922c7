//! The repository's files as the stories read them.

use std::fs::{self, DirEntry};
use std::io;
use std::ops::Range;
use std::path::{Path, PathBuf};

use second::listing::{list, LONGEST_LINE};
use second::script::answer;

fn root() -> PathBuf {
    Path::new(env!("CARGO_MANIFEST_DIR")).join("..")
}

/// A file of the repository.
pub fn file(place: &str) -> String {
    fs::read_to_string(root().join(place)).unwrap_or_else(|error| panic!("{place}: {error}"))
}

pub fn example(name: &str) -> String {
    file(&format!("examples/{name}"))
}

pub fn image(name: &str) -> Vec<u8> {
    bytes(&format!("examples/{name}"))
}

/// The bytes of a file of the repository.
pub fn bytes(place: &str) -> Vec<u8> {
    fs::read(root().join(place)).unwrap_or_else(|error| panic!("{place}: {error}"))
}

/// The names of a folder's files, in order.
pub fn files(folder: &str) -> Vec<String> {
    let entries =
        fs::read_dir(root().join(folder)).unwrap_or_else(|error| panic!("{folder}: {error}"));
    let name = |entry: io::Result<DirEntry>| entry.expect("an entry").file_name().into_string();
    let mut names: Vec<String> = entries.map(|entry| name(entry).expect("plain text")).collect();
    names.sort();
    names
}

/// The answer's values on the lines with these names; of a register that isn't written, eight zeros.
pub fn values<const N: usize>(input: &str, names: [&str; N]) -> [String; N] {
    let answer = answer(input.as_bytes());
    names.map(|name| {
        let start = format!("{name}\t");
        let value = answer.lines().find_map(|line| line.strip_prefix(&start));
        value.unwrap_or("00000000").into()
    })
}

/// Memory as the lines of an input fill it.
pub fn memory(input: &str) -> Vec<u8> {
    let mut memory = Vec::new();
    for line in input.lines() {
        match line.split('\t').collect::<Vec<_>>()[..] {
            ["mem", size] => memory.resize(size.parse().expect("a decimal"), 0),
            ["at", address, bytes] => {
                let start = usize::from_str_radix(address, 16).expect("an address");
                let bytes = hex(bytes);
                memory[start..start + bytes.len()].copy_from_slice(&bytes);
            }
            _ => {}
        }
    }
    memory
}

pub fn hex(digits: &str) -> Vec<u8> {
    let byte = |i| u8::from_str_radix(&digits[i..i + 2], 16).expect("two hex digits");
    (0..digits.len()).step_by(2).map(byte).collect()
}

/// The listing of a part of memory.
pub fn listing(memory: &[u8], range: Range<usize>) -> String {
    let mut out = vec![0; LONGEST_LINE * range.len()];
    let length = list(memory, range.start, range.end, &mut out).expect("a range");
    String::from_utf8_lossy(&out[..length]).into()
}
