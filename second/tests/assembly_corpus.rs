//! The stored cases of the assembler: the files are what this program computes, and the edges get
//! the answers that document 02 gives them.

use std::fs;
use std::path::PathBuf;

use second::corpus::{
    assembly_answers_file, assembly_cases, assembly_cases_file, assembly_edges, AssemblyCase,
    AssemblyCoverage, AssemblyEdge, LONGEST_ASSEMBLY_IMAGE, LONGEST_ASSEMBLY_TEXT,
};

/// The bytes of a stored file; if it is missing, the message tells how to write it.
fn stored(name: &str, subcommand: &str) -> Vec<u8> {
    let path = PathBuf::from(env!("CARGO_MANIFEST_DIR")).join("../crates/vectors_asm").join(name);
    fs::read(&path).unwrap_or_else(|error| {
        let path = path.display();
        panic!("{path}: {error}; write it with `cargo run --release -- {subcommand} > {path}`")
    })
}

#[test]
fn the_stored_cases_are_what_is_computed() {
    let file = stored("stdin", "assembly-cases");
    let mut rest = &file[..];
    for (number, case) in (1..).zip(assembly_cases()) {
        let behind = rest.strip_prefix(&case.bytes()[..]);
        rest = behind.unwrap_or_else(|| panic!("`assembly-cases` has another case {number}"));
    }
    assert!(rest.is_empty(), "{} bytes behind the last case", rest.len());
    assert!(file == assembly_cases_file());
}

#[test]
fn the_stored_answers_are_what_is_computed() {
    let file = String::from_utf8(stored("stdout", "assembly-answers")).expect("plain text");
    for ((number, line), case) in (1..).zip(file.split_inclusive('\n')).zip(assembly_cases()) {
        assert_eq!(line, case.answer(), "line {number}");
    }
    assert_eq!(file, assembly_answers_file());
}

/// Takes this many bytes away from the front.
fn take<'b>(bytes: &mut &'b [u8], count: usize) -> &'b [u8] {
    let (front, behind) = bytes.split_at(count);
    *bytes = behind;
    front
}

fn take_number(bytes: &mut &[u8]) -> usize {
    u32::from_be_bytes(take(bytes, 4).try_into().expect("four bytes")) as usize
}

/// The next case of a file, by `docs/CORPUS.md`.
fn read_case(bytes: &mut &[u8]) -> AssemblyCase {
    let [text, image] = [(); 2].map(|()| take_number(bytes));
    let start = u64::from_be_bytes(take(bytes, 8).try_into().expect("eight bytes")) as usize;
    let [text, image] = [text, image].map(|length| take(bytes, length).to_vec());
    AssemblyCase { text, start, image }
}

#[test]
fn the_stored_cases_read_back_give_the_stored_answers() {
    let (file, mut answers) = (stored("stdin", "assembly-cases"), String::new());
    assert!(file.len() < 1_000_000, "{} bytes", file.len());
    let mut rest = &file[..];
    while !rest.is_empty() {
        let case = read_case(&mut rest);
        assert!(case.text.len() <= LONGEST_ASSEMBLY_TEXT);
        assert!(case.image.len() <= LONGEST_ASSEMBLY_IMAGE);
        answers += &case.answer();
    }
    assert!(stored("stdout", "assembly-answers") == answers.as_bytes());
}

#[test]
fn the_edges_get_the_answers_of_document_02() {
    for AssemblyEdge { case, reply, line } in assembly_edges() {
        let (answer, image) = case.assemble();
        let text = String::from_utf8_lossy(&case.text);
        let found = answer.map_or_else(|no| (no.number, no.line), |done| (0, done.lines));
        assert_eq!(found, (reply, line), "{text:?}, {} of {}", case.start, image.len());
    }
}

#[test]
fn every_refusal_is_among_the_edges_and_among_the_generated() {
    let edges = assembly_edges();
    let mut cases = assembly_cases();
    let generated = cases.split_off(cases.len() - 1_500);
    assert!(cases.ends_with(&edges.iter().map(|edge| edge.case.clone()).collect::<Vec<_>>()));
    for number in 29..=36 {
        let refused = edges.iter().filter(|edge| edge.reply == number).count();
        assert!(refused >= 3, "{refused} edges with {number}");
        let start = format!("{number}\t");
        assert!(generated.iter().any(|case| case.answer().starts_with(&start)), "{number}");
    }
}

/// Every mnemonic is assembled, and every class of texts is there.
#[test]
fn no_line_of_the_coverage_is_zero() {
    let mut coverage = AssemblyCoverage::new();
    for case in assembly_cases() {
        let (answer, _) = case.assemble();
        coverage.add(&case, answer);
    }
    for (kind, name, count) in &coverage.lines {
        assert!(*count > 0, "no {kind}, {name}");
    }
}
