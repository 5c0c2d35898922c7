//! The assembler sources of `examples/`: what they become is the memory of the inputs beside them.

use second::assemble::{assemble, Assembled};
use second::corpus::assembly_cases;

use crate::files::{bytes, example, files, image, memory};

/// The sources, each with the place behind its last line. That is the end of the key state in the
/// first three.
const SOURCES: [(&str, usize); 7] = [
    ("build31", 0xe0),
    ("build32", 0xe0),
    ("leak", 0xe0),
    ("buserror", 0x4a),
    ("buserror_lost", 0x4a),
    ("shifts", 0x38),
    ("shifts_secret", 0x38),
];

fn source(name: &str) -> String {
    example(&format!("{name}.s"))
}

#[test]
fn a_source_becomes_the_memory_of_its_input() {
    for (name, end) in SOURCES {
        let (source, image) = (source(name), image(&format!("{name}.image")));
        let (lines, mut made) = (source.lines().count(), vec![0; image.len()]);
        let assembled = assemble(source.as_bytes(), 0, &mut made);
        assert_eq!(assembled, Ok(Assembled { lines, end }), "{name}");
        assert!(made == memory(&example(&format!("{name}.txt"))), "{name}");
        assert!(made == image, "{name}");
    }
}

/// Nothing is left to what the image held before.
#[test]
fn a_source_makes_every_byte() {
    for (name, end) in SOURCES {
        let mut made = vec![0xa5; end];
        let assembled = assemble(source(name).as_bytes(), 0, &mut made);
        assert_eq!(assembled.map(|assembled| assembled.end), Ok(end), "{name}");
        assert!(made == image(&format!("{name}.image"))[..end], "{name}");
    }
}

#[test]
fn every_source_is_told_of_here() {
    let files =
        files("examples").into_iter().filter_map(|name| Some(name.strip_suffix(".s")?.to_string()));
    let mut names = SOURCES.map(|(name, _)| name);
    names.sort();
    assert_eq!(files.collect::<Vec<_>>(), names);
}

/// Builds 31 and 32 differ in the order of two lines, and in nothing else: the labels see to the
/// jump's bits.
#[test]
fn the_sources_differ_in_the_lines_that_the_page_tells_of() {
    let [build31, build32, leak] = ["build31", "build32", "leak"].map(source);
    let [late, early] = ["\tjl\trecipe\n\taddi\tr2\t1\n", "\taddi\tr2\t1\n\tjl\trecipe\n"];
    assert_eq!(build31.matches(late).count(), 1);
    assert_eq!(build31.replace(late, early), build32);
    let (start, _) = build32.split_once("\tldr\tr8").expect("it loads the key state");
    let (_, rest) = build32.split_once("stay\t").expect("it stays");
    assert!(leak.starts_with(start) && leak.ends_with(rest));
}

#[test]
fn the_gate_assembles_the_sources_first() {
    let first = assembly_cases().into_iter().map(|case| case.bytes()).take(SOURCES.len());
    let [file, first] = [bytes("crates/vectors_asm/stdin"), first.collect::<Vec<_>>().concat()];
    assert!(file.starts_with(&first));
    for ((name, _), case) in SOURCES.into_iter().zip(assembly_cases()) {
        assert!(case.text == source(name).into_bytes(), "{name}");
        assert_eq!((case.start, case.image), (0, vec![0; 256]), "{name}");
    }
}
