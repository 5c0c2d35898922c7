//! The generated cases of the assembler: they depend on their seed and number alone, keep within
//! their bounds, and come everywhere.

use std::collections::HashSet;

use second::assemble::{assemble, Assembled};
use second::corpus::{assembly_case, AssemblyCase, AssemblyCoverage};
use second::listing::{line_at, LONGEST_IMAGE};

const CASES: u64 = 4_000;

/// The cases of a seed.
fn cases(seed: u64) -> impl Iterator<Item = AssemblyCase> {
    (0..CASES).map(move |number| assembly_case(seed, number))
}

/// Every mnemonic of a text that is assembled, and every class of cases.
#[test]
fn every_class_is_reached() {
    for seed in [0, 1, 2, 7] {
        let mut coverage = AssemblyCoverage::new();
        for case in cases(seed) {
            let (answer, _) = case.assemble();
            coverage.add(&case, answer);
        }
        for (kind, name, count) in &coverage.lines {
            assert!(*count > 0, "seed {seed}: no {kind}, {name}");
        }
        let of = |kind| coverage.lines.iter().filter(|line| line.0 == kind).count();
        assert_eq!(["line", "assembled", "refusal 30"].map(of), [61, 10, 6]);
        assert_eq!(coverage.text().lines().count(), coverage.lines.len());
    }
}

#[test]
fn every_answer_comes_often() {
    for seed in [3, 4] {
        let mut counts = [0; 37];
        for case in cases(seed) {
            let (answer, _) = case.assemble();
            counts[answer.err().map_or(0, |refused| refused.number as usize)] += 1;
        }
        assert!(counts[0] > 1_000, "assembled: {}", counts[0]);
        assert!(counts[29..].iter().all(|&count| count > 40), "29 to 36: {:?}", &counts[29..]);
    }
}

#[test]
fn every_mnemonic_is_assembled_often() {
    let mut coverage = AssemblyCoverage::new();
    for case in cases(6) {
        let (answer, _) = case.assemble();
        coverage.add(&case, answer);
    }
    for (_, name, count) in coverage.lines.iter().filter(|line| line.0 == "line") {
        assert!(*count > 50, "{name}: {count}");
    }
}

#[test]
fn a_case_depends_on_its_seed_and_number_alone() {
    assert!(cases(1).eq(cases(1)));
    let distinct =
        |seeds: &[u64]| seeds.iter().flat_map(|&seed| cases(seed)).collect::<HashSet<_>>();
    let (one, two) = (distinct(&[1]).len(), distinct(&[1, 2]).len());
    assert!(one as u64 * 100 >= CASES * 90, "only {one} of {CASES} differ");
    assert!(two * 100 >= one * 2 * 95, "only {two} of two seeds differ");
}

/// A refusal leaves the image as it was; else only the bytes from the start to the end may change.
#[test]
fn only_assembled_bytes_change() {
    for case in cases(8) {
        let (answer, image) = case.assemble();
        let end = answer.map_or(case.start, |assembled| assembled.end);
        let inside = case.start.min(image.len())..end.min(image.len());
        assert_eq!(image.len(), case.image.len());
        assert!(image[..inside.start] == case.image[..inside.start]);
        assert!(image[inside.end..] == case.image[inside.end..]);
    }
}

/// "What assembles decodes to the written instruction and values" (document 02): mnemonics and
/// registers are listed as they were written, and the listed line assembles to the same bits.
#[test]
fn what_assembles_is_listed_as_it_was_written() {
    let mut lines = 0;
    for case in cases(9).filter(|case| case.image.len() <= LONGEST_IMAGE) {
        let (Ok(assembled), image) = case.assemble() else { continue };
        let (text, mut at) = (String::from_utf8(case.text).expect("plain text"), case.start);
        for written in text.lines() {
            let fields: Vec<&str> = written.split('\t').skip(1).collect();
            let is_long = matches!(fields[0], "jf" | "jt" | "j" | "jl" | "word");
            let end = at + if is_long { 4 } else { 2 };
            if !matches!(fields[0], "half" | "word") {
                check_listed(&image, at, end, &fields);
                lines += 1;
            }
            at = end;
        }
        assert_eq!(assembled, Assembled { lines: text.lines().count(), end: at });
    }
    assert!(lines > 10_000, "{lines}");
}

fn check_listed(image: &[u8], at: usize, end: usize, written: &[&str]) {
    let (line, next) = line_at(image, at, end);
    assert_eq!(next, end, "{written:?}");
    let listed: Vec<&str> = line.as_str().trim_end().split('\t').skip(2).collect();
    assert_eq!(listed.len(), written.len(), "{written:?}");
    for (listed, written) in listed.iter().zip(written) {
        let is_number = listed.starts_with(|first: char| first == '-' || first.is_ascii_digit());
        assert!(is_number || listed == written, "{listed} for {written}");
    }
    let mut copy = vec![0; image.len()];
    let text = format!("\t{}\n", listed.join("\t"));
    assert_eq!(assemble(text.as_bytes(), at, &mut copy), Ok(Assembled { lines: 1, end }));
    assert_eq!(copy[at..end], image[at..end], "{written:?}");
}

#[test]
fn cases_stay_small_enough_to_be_many() {
    let [mut images, mut texts, mut few] = [0; 3];
    for AssemblyCase { text, image, .. } in cases(10) {
        assert!(text.len() < 100_000 && image.len() < 70_000);
        images += image.len();
        texts += text.len();
        few += usize::from(text.iter().filter(|&&byte| byte == b'\n').count() <= 12);
    }
    let cases = CASES as usize;
    assert!(images / cases < 3_000 && texts / cases < 3_000, "{images}, {texts}");
    assert!(few * 100 > cases * 80, "{few} of {cases} are short");
}
