//! Texts to assemble, and the two assemblers on them.

mod draft;

use draft::Draft;

/// The lengths of the texts, in lines.
pub const LENGTHS: [usize; 2] = [5_000, 20_000];

/// What the texts are called: lines of every mnemonic, and as many labels as there may be.
pub const NAME: &str = "all mnemonics, 256 labels";

/// What is assembled.
pub struct Source {
    pub lines: usize,
    pub text: String,
    /// The address after the last byte, from address 0 on.
    end: usize,
}

impl Source {
    /// The text with so many lines.
    pub fn new(lines: usize) -> Source {
        Source::of(Draft::new(lines).text())
    }

    pub fn of(text: String) -> Source {
        let end = text.lines().map(size).sum();
        Source { lines: text.lines().count(), text, end }
    }
}

/// The bytes that a line takes.
fn size(line: &str) -> usize {
    match line.split('\t').nth(1) {
        Some("jf" | "jt" | "j" | "jl" | "word") => 4,
        _ => 2,
    }
}

/// A text and an image for it, which each program has for itself.
pub struct Assembler<'s> {
    source: &'s Source,
    pub image: Vec<u8>,
}

impl Assembler<'_> {
    pub fn new(source: &Source) -> Assembler<'_> {
        Assembler { source, image: vec![0; source.end] }
    }

    pub fn by_library(&mut self) {
        let Source { lines, text, end } = self.source;
        let assembled = manik::assemble(text.as_bytes(), 0, &mut self.image);
        assert_eq!(assembled, Ok(manik::Assembled { lines: *lines, end: *end }));
    }

    pub fn by_second(&mut self) {
        let Source { lines, text, end } = self.source;
        let assembled = second::assemble::assemble(text.as_bytes(), 0, &mut self.image);
        assert_eq!(assembled, Ok(second::assemble::Assembled { lines: *lines, end: *end }));
    }
}

#[cfg(test)]
mod tests {
    use std::collections::HashMap;

    use super::*;

    #[test]
    fn every_text_is_what_it_is_called() {
        for lines in LENGTHS {
            let Source { text, .. } = Source::new(lines);
            assert_eq!(text.matches('\n').count(), lines);
            let labels = text.lines().filter(|line| !line.starts_with('\t')).count();
            assert_eq!(labels, 256);
            let mut mnemonics = HashMap::new();
            for name in text.lines().filter_map(|line| line.split('\t').nth(1)) {
                *mnemonics.entry(name).or_insert(0) += 1;
            }
            assert_eq!(mnemonics.len(), 61);
            assert!(mnemonics.values().all(|&count| count > lines / 100), "{mnemonics:?}");
            let open = text.lines().filter(|line| line.contains('(')).count();
            assert!(open > lines / 8, "{open} of {lines} lines have parentheses");
        }
    }

    #[test]
    fn every_label_is_used_often() {
        let Source { text, .. } = Source::new(20_000);
        let mut uses = HashMap::new();
        for line in text.lines() {
            let words = line.split(|letter: char| !letter.is_ascii_alphanumeric());
            words.skip(1).for_each(|word| *uses.entry(word).or_insert(0) += 1);
        }
        let labels = text.lines().filter_map(|line| line.split('\t').next());
        for label in labels.filter(|label| !label.is_empty()) {
            assert!(uses.get(label).is_some_and(|&count| count > 5), "{label}");
        }
    }

    #[test]
    fn both_programs_assemble_the_same() {
        for source in LENGTHS.map(Source::new) {
            let (mut library, mut second) = (Assembler::new(&source), Assembler::new(&source));
            library.by_library();
            second.by_second();
            assert!(library.image == second.image, "{} lines", source.lines);
            assert!(library.image.iter().any(|&byte| byte != 0));
        }
    }
}
