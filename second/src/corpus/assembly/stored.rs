//! The stored cases of the assembler, as `docs/CORPUS.md` defines them: the examples, the edges,
//! then generated ones. `crates/vectors_asm` assembles them through the proved library.

use super::edges::assembly_edges;
use super::{assembly_case, AssemblyCase};
use crate::assemble::{Assembled, Refused};
use crate::corpus::digest;

/// The bounds of `docs/CORPUS.md`.
pub const LONGEST_ASSEMBLY_TEXT: usize = 16_384;
pub const LONGEST_ASSEMBLY_IMAGE: usize = 4_096;

/// The number of generated cases, and the seed that they come from.
const GENERATED: usize = 1_500;
const SEED: u64 = 0x4d41_4e49_4b04;

/// Of the cases with more bytes than this only one in five is kept, so that the file stays small.
const SHORT: usize = 2_000;

/// The sources of `examples/`: build 31, build 32 and the leak, then those of later tickets.
const EXAMPLES: [&str; 7] = [
    include_str!("../../../../examples/build31.s"),
    include_str!("../../../../examples/build32.s"),
    include_str!("../../../../examples/leak.s"),
    include_str!("../../../../examples/buserror.s"),
    include_str!("../../../../examples/buserror_lost.s"),
    include_str!("../../../../examples/shifts.s"),
    include_str!("../../../../examples/shifts_secret.s"),
];

/// The length of an image that takes each of them.
const EXAMPLE_IMAGE: usize = 256;

impl AssemblyCase {
    /// The bytes of the case.
    pub fn bytes(&self) -> Vec<u8> {
        let length = |part: &[u8]| u32::try_from(part.len()).expect("a part is short");
        let lengths = [length(&self.text), length(&self.image)];
        let mut bytes: Vec<u8> = lengths.into_iter().flat_map(u32::to_be_bytes).collect();
        bytes.extend((self.start as u64).to_be_bytes());
        bytes.extend(&self.text);
        bytes.extend(&self.image);
        bytes
    }

    /// The line that answers the case, with its newline.
    pub fn answer(&self) -> String {
        let (answer, image) = self.assemble();
        let (reply, line, end) = match answer {
            Ok(Assembled { lines, end }) => (0, lines, end),
            Err(Refused { line, number }) => (number, line, 0),
        };
        format!("{reply}\t{line}\t{end}\t{}\n", digest(&image))
    }

    /// Whether the case keeps to the bounds.
    fn keeps_to_the_bounds(&self) -> bool {
        self.text.len() <= LONGEST_ASSEMBLY_TEXT && self.image.len() <= LONGEST_ASSEMBLY_IMAGE
    }
}

fn example(source: &str) -> AssemblyCase {
    AssemblyCase { text: source.into(), start: 0, image: vec![0; EXAMPLE_IMAGE] }
}

/// Every stored case: the examples first, then the edges.
pub fn assembly_cases() -> Vec<AssemblyCase> {
    let mut cases: Vec<AssemblyCase> = EXAMPLES.into_iter().map(example).collect();
    cases.extend(assembly_edges().into_iter().map(|edge| edge.case));
    cases.extend((0..).filter_map(generated).take(GENERATED));
    cases
}

/// The generated case with this number, if it is stored.
fn generated(number: u64) -> Option<AssemblyCase> {
    let case = assembly_case(SEED, number);
    let is_short = case.text.len() + case.image.len() <= SHORT;
    Some(case).filter(|case| case.keeps_to_the_bounds() && (is_short || number.is_multiple_of(5)))
}

/// The file of the cases.
pub fn assembly_cases_file() -> Vec<u8> {
    assembly_cases().iter().flat_map(AssemblyCase::bytes).collect()
}

/// The file of the answers.
pub fn assembly_answers_file() -> String {
    assembly_cases().iter().map(AssemblyCase::answer).collect()
}
