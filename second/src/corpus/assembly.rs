//! Generated cases of the assembler: texts with every mnemonic, expressions of every shape, labels,
//! values at and past the edges of their places, and texts that a slip of the pen spoils.

mod coverage;
mod draft;
mod edges;
mod expressions;
mod faults;
mod misfits;
mod places;
mod slips;
mod stored;
mod texts;

pub use coverage::AssemblyCoverage;
pub use edges::{assembly_edges, AssemblyEdge};
pub use stored::{
    assembly_answers_file, assembly_cases, assembly_cases_file, LONGEST_ASSEMBLY_IMAGE,
    LONGEST_ASSEMBLY_TEXT,
};

use super::random::Generator;
use crate::assemble::{assemble, Assembled, Refused};
use faults::{Fault, Faults};

/// An input of the assembler.
#[derive(Clone, Debug, PartialEq, Eq, Hash)]
pub struct AssemblyCase {
    pub text: Vec<u8>,
    pub start: usize,
    pub image: Vec<u8>,
}

impl AssemblyCase {
    /// The answer, and what the image then holds.
    pub fn assemble(&self) -> (Result<Assembled, Refused>, Vec<u8>) {
        let mut image = self.image.clone();
        let answer = assemble(&self.text, self.start, &mut image);
        (answer, image)
    }
}

/// Case `number` of a seed, which depends on nothing else.
pub fn assembly_case(seed: u64, number: u64) -> AssemblyCase {
    // Far apart for two seeds, so that the second one's cases aren't the first one's again.
    let place = seed.wrapping_mul(0xd134_2543_de82_ef95).wrapping_add(number);
    Generator::new(place).assembly_case()
}

impl Generator {
    fn assembly_case(&mut self) -> AssemblyCase {
        let faults = self.faults();
        let start = self.start();
        let draft = self.draft(start, &faults);
        let end = draft.end as usize;
        let mut text = self.text(draft, &faults);
        if self.errs(Fault::Slip, &faults) {
            for _ in 0..self.pick(&[1, 1, 1, 2, 3]) {
                self.slip(&mut text);
            }
        }
        let length = self.length_for(start as usize, end, &faults);
        let image = (0..length).map(|_| self.word() as u8).collect();
        let mut case = AssemblyCase { text, start: start as usize, image };
        if self.errs(Fault::Start, &faults) {
            self.move_start(&mut case);
        }
        case
    }

    /// An even start. Mostly a low one: a long image is dear.
    fn start(&mut self) -> u32 {
        match self.below(60) {
            0 => 2 * self.below(32_768),
            1 => self.pick(&[65_520, 65_532, 65_534, 65_536]),
            2..20 => 0,
            20..50 => 2 * self.below(20),
            _ => 2 * self.below(600),
        }
    }

    /// The length of an image that should hold all from `start` to before `end`, or doesn't.
    fn length_for(&mut self, start: usize, end: usize, faults: &Faults) -> usize {
        if !self.errs(Fault::Room, faults) {
            return end + self.pick(&[0, 0, 0, 1, 2, 3, 4, 40]);
        }
        if self.once_in(2) {
            return end.saturating_sub(self.pick(&[1, 1, 2, 2, 3, 4, 5, 6]));
        }
        start + self.below((end - start) as u32 + 1) as usize
    }

    /// An odd start, one at the image's end, past it or far from it, or another even one.
    fn move_start(&mut self, case: &mut AssemblyCase) {
        let length = case.image.len();
        let even = length.next_multiple_of(2);
        // A program that keeps only the low half of such a number takes it for a good one.
        let above = case.start + (1 << (usize::BITS / 2));
        case.start = match self.below(12) {
            0..3 => case.start + 1,
            3 => length | 1,
            4 => even,
            5 => length / 2 * 2,
            6 => even + 2,
            7 => even + 2 * self.below(100) as usize,
            8 => self.pick(&[usize::MAX, usize::MAX - 1, usize::MAX / 2, usize::MAX / 2 + 1]),
            9 => above,
            10 => case.start + 2,
            _ => case.start.saturating_sub(2),
        };
    }
}
