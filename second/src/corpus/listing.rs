//! Generated cases of a listing: images of instructions and of any bytes, good ranges and bad ones,
//! and buffers around the length of the listing.

mod coverage;

pub use coverage::ListCoverage;

use super::random::Generator;
use crate::isa::{encode, Halves, Instr};
use crate::listing::{list, Refusal, LONGEST_IMAGE, LONGEST_LINE_OF_A_HALF};
use crate::word::sign_extend;

/// An input of a listing.
#[derive(Clone, Debug, PartialEq, Eq, Hash)]
pub struct ListCase {
    pub image: Vec<u8>,
    pub start: usize,
    pub end: usize,
    /// The length of the lent buffer.
    pub room: usize,
}

impl ListCase {
    /// The answer, and what a buffer that was full of `filler` then holds.
    pub fn list(&self, filler: u8) -> (Result<usize, Refusal>, Vec<u8>) {
        let mut buffer = vec![filler; self.room];
        let answer = list(&self.image, self.start, self.end, &mut buffer);
        (answer, buffer)
    }

    /// The length of the listing, if a buffer of any length is there for it.
    fn length(&self) -> Result<usize, Refusal> {
        let mut buffer = vec![0; self.image.len() / 2 * LONGEST_LINE_OF_A_HALF];
        list(&self.image, self.start, self.end, &mut buffer)
    }
}

/// Case `number` of a seed, which depends on nothing else.
pub fn list_case(seed: u64, number: u64) -> ListCase {
    // Far apart for two seeds, so that the second one's cases aren't the first one's again.
    let place = seed.wrapping_mul(0xd134_2543_de82_ef95).wrapping_add(number);
    Generator::new(place).list_case()
}

impl Generator {
    fn list_case(&mut self) -> ListCase {
        let length = self.image_length();
        let image = self.image(length);
        let (start, end) = self.range(length);
        let mut case = ListCase { image, start, end, room: 0 };
        if self.once_in(3) {
            self.cut(&mut case);
        }
        if self.once_in(4) {
            for _ in 0..self.pick(&[1, 1, 1, 2]) {
                self.spoil(&mut case);
            }
        }
        case.room = self.room(&case);
        case
    }

    /// Mostly short ones, odd ones among them. Long ones are dear.
    fn image_length(&mut self) -> usize {
        match self.below(80) {
            0 | 1 => LONGEST_IMAGE - self.pick(&[0, 0, 0, 1, 2, 4]),
            2 => LONGEST_IMAGE + self.pick(&[1, 1, 2, 4, 64, LONGEST_IMAGE]),
            3 | 4 => 0,
            5..10 => self.pick(&[1, 2, 3, 4, 5, 6]),
            10..24 => self.below(400) as usize,
            _ => 2 * self.below(60) as usize,
        }
    }

    /// Instructions, some with other halves between them, or bytes of any kind.
    fn image(&mut self, length: usize) -> Vec<u8> {
        let strange = self.pick(&[u32::MAX, u32::MAX, 8, 1]);
        let mut image = Vec::new();
        while image.len() < length {
            if self.once_in(strange) {
                image.extend(self.word().to_be_bytes());
                continue;
            }
            match encode(&self.any_instruction()).expect("the operands are in range") {
                Halves::One(half) => image.extend(half.to_be_bytes()),
                Halves::Two(first, second) => {
                    image.extend([first, second].into_iter().flat_map(u16::to_be_bytes));
                }
            }
        }
        image.truncate(length);
        image
    }

    /// An instruction as in code that runs, but with jumps that lead anywhere.
    fn any_instruction(&mut self) -> Instr {
        let instr = self.instruction();
        match instr {
            Instr::LongJump { .. } | Instr::Jl { .. } => {
                instr.with_operands([sign_extend(self.word(), 26), 0, 0])
            }
            Instr::ShortJump { .. } => instr.with_operands([sign_extend(self.word(), 10), 0, 0]),
            _ => instr,
        }
    }

    /// An even number up to a limit.
    fn even(&mut self, limit: usize) -> usize {
        2 * self.below(limit as u32 / 2 + 1) as usize
    }

    /// A range inside an image of this length: all of it, a part, or nothing.
    fn range(&mut self, length: usize) -> (usize, usize) {
        let whole = length / 2 * 2;
        let start = self.even(whole);
        match self.below(8) {
            0..3 => (0, whole),
            3 => (start, start),
            4 => (start, whole),
            _ => (start, start + self.even(whole - start)),
        }
    }

    /// Begins an instruction of four bytes in the last half of the range.
    fn cut(&mut self, case: &mut ListCase) {
        if let [.., top, _] = &mut case.image[case.start..case.end] {
            *top = self.pick(&[0xe0, 0xe8, 0xf0, 0xf8]) | self.below(4) as u8;
        }
    }

    /// Makes the range odd, reversed, outside or huge.
    fn spoil(&mut self, case: &mut ListCase) {
        let beyond = case.image.len() / 2 * 2 + 2;
        let huge = self.pick(&[usize::MAX, usize::MAX - 1, usize::MAX / 2, usize::MAX / 2 + 1]);
        // A program that keeps only the low half of such a number takes it for a good one.
        let above = 1 << (usize::BITS / 2);
        match self.below(12) {
            0 | 1 => case.start ^= 1,
            2 | 3 => case.end ^= 1,
            4 | 5 => std::mem::swap(&mut case.start, &mut case.end),
            6 => case.end = beyond + self.even(8),
            7 => (case.start, case.end) = (beyond, beyond),
            8 => case.end = huge,
            9 => case.start = huge,
            10 => (case.start, case.end) = (huge, huge),
            _ => case.end = case.end.wrapping_add(above),
        }
    }

    /// The length of the buffer: that of the listing, one less, nothing, or any other. Where the
    /// range is refused there is no listing, and it doesn't matter.
    fn room(&mut self, case: &ListCase) -> usize {
        let Ok(length) = case.length() else { return self.pick(&[0, 0, 1, 40, 400]) };
        match self.below(10) {
            0..4 => length,
            4 | 5 => length.saturating_sub(1),
            6 => 0,
            7 => self.below(length as u32 + 1) as usize,
            8 => length + 1,
            _ => length + self.below(200) as usize,
        }
    }
}
