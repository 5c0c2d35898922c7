//! Fresh cases, each from the seed and its number alone.

mod code;
mod corners;
mod damage;
mod edges;
mod state;

use second::corpus::Case;
use second::marks;
use second::record;
use second::state::State;

use crate::machine::Input;
use crate::random::Random;
use code::Code;

/// The inputs of a run that is still being made up.
struct Draft {
    state: State,
    memory: Vec<u8>,
    /// A bit for each byte of memory.
    marks: Vec<u8>,
    tape: Vec<u8>,
    budget: u64,
}

/// Makes up cases.
pub struct Cases {
    code: Code,
    /// The named edges of document 01, the ones in long memories apart, since they are dear.
    edges: Vec<Case>,
    long_edges: Vec<Case>,
}

/// From this length on a memory is long.
const LONG: usize = 4_096;

impl Cases {
    pub fn new() -> Cases {
        let (long_edges, edges) =
            second::corpus::edges().into_iter().partition(|edge| edge.memory.len() > LONG);
        Cases { code: Code::new(), edges, long_edges }
    }

    /// The case with this number.
    pub fn case(&self, random: &mut Random) -> Input {
        let mut draft = match random.below(20) {
            0..8 => self.soup(random),
            8..14 => self.firmware(random),
            14..18 => self.edge(random),
            _ => noise(random),
        };
        if random.once_in(3) {
            self.corner(random, &mut draft);
        }
        if random.once_in(10) {
            for _ in 0..random.pick(&[1, 1, 1, 2, 3]) {
                damage::draft(random, &mut draft);
            }
        }
        let Draft { state, memory, marks, tape, budget } = draft;
        let mut record = record::write(&state).to_vec();
        if random.once_in(60) {
            damage::record(random, &mut record);
        }
        Input { record, memory, marks, tape, budget }
    }

    /// Any instructions one after the other, with registers that often hold addresses.
    fn soup(&self, random: &mut Random) -> Draft {
        let length = memory_length(random);
        let memory = self.code.soup(random, length);
        let marks = marks(random, length);
        let state = state::any(random, length as u32);
        let budget = budget(random);
        Draft::new(random, state, memory, marks, budget)
    }

    /// A loop with subroutines and handlers, which goes on for as long as the budget lasts unless
    /// a marked branch or a corner stops it.
    fn firmware(&self, random: &mut Random) -> Draft {
        let length = random.pick(&[384, 508, 512, 640, 764, 1_024]);
        let memory = self.code.firmware(random, length);
        let marks = if random.once_in(2) {
            let often = random.pick(&[2, 10, 40]);
            marks_from(random, code::DATA, length, often)
        } else {
            vec![0; marks::room(length)]
        };
        let state = state::firmware(random, length as u32);
        let budget = match random.below(20) {
            0 => 1_000 + random.below(4_000) as usize,
            1..8 => 64 + random.below(400) as usize,
            _ => budget(random),
        };
        Draft::new(random, state, memory, marks, budget)
    }
}

/// Bytes of any kind in any state in form.
fn noise(random: &mut Random) -> Draft {
    let length = memory_length(random);
    let memory = random.bytes(length);
    let marks = marks(random, length);
    let state = state::any(random, length as u32);
    let budget = budget(random);
    Draft::new(random, state, memory, marks, budget)
}

impl Draft {
    /// With a tape as long as the budget, or a bit longer.
    fn new(
        random: &mut Random,
        state: State,
        memory: Vec<u8>,
        marks: Vec<u8>,
        budget: usize,
    ) -> Draft {
        let beyond = random.pick(&[0, 0, 0, 0, 1, 7]);
        let tape = tape(random, budget + beyond);
        Draft { state, memory, marks, tape, budget: budget as u64 }
    }
}

/// Lengths that are not refused, mostly short ones, seldom the longest; many end in the middle of a
/// mark byte.
fn memory_length(random: &mut Random) -> usize {
    match random.below(400) {
        0 => random.pick(&[65_528, 65_532, 65_536, 65_536]),
        1..4 => random.pick(&[1_024, 2_048, 4_096]),
        4..20 => random.pick(&[4, 8, 12]),
        20..60 => random.pick(&[256, 260, 384, 508]),
        _ => random.pick(&[16, 20, 24, 28, 32, 44, 48, 60, 64, 96, 128]),
    }
}

/// Mostly tens of steps, seldom thousands.
fn budget(random: &mut Random) -> usize {
    match random.below(200) {
        0..6 => 0,
        6..20 => 1,
        20..40 => 2 + random.below(6) as usize,
        40..180 => 8 + random.below(56) as usize,
        180..199 => 64 + random.below(200) as usize,
        _ => 1_000 + random.below(4_000) as usize,
    }
}

/// All lines low, or now and then some high.
fn tape(random: &mut Random, length: usize) -> Vec<u8> {
    match random.pick(&[0, 0, 1, 4, 20]) {
        0 => vec![0; length],
        often => {
            (0..length).map(|_| u8::from(random.once_in(often)) * random.below(64) as u8).collect()
        }
    }
}

/// No marks, some in the upper half of memory, few anywhere, or many.
fn marks(random: &mut Random, length: usize) -> Vec<u8> {
    let (first, often) = match random.below(12) {
        0..6 => return vec![0; marks::room(length)],
        6..9 => (length / 2, 3),
        9..11 => (0, 60),
        _ => (0, 2),
    };
    marks_from(random, first, length, often)
}

/// Marks from an address on, so often.
fn marks_from(random: &mut Random, first: usize, length: usize, often: u32) -> Vec<u8> {
    let mut marks = vec![false; length];
    marks[first..].fill_with(|| random.once_in(often));
    marks::packed(&marks)
}
