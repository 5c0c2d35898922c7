//! Pseudo-random inputs of a run: code that goes on for a while, marked data, lines, a timer, and
//! break- and watchpoints that hit.

use second::isa::{data_address, decode, encode, mnemonics, Halves, Instr};
use second::state::{Register, State};
use second::word::sign_extend;

use crate::generator::Generator;

/// An input of a run; the budget is the tape's length.
#[derive(Clone, Debug)]
pub struct Case {
    pub state: State,
    pub memory: Vec<u8>,
    /// A bit for each byte of memory.
    pub marks: Vec<u8>,
    pub tape: Vec<u8>,
}

const TE: u32 = 1 << 4;
const IE: u32 = 1 << 5;
const IP: u32 = 1 << 3;

impl Generator {
    /// A number below `limit`.
    pub fn below(&mut self, limit: u32) -> u32 {
        self.word() % limit
    }

    /// True once in `times`.
    pub fn once_in(&mut self, times: u32) -> bool {
        self.below(times) == 0
    }

    /// One of the values.
    fn pick<T: Copy>(&mut self, values: &[T]) -> T {
        values[self.below(values.len() as u32) as usize]
    }

    /// A good input: no refusal answers it.
    pub fn case(&mut self) -> Case {
        let length = self.pick(&[4, 8, 12, 60, 128, 256, 260, 512, 1024, 4096]);
        let memory = self.memory(length);
        let marks = self.marks(length);
        let state = self.state(length, &memory);
        let steps = self.pick(&[0, 1, 2, 8, 32, 64, 128]);
        let quiet = self.once_in(2);
        let tape =
            (0..steps).map(|_| if quiet || self.once_in(2) { 0 } else { self.below(64) as u8 });
        let tape = tape.collect();
        Case { state, memory, marks, tape }
    }

    /// Mostly instructions; some bytes of any kind.
    fn memory(&mut self, length: u32) -> Vec<u8> {
        let mnemonics = mnemonics();
        let mut memory = Vec::new();
        while memory.len() < length as usize {
            let halves = if self.once_in(150) {
                Halves::One(self.word() as u16)
            } else {
                encode(&self.instruction(&mnemonics)).expect("the operands are in range")
            };
            match halves {
                Halves::One(half) => memory.extend(half.to_be_bytes()),
                Halves::Two(first, second) => {
                    memory.extend([first, second].into_iter().flat_map(u16::to_be_bytes));
                }
            }
        }
        memory.truncate(length as usize);
        memory
    }

    /// An instruction with operands in range; jumps mostly go forward a little.
    fn instruction(&mut self, mnemonics: &[Instr]) -> Instr {
        let instr = self.pick(mnemonics);
        let four = |generator: &mut Generator| generator.below(16);
        let signed = |generator: &mut Generator, bits| sign_extend(generator.word(), bits);
        let operands = match instr {
            Instr::Andi { .. } => [four(self), self.below(256), 0],
            Instr::Ldrpc { .. } => [four(self), self.pick(&[0, 1, 2, 5, 9, 30, 255]), 0],
            Instr::Addi { .. } | Instr::Movi { .. } => [four(self), signed(self, 8), 0],
            Instr::CompareImmediate { .. } | Instr::ConditionalAddImmediate { .. } => {
                [four(self), signed(self, 4), 0]
            }
            Instr::Mfsfr { .. } => [four(self), self.below(11), 0],
            Instr::Mtsfr { .. } => [self.below(11), four(self), 0],
            Instr::Jsfr { .. } => [self.below(4), 0, 0],
            Instr::ShortJump { .. } | Instr::LongJump { .. } | Instr::Jl { .. } => {
                [self.below(12).wrapping_sub(4), 0, 0]
            }
            _ => [four(self), four(self), four(self)],
        };
        instr.with_operands(operands)
    }

    /// No marks, some in the upper half of memory, or some anywhere.
    fn marks(&mut self, length: u32) -> Vec<u8> {
        let (first, often) = match self.below(4) {
            0 => (length, 1),
            1 | 2 => (length / 2, 3),
            _ => (0, 60),
        };
        let mut marks = vec![0; length.div_ceil(8) as usize];
        for place in first..length {
            marks[place as usize / 8] |= u8::from(self.once_in(often)) << (place % 8);
        }
        marks
    }

    /// A state in form.
    fn state(&mut self, length: u32, memory: &[u8]) -> State {
        let mut state = State::fresh();
        let often = self.pick(&[2, 4, 8, u32::MAX]);
        state.registers = std::array::from_fn(|_| Register {
            value: self.value(length),
            marked: self.once_in(often),
        });
        state.pc = self.below(length / 2) & !1;
        state.psw = self.psw();
        (state.tf_marked, state.cy_marked) = (self.once_in(often), self.once_in(often));
        (state.ra, state.ipc) = (self.value(length), self.value(length));
        state.timer = self.pick(&[0, 0, 1, 2, 5, 20, u32::MAX]);
        state.pending = state.timer == 0 && self.once_in(2);
        state.ibase = if self.once_in(20) { self.word() } else { self.below(length) };
        state.usreg = self.word();
        state.hwdbg = 3 | self.below(8) << 6;
        state.hwdbg |= if self.once_in(2) { self.below(16) << 2 } else { 0 };
        (state.bp0, state.bp1) = (self.value(length), self.value(length));
        (state.wp0, state.wp1) = (self.watched(&state, memory), self.watched(&state, memory));
        state
    }

    /// The address of one of the next three loads and stores, as long as its base stays; so both
    /// watchpoints are often equal.
    fn watched(&mut self, state: &State, memory: &[u8]) -> u32 {
        let halves = memory[state.pc as usize..].chunks_exact(2);
        let addresses =
            halves.filter_map(|half| match decode(u16::from_be_bytes([half[0], half[1]]), 0)? {
                Instr::Load { width, uimm4, rb, .. } | Instr::Store { width, uimm4, rb, .. } => {
                    Some(data_address(state.registers[rb as usize].value, uimm4, width))
                }
                _ => None,
            });
        let next: Vec<u32> = addresses.take(3).collect();
        if next.is_empty() {
            return self.word();
        }
        self.pick(&next)
    }

    /// Often with interrupts permitted; bit 12 is clear.
    fn psw(&mut self) -> u32 {
        let psw = self.word() & !(1 << 12);
        match self.below(3) {
            0 => psw | IE | IP,
            1 => psw & !IP | IE | TE,
            _ => psw & !IE,
        }
    }

    /// Mostly an address in memory, often an even or aligned one; else any word or a corner.
    fn value(&mut self, length: u32) -> u32 {
        match self.below(12) {
            0 => self.word(),
            1 => self.pick(&[0, 1, length, 0x7fff_ffff, 0x8000_0000, u32::MAX]),
            2..7 => self.below(length) & !3,
            _ => self.below(length),
        }
    }
}
