//! Generated cases: code that goes on for a while, marked data, lines, a timer, break- and
//! watchpoints that hit, corners of memory, bus errors, and now and then a fault that is refused.

use super::Case;
use crate::isa::{encode, mnemonics, Halves, Instr};
use crate::marks;
use crate::state::{hwdbg, psw, Register, State};
use crate::word::sign_extend;

/// `n` cases, the same for the same seed.
pub fn random(seed: u64, n: u32) -> Vec<Case> {
    let mut mnemonics = mnemonics();
    // The moves of SFR are few mnemonics with many rules, so they come three times as often.
    let is_move = |instr: &Instr| matches!(instr, Instr::Mfsfr { .. } | Instr::Mtsfr { .. });
    let moves: Vec<Instr> = mnemonics.iter().copied().filter(is_move).collect();
    mnemonics.extend([&moves[..], &moves[..]].concat());
    let mut generator = Generator { seed, mnemonics };
    (0..n).map(|number| generator.case(number)).collect()
}

/// A small generator of pseudo-random words (splitmix64), the same in every run.
pub(super) struct Generator {
    seed: u64,
    mnemonics: Vec<Instr>,
}

impl Generator {
    /// A generator that draws every mnemonic equally often.
    pub(super) fn new(seed: u64) -> Generator {
        Generator { seed, mnemonics: mnemonics() }
    }

    pub(super) fn word(&mut self) -> u32 {
        self.seed = self.seed.wrapping_add(0x9e37_79b9_7f4a_7c15);
        let mixed = (self.seed ^ self.seed >> 30).wrapping_mul(0xbf58_476d_1ce4_e5b9);
        let mixed = (mixed ^ mixed >> 27).wrapping_mul(0x94d0_49bb_1331_11eb);
        ((mixed ^ mixed >> 31) >> 32) as u32
    }

    /// A number below `limit`.
    pub(super) fn below(&mut self, limit: u32) -> u32 {
        self.word() % limit
    }

    /// True once in `times`.
    pub(super) fn once_in(&mut self, times: u32) -> bool {
        self.below(times) == 0
    }

    /// One of the values.
    pub(super) fn pick<T: Copy>(&mut self, values: &[T]) -> T {
        values[self.below(values.len() as u32) as usize]
    }

    /// Case `number`. Long memories are dear, so only the edges have them.
    fn case(&mut self, number: u32) -> Case {
        let name = format!("generated {number}");
        let length = self.length();
        let memory = self.memory(length);
        let marks = self.marks(length);
        let state = self.state(length);
        let tape = self.tape();
        let budget = tape.len() as u32;
        let mut case = Case { name, state, memory, marks, tape, budget, promise: None };
        if self.once_in(8) {
            for _ in 0..self.pick(&[1, 1, 1, 2, 3]) {
                self.damage(&mut case);
            }
        }
        case
    }

    /// Mostly short ones. Up to 16 there is no room for a handler of bus errors. Some end in the
    /// middle of a mark byte.
    fn length(&mut self) -> u32 {
        match self.below(40) {
            0 => self.pick(&[256, 260, 384, 512]),
            1 => 4,
            2 => self.pick(&[8, 12]),
            _ => self.pick(&[16, 20, 20, 24, 28, 32, 36, 44, 48, 60, 64, 96]),
        }
    }

    /// Mostly instructions; some bytes of any kind. Often the end leads back, so that code runs on;
    /// sometimes it cuts a long jump.
    fn memory(&mut self, length: u32) -> Vec<u8> {
        let strange = self.pick(&[200, 200, 200, 40, 2]);
        let mut memory = Vec::new();
        while memory.len() < length as usize {
            let halves = if self.once_in(strange) {
                Halves::One(self.word() as u16)
            } else {
                encode(&self.instruction()).expect("the operands are in range")
            };
            match halves {
                Halves::One(half) => memory.extend(half.to_be_bytes()),
                Halves::Two(first, second) => {
                    memory.extend([first, second].into_iter().flat_map(u16::to_be_bytes));
                }
            }
        }
        memory.truncate(length as usize);
        let last = match self.below(9) {
            0..6 if length >= 16 => 0xf400 | (0x400 - self.below(length / 2)) & 0x3ff,
            6 => self.pick(&[0xe000, 0xe800, 0xf000, 0xf800]),
            _ => return memory,
        };
        memory[length as usize - 2..].copy_from_slice(&(last as u16).to_be_bytes());
        memory
    }

    /// An instruction with operands in range.
    pub(super) fn instruction(&mut self) -> Instr {
        let place = self.below(self.mnemonics.len() as u32) as usize;
        let instr = self.mnemonics[place];
        let operands = match instr {
            Instr::Andi { .. } => [self.target(), self.below(256), 0],
            Instr::Ldrpc { .. } => [self.target(), self.pick(&[0, 1, 2, 3, 5, 9, 30, 255]), 0],
            Instr::Addi { .. } | Instr::Movi { .. } => {
                [self.target(), sign_extend(self.word(), 8), 0]
            }
            Instr::CompareImmediate { .. } | Instr::ConditionalAddImmediate { .. } => {
                [self.target(), sign_extend(self.word(), 4), 0]
            }
            Instr::Mfsfr { .. } => [self.target(), self.below(11), 0],
            Instr::Mtsfr { .. } => [self.below(11), self.below(16), 0],
            Instr::Jsfr { .. } => [self.below(4), 0, 0],
            Instr::ShortJump { .. } | Instr::LongJump { .. } | Instr::Jl { .. } => {
                [self.displacement(), 0, 0]
            }
            Instr::Load { .. } | Instr::Store { .. } => {
                [self.target(), self.pick(&[0, 0, 0, 1, 2, 3, 7, 15]), self.base()]
            }
            Instr::Jr { .. } | Instr::Jrl { .. } => [self.base(), 0, 0],
            Instr::Swint { .. } => [self.below(16), 0, 0],
            _ => {
                let rd = self.target();
                [rd, if self.once_in(10) { rd } else { self.below(16) }, 0]
            }
        };
        instr.with_operands(operands)
    }

    /// A register to write: mostly r0 to r7, so that the others go on holding addresses.
    fn target(&mut self) -> u32 {
        let many = self.pick(&[8, 8, 8, 16]);
        self.below(many)
    }

    /// A register that holds an address: mostly r8 to r15.
    fn base(&mut self) -> u32 {
        let first = self.pick(&[8, 8, 8, 0]);
        first + self.below(8)
    }

    /// Halfwords, in range of the short jumps.
    fn displacement(&mut self) -> u32 {
        match self.below(30) {
            0 => sign_extend(self.word(), 10),
            _ => self.below(12).wrapping_sub(4),
        }
    }

    /// No marks, some in the upper half of memory, few anywhere, or many.
    fn marks(&mut self, length: u32) -> Vec<u8> {
        let (first, often) = match self.below(12) {
            0..6 => (length, 1),
            6..9 => (length / 2, 3),
            9..11 => (0, 60),
            _ => (0, 2),
        };
        let marks: Vec<bool> =
            (0..length).map(|place| place >= first && self.once_in(often)).collect();
        marks::packed(&marks)
    }

    /// A tape of 0 to 200 bytes.
    fn tape(&mut self) -> Vec<u8> {
        let steps = match self.below(10) {
            0 => self.below(201),
            1 => self.below(3),
            _ => self.pick(&[4, 8, 12, 16, 24, 32, 48]),
        };
        let lines = self.pick(&[0, 2, 4, 20]);
        (0..steps)
            .map(|_| if lines > 0 && self.once_in(lines) { self.below(64) as u8 } else { 0 })
            .collect()
    }

    /// A state in form.
    fn state(&mut self, length: u32) -> State {
        let mut state = State::fresh();
        let often = self.pick(&[2, 4, 8, u32::MAX, u32::MAX]);
        state.registers = std::array::from_fn(|n| Register {
            value: if n < 8 && self.once_in(2) { self.corner() } else { self.value(length) },
            marked: self.once_in(often),
        });
        state.pc = match self.below(20) {
            0 => self.value(length) & !1,
            1 => length - self.pick(&[0, 2, 2, 4]),
            _ => self.below(length / 2 + 1) & !1,
        };
        state.psw = self.psw();
        (state.tf_marked, state.cy_marked) = (self.once_in(often), self.once_in(often));
        let odd = self.below(2);
        (state.ra, state.ipc) = (self.value(length) | odd, self.value(length) | odd);
        state.timer = self.pick(&[0, 0, 1, 1, 2, 3, 4, 5, 6, 20, u32::MAX]);
        state.pending = state.timer == 0 && self.once_in(2);
        state.ibase = match self.below(12) {
            0 => self.word(),
            1 => length,
            2 => length - 1,
            _ => self.below(length),
        };
        state.usreg = self.word();
        let (any, nearly_over) = (self.word(), u32::MAX - self.below(60));
        state.cycles = self.pick(&[0, any, nearly_over]);
        self.debug(&mut state, length);
        state
    }

    /// Break- and watchpoints, often where code and data are.
    fn debug(&mut self, state: &mut State, length: u32) {
        state.hwdbg = 3 | self.below(8) << 6 | self.pick(&[0, 0, 0x10, 0x20, 0x30]);
        if self.once_in(2) {
            state.hwdbg |= self.below(16) << 2;
        }
        let near = [state.pc, state.pc.wrapping_add(2), state.pc.wrapping_add(6), 10];
        for place in [&mut state.bp0, &mut state.bp1] {
            *place = if self.once_in(2) { self.pick(&near) } else { self.value(length) };
            // Seldom at 4: a breakpoint at its own handler hits for ever.
            if *place == 4 && !self.once_in(8) {
                *place = 6;
            }
        }
        for place in [&mut state.wp0, &mut state.wp1] {
            let base =
                if self.once_in(6) { state.pc } else { self.pick(&state.registers[8..]).value };
            let offset = self.pick(&[0, 0, 0, 1, 2, 4, 8, 12]);
            *place = base.wrapping_add(offset) & !self.pick(&[3, 3, 3, 1, 0]);
        }
        if self.once_in(6) {
            self.watch_outside(state, length);
        }
    }

    /// Some registers hold an address behind memory, where enabled watchpoints are.
    fn watch_outside(&mut self, state: &mut State, length: u32) {
        let address = length + self.pick(&[0, 0, 4, 8]);
        for register in &mut state.registers[8..] {
            if self.once_in(2) {
                register.value = address;
            }
        }
        (state.wp0, state.wp1) = (address, address);
        state.hwdbg |= self.pick(&[hwdbg::WP0, hwdbg::WP1, hwdbg::WP0 | hwdbg::WP1]);
    }

    /// Often with interrupts permitted; bit 12 is clear.
    fn psw(&mut self) -> u32 {
        let psw = self.word() & !psw::TR;
        match self.below(4) {
            0 => psw | psw::IE | psw::IP,
            1 => psw & !psw::IP | psw::IE | psw::TE,
            2 => psw & !psw::IE,
            _ => psw,
        }
    }

    /// Any word, or one at which arithmetic has its edges.
    fn corner(&mut self) -> u32 {
        let any = self.word();
        self.pick(&[any, any, any, 0, 1, 31, 32, 0x7fff_ffff, 0x8000_0000, u32::MAX - 1, u32::MAX])
    }

    /// Mostly an address in memory, often an even or aligned one; else any word or a corner.
    fn value(&mut self, length: u32) -> u32 {
        let end = length;
        match self.below(12) {
            0 | 1 => self.corner(),
            2 => self.pick(&[end, end - 1, end - 2, end - 3, end - 4, end + 4]),
            3..8 => self.below(length) & !3,
            _ => self.below(length),
        }
    }

    /// Damages some part of a case, mostly so that it must be refused.
    fn damage(&mut self, case: &mut Case) {
        let length = case.memory.len();
        match self.below(12) {
            0 => case.memory.truncate(self.below(length.max(1) as u32) as usize),
            1 => {
                let shorter = self.pick(&[0, 1, 2, 3]);
                case.memory.truncate(shorter * length / 4 + shorter);
                case.marks.truncate(marks::room(case.memory.len()));
            }
            2 => self.resize_marks(case),
            3 | 4 => self.mark_past_end(case),
            5 => case.state.pc |= 1,
            6 => case.state.psw |= psw::TR,
            7 => case.state.hwdbg ^= 1 << self.below(32),
            8 => case.state.pending = true,
            9 => case.budget = case.budget.saturating_add(self.pick(&[1, 2, 100, 1 << 31])),
            10 => case.budget = case.budget.saturating_sub(self.below(9)),
            _ => {
                let strange = self.pick(&[64, 65, 127, 128, 255]);
                let tape_length = case.tape.len().max(1) as u32;
                let at = self.below(tape_length) as usize;
                case.tape.get_mut(at).into_iter().for_each(|lines| *lines = strange);
            }
        }
    }

    /// Marks of another length: none, a byte too few or too many, rounded down, a byte for each byte
    /// of memory as before ticket 7, or any.
    fn resize_marks(&mut self, case: &mut Case) {
        let (length, room) = (case.memory.len(), marks::room(case.memory.len()));
        let any = self.below(length as u32 + 1) as usize;
        let other = self.pick(&[0, room.saturating_sub(1), room + 1, length / 8, length, any]);
        case.marks.resize(other, 0);
    }

    /// Bits past the memory's end, which is in the middle of a mark byte, if need be after this.
    fn mark_past_end(&mut self, case: &mut Case) {
        if case.memory.len().is_multiple_of(8) {
            case.memory.truncate(case.memory.len().saturating_sub(4));
        }
        let bits = self.pick(&[0x10, 0x20, 0x40, 0x80, 0x90, 0xf0]);
        case.marks.last_mut().into_iter().for_each(|last| *last |= bits);
    }
}
