//! A machine to set up, step and compare as a whole.

use std::ops::Range;

use second::run::run;
use second::state::{Register, State};

/// State, memory and marks together, so that "nothing besides changes" is one comparison.
#[derive(Clone, Debug, PartialEq)]
pub struct Rig {
    pub state: State,
    pub memory: Vec<u8>,
    /// A bit for each byte of memory.
    pub marks: Vec<u8>,
}

/// A PSW with every bit set that does nothing by itself, and many more; TE, IE, TF, CY and bit 12
/// are clear. So no interrupt is permitted.
pub const BUSY_PSW: u32 = 0b1010_1011_1111_1010_1110_1100_1100_1111;

/// The memory's length.
pub const LENGTH: u32 = 128;

/// The bits of PSW that show a bus error of data and of a fetch.
pub const DBER: u32 = 14;
pub const IBER: u32 = 15;

impl Rig {
    /// Fresh, with memory that holds these halves from address 0 on.
    pub fn with(halves: &[u16]) -> Rig {
        let memory = vec![0; LENGTH as usize];
        let marks = vec![0; LENGTH as usize / 8];
        let mut rig = Rig { state: State::fresh(), memory, marks };
        rig.place(0, halves);
        rig
    }

    /// As `with`, but everything holds something: other values in each register and SFR, bytes in
    /// the memory behind the halves. Nothing is enabled or marked.
    pub fn busy(halves: &[u16]) -> Rig {
        let mut rig = Rig::with(halves);
        for (place, byte) in rig.memory.iter_mut().enumerate().skip(2 * halves.len()) {
            *byte = (place * 37 + 11) as u8;
        }
        for n in 0..16 {
            rig.set(n, 0x0123_4567_u32.wrapping_mul(n as u32 + 1));
        }
        rig.state.psw = BUSY_PSW;
        rig.state.ra = 0x5a5a_0001;
        rig.state.ipc = 0x5a5a_0203;
        rig.state.timer = 0x5a5a_0404;
        rig.state.ibase = 0x5a5a_0567;
        rig.state.usreg = 0x5a5a_0608;
        rig.state.hwdbg = 0x1c3;
        rig.state.bp0 = 0;
        rig.state.bp1 = 0;
        rig.state.wp0 = 0x40;
        rig.state.wp1 = 0x40;
        rig
    }

    /// Puts halves into memory.
    pub fn place(&mut self, address: u32, halves: &[u16]) {
        let bytes: Vec<u8> = halves.iter().flat_map(|half| half.to_be_bytes()).collect();
        let start = address as usize;
        self.memory[start..start + bytes.len()].copy_from_slice(&bytes);
    }

    /// Sets an unmarked register.
    pub fn set(&mut self, n: usize, value: u32) {
        self.state.registers[n] = Register { value, marked: false };
    }

    /// Marks a register.
    pub fn mark(&mut self, n: usize) {
        self.state.registers[n].marked = true;
    }

    /// Marks bytes of memory. The layout is written here once more, so that the program's own
    /// doesn't vouch for itself.
    pub fn mark_bytes(&mut self, places: Range<usize>) {
        places.for_each(|place| self.marks[place / 8] |= 1 << (place % 8));
    }

    /// Marks one byte of memory.
    pub fn mark_byte(&mut self, place: usize) {
        self.mark_bytes(place..place + 1);
    }

    /// Takes the marks of bytes away.
    pub fn unmark_bytes(&mut self, places: Range<usize>) {
        places.for_each(|place| self.marks[place / 8] &= !(1 << (place % 8)));
    }

    /// Whether a byte of memory is marked.
    pub fn is_marked(&self, place: usize) -> bool {
        self.marks[place / 8] & 1 << (place % 8) != 0
    }

    /// Other bytes as memory, unmarked.
    pub fn remember(&mut self, memory: Vec<u8>) {
        self.marks = vec![0; memory.len().div_ceil(8)];
        self.memory = memory;
    }

    /// The value of a register.
    pub fn value(&self, n: usize) -> u32 {
        self.state.registers[n].value
    }

    /// The word in memory.
    pub fn word(&self, address: u32) -> u32 {
        (0..4).fold(0, |word, i| word * 256 + u32::from(self.memory[(address + i) as usize]))
    }

    /// Runs with the whole tape as budget: the reply's number and the steps.
    pub fn run(&mut self, tape: &[u8]) -> (u32, u64) {
        let outcome =
            run(&mut self.state, &mut self.memory, &mut self.marks, tape, tape.len() as u64);
        (outcome.reply.number(), outcome.steps)
    }

    /// Runs with all lines low.
    pub fn run_steps(&mut self, budget: usize) -> (u32, u64) {
        self.run(&vec![0; budget])
    }

    /// One step with these lines completes and makes exactly this change, besides its cycles: what
    /// each step costs has a module of its own.
    #[track_caller]
    pub fn assert_step_with(&self, lines: u8, change: impl FnOnce(&mut Rig)) -> Rig {
        let (mut after, mut expected) = (self.clone(), self.clone());
        change(&mut expected);
        assert_eq!(after.run(&[lines]), (10, 1), "reply and steps from {self:x?}");
        expected.state.cycles = after.state.cycles;
        assert_eq!(after, expected, "from {self:x?}");
        after
    }

    /// One step with all lines low completes and makes exactly this change.
    #[track_caller]
    pub fn assert_step(&self, change: impl FnOnce(&mut Rig)) -> Rig {
        self.assert_step_with(0, change)
    }

    /// One step with all lines low is a bus error that sets this bit of PSW and saves this address,
    /// and nothing besides changes (document 02, ticket 5).
    #[track_caller]
    pub fn assert_bus_error(&self, bit: u32, ipc: u32) -> Rig {
        self.assert_step(|after| {
            let state = &mut after.state;
            let ip = state.psw >> 3 & 1;
            state.psw = state.psw & !(1 << 6) | ip << 6 | 1 << 3 | 1 << bit;
            state.ipc = ipc;
            state.pc = state.ibase / 256 * 256 + 16;
        })
    }

    /// The first step stops with this reply and changes nothing.
    #[track_caller]
    pub fn assert_stops(&self, reply: u32) {
        let mut after = self.clone();
        assert_eq!(after.run(&[0]), (reply, 0), "reply and steps from {self:x?}");
        assert_eq!(after, *self, "a stopping step changes nothing");
    }
}

/// The half of a top byte and two fields of four bits.
pub fn half(top: u16, high: usize, low: usize) -> u16 {
    top << 8 | (high as u16) << 4 | low as u16
}

/// The half of a load or store: bits 15:12, units, Rd, Rb.
pub fn access(top: u16, units: u32, rd: usize, rb: usize) -> u16 {
    half(top << 4 | units as u16, rd, rb)
}

/// The half with an immediate of eight bits around Rd.
pub fn byte_immediate(top: u16, rd: usize, immediate: u32) -> u16 {
    half(top << 4 | (immediate >> 4) as u16, rd, (immediate & 0xf) as usize)
}
