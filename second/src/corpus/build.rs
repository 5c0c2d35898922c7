//! How the edges are written down: a busy machine with some code, and what is special about it.

use std::ops::Range;

use super::{Case, Promise};
use crate::isa::{encode, mnemonics, Halves};
use crate::marks;
use crate::state::{Register, State};
use crate::step::Access;

/// The length of memory in an edge that doesn't say another one.
pub const LENGTH: u32 = 64;

/// A PSW with many bits set, so that a lost one shows; TE, IE, TF, CY and bit 12 are clear, so
/// that no interrupt is permitted and the state is in form. IP and TI are set.
pub const BUSY_PSW: u32 = 0xabfa_eccf;

/// A line of code: a mnemonic and its operands in the order of `docs/VECTORS.md`.
pub type Line<'a> = (&'a str, &'a [i32]);

/// The bytes of some code.
pub fn assemble(code: &[Line]) -> Vec<u8> {
    code.iter().flat_map(halves).flat_map(u16::to_be_bytes).collect()
}

fn halves(&(name, given): &Line) -> Vec<u16> {
    let listed = mnemonics().into_iter().find(|each| each.mnemonic() == name);
    let mut operands = [0; 3];
    for (place, &operand) in operands.iter_mut().zip(given) {
        *place = operand as u32;
    }
    let instr = listed.expect("the mnemonic is listed").with_operands(operands);
    match encode(&instr).expect("the operands are in range") {
        Halves::One(half) => vec![half],
        Halves::Two(first, second) => vec![first, second],
    }
}

/// A state in form in which everything holds something; nothing is enabled or marked. Entries go
/// to 4, 8, 12 and 16.
pub fn busy_state() -> State {
    let mut state = State::fresh();
    for (n, register) in (1..).zip(&mut state.registers) {
        register.value = 0x0123_4567_u32.wrapping_mul(n);
    }
    state.psw = BUSY_PSW;
    (state.ra, state.ipc) = (0x5a5a_0001, 0x5a5a_0203);
    (state.timer, state.usreg) = (0x5a5a_0404, 0x5a5a_0608);
    state.ibase = 0x23;
    state.hwdbg = 0x1c3;
    (state.bp0, state.bp1) = (0x5a5a_0700, 0x5a5a_0802);
    (state.wp0, state.wp1) = (0x5a5a_0904, 0x5a5a_0a08);
    state.cycles = 0x5a5a_0b0c;
    state
}

/// Bytes that tell their places.
pub fn busy_bytes(length: u32) -> Vec<u8> {
    (0..length).map(|place| (place * 37 + 11) as u8).collect()
}

/// A busy machine that makes one step with all lines low; code from address 0 on.
pub fn edge(name: impl Into<String>, code: &[Line]) -> Case {
    let memory = busy_bytes(LENGTH);
    let marks = vec![0; marks::room(memory.len())];
    let (name, state) = (name.into(), busy_state());
    let case = Case { name, state, memory, marks, tape: Vec::new(), budget: 0, promise: None };
    case.steps(1).at(0, code)
}

impl Case {
    /// Puts code at an address.
    pub fn at(self, address: u32, code: &[Line]) -> Case {
        self.bytes_at(address, &assemble(code))
    }

    /// Puts bytes at an address.
    pub fn bytes_at(mut self, address: u32, bytes: &[u8]) -> Case {
        let start = address as usize;
        self.memory[start..start + bytes.len()].copy_from_slice(bytes);
        self
    }

    /// Other bytes of this length as memory, and the room for their marks.
    pub fn length(mut self, length: u32) -> Case {
        self.memory = busy_bytes(length);
        self.marks = vec![0; marks::room(length as usize)];
        self
    }

    pub fn pc(mut self, pc: u32) -> Case {
        self.state.pc = pc;
        self
    }

    pub fn psw(mut self, psw: u32) -> Case {
        self.state.psw = psw;
        self
    }

    /// An unmarked register.
    pub fn register(mut self, n: usize, value: u32) -> Case {
        self.state.registers[n] = Register { value, marked: false };
        self
    }

    /// A marked register.
    pub fn marked(mut self, n: usize, value: u32) -> Case {
        self.state.registers[n] = Register { value, marked: true };
        self
    }

    /// Marks a byte of memory.
    pub fn mark(self, address: u32) -> Case {
        self.mark_all(address..address + 1)
    }

    /// Marks bytes of memory.
    pub fn mark_all(mut self, addresses: Range<u32>) -> Case {
        marks::mark(&mut self.marks, addresses.start as usize..addresses.end as usize);
        self
    }

    /// The mark slice as these bytes, whatever they mean.
    pub fn mark_slice(mut self, bytes: &[u8]) -> Case {
        self.marks = bytes.to_vec();
        self
    }

    /// Any other change of the state.
    pub fn state(mut self, change: impl FnOnce(&mut State)) -> Case {
        change(&mut self.state);
        self
    }

    /// Any other change of the case.
    pub fn with(mut self, change: impl FnOnce(&mut Case)) -> Case {
        change(&mut self);
        self
    }

    /// Runs as many steps as there are bytes on this tape; all complete.
    pub fn lines(mut self, tape: &[u8]) -> Case {
        self.tape = tape.to_vec();
        self.budget = tape.len() as u32;
        let steps = self.budget.into();
        self.gives(10, steps)
    }

    /// Runs this many steps with all lines low; all complete.
    pub fn steps(self, budget: usize) -> Case {
        self.lines(&vec![0; budget])
    }

    /// The documents promise this reply after so many steps, the last of which is no bus error.
    pub fn gives(mut self, reply: u32, steps: u64) -> Case {
        self.promise =
            Some(Promise { reply, steps, bus_error: None, cycles: None, mark_byte: None });
        self
    }

    /// The last of the promised steps is a bus error.
    pub fn bus_error(mut self, access: Access) -> Case {
        self.promised().bus_error = Some(access);
        self
    }

    /// The promised steps cost so many cycles.
    pub fn costs(mut self, cycles: u32) -> Case {
        self.promised().cycles = Some(cycles);
        self
    }

    /// The promised steps leave this byte in the mark slice.
    pub fn leaves(mut self, place: usize, mark_byte: u8) -> Case {
        self.promised().mark_byte = Some((place, mark_byte));
        self
    }

    fn promised(&mut self) -> &mut Promise {
        self.promise.as_mut().expect("steps are promised")
    }

    /// The name alone doesn't say which reply comes.
    pub fn gives_any(mut self) -> Case {
        self.promise = None;
        self
    }
}
