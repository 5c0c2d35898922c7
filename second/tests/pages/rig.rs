//! A machine of 128 bytes with one instruction at address 0.

use second::isa::{encode, mnemonics, Halves, Instr};
use second::reply::Reply;
use second::state::State;
use second::step::{step, Step};

/// State, memory and marks.
#[derive(Clone)]
pub struct Rig {
    pub state: State,
    pub memory: Vec<u8>,
    /// A bit for each byte of memory.
    pub marks: Vec<u8>,
}

impl Rig {
    /// Fresh, with this instruction.
    pub fn with(instr: Instr) -> Rig {
        let mut memory = vec![0; 128];
        match encode(&instr).expect("an instruction in range") {
            Halves::One(first) => memory[..2].copy_from_slice(&first.to_be_bytes()),
            Halves::Two(first, second) => {
                memory[..2].copy_from_slice(&first.to_be_bytes());
                memory[2..4].copy_from_slice(&second.to_be_bytes());
            }
        }
        let marks = vec![0; memory.len() / 8];
        Rig { state: State::fresh(), memory, marks }
    }

    /// Makes one step with these lines.
    pub fn step(&mut self, lines: u8) -> Result<Step, Reply> {
        step(&mut self.state, &mut self.memory, &mut self.marks, lines)
    }
}

/// The instruction with this mnemonic and these operands, in the order of `docs/VECTORS.md`.
pub fn instr(name: &str, operands: [u32; 3]) -> Instr {
    let named = mnemonics().into_iter().find(|each| each.mnemonic() == name);
    named.unwrap_or_else(|| panic!("{name} is no mnemonic")).with_operands(operands)
}
