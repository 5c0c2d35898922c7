//! Memories full of instructions.

use second::isa::{encode, mnemonics, Halves, Instr, When};
use second::state::sfr;
use second::word::sign_extend;

use crate::random::Random;

/// Where the parts of a firmware lie; its IBASE is 0.
pub const SUBROUTINE: u32 = 0x50;
pub const LOOP: u32 = 0x70;
pub const DATA: usize = 0x100;

/// The registers of a firmware: those below are free, r8 to r13 are bases of data.
pub const BASES: std::ops::Range<usize> = 8..14;
pub const SUBROUTINE_BASE: usize = 14;
pub const LOOP_BASE: usize = 15;

/// The entries of a firmware, and where their handlers begin; the last is that of bus errors.
const HANDLERS: [(u32, u32); 4] = [(4, 0x14), (8, 0x22), (12, 0x30), (BUS_ERROR, 0x3e)];
const BUS_ERROR: u32 = 16;

/// What the parts of a firmware may do.
#[derive(Clone, Copy, PartialEq)]
enum Part {
    Handler,
    BusError,
    Subroutine,
    Loop,
}

/// Makes up instructions.
pub struct Code {
    mnemonics: Vec<Instr>,
}

impl Code {
    pub fn new() -> Code {
        let mut mnemonics = mnemonics();
        // The moves of SFR are few mnemonics with many rules, so they come three times as often.
        let is_move = |instr: &Instr| matches!(instr, Instr::Mfsfr { .. } | Instr::Mtsfr { .. });
        let moves: Vec<Instr> = mnemonics.iter().copied().filter(is_move).collect();
        mnemonics.extend([&moves[..], &moves[..]].concat());
        Code { mnemonics }
    }

    /// Mostly instructions, some bytes of any kind. Often the end of the code leads back, so that
    /// it runs on. A long memory holds bytes of any kind behind it.
    pub fn soup(&self, random: &mut Random, length: usize) -> Vec<u8> {
        let strange = random.pick(&[200, 200, 200, 40, 2]);
        let code_length = length.min(256);
        let mut memory = Vec::with_capacity(length + 4);
        while memory.len() < code_length {
            if random.once_in(strange) {
                memory.extend((random.word() as u16).to_be_bytes());
            } else {
                put(&mut memory, self.any(random));
            }
        }
        memory.truncate(code_length);
        if code_length >= 16 && !random.once_in(3) {
            memory.truncate(code_length - 2);
            let back = 1 + random.below(code_length as u32 / 2 - 1);
            put(&mut memory, short_jump(When::Always, back.wrapping_neg()));
        }
        memory.extend(random.bytes(length - code_length));
        memory
    }

    /// Handlers, a subroutine and a loop; the rest is data.
    pub fn firmware(&self, random: &mut Random, length: usize) -> Vec<u8> {
        let mut memory = random.bytes(length);
        let from_entry = Instr::Jsfr { sfr: sfr::IPC };
        for (entry, handler) in HANDLERS {
            place(&mut memory, entry, &[long_jump(When::Always, (handler - entry) / 2)]);
            let part = if entry == BUS_ERROR { Part::BusError } else { Part::Handler };
            self.part(random, part, &mut memory, handler, 14, from_entry);
        }
        let to_caller = Instr::Jsfr { sfr: sfr::RA };
        self.part(random, Part::Subroutine, &mut memory, SUBROUTINE, 32, to_caller);
        let size = DATA as u32 - LOOP;
        let back = (size / 2 - 1).wrapping_neg();
        let again = [short_jump(When::Always, back), Instr::Jr { rb: LOOP_BASE as u32 }];
        let again = random.pick(&again);
        self.part(random, Part::Loop, &mut memory, LOOP, size, again);
        memory
    }

    /// Code of this size: instructions that lead to the next one, and the last one.
    fn part(
        &self,
        random: &mut Random,
        part: Part,
        memory: &mut [u8],
        start: u32,
        size: u32,
        last: Instr,
    ) {
        let mut code = Vec::new();
        let mut left = size - last.size();
        if part == Part::Handler && random.once_in(2) {
            let simm8 = 1 + random.below(20);
            code.extend([Instr::Movi { rd: 7, simm8 }, Instr::Mtsfr { sfr: sfr::TIMER, rb: 7 }]);
            left -= 4;
        }
        // After a fetch IPC is outside memory, so the handler goes to the caller instead.
        if part == Part::BusError && random.once_in(2) {
            let to_caller = Instr::Mtsfr { sfr: sfr::IPC, rb: 7 };
            code.extend([Instr::Mfsfr { rd: 7, sfr: sfr::RA }, to_caller]);
            left -= 4;
        }
        while left > 0 {
            let own_address = start + size - last.size() - left;
            let more = self.tame(random, part, own_address);
            let bytes: u32 = more.iter().map(Instr::size).sum();
            // What doesn't fit is left out; something short comes in the end.
            if bytes <= left {
                left -= bytes;
                code.extend(more);
            }
        }
        code.push(last);
        place(memory, start, &code);
    }

    /// One instruction, or a jump with what it jumps over.
    fn tame(&self, random: &mut Random, part: Part, own_address: u32) -> Vec<Instr> {
        let instr = self.any(random);
        match instr {
            Instr::Load { width, uimm4, .. } => {
                let (rd, rb) = (random.below(8), data_base(random));
                vec![Instr::Load { width, rd, uimm4, rb }]
            }
            Instr::Store { width, uimm4, .. } => {
                let (rd, rb) = (random.below(8), data_base(random));
                vec![Instr::Store { width, rd, uimm4, rb }]
            }
            Instr::Ldrpc { .. } => {
                vec![Instr::Ldrpc { rd: random.below(8), uimm8: random.below(30) }]
            }
            Instr::ShortJump { when, .. } => vec![short_jump(when, 2), over(random)],
            Instr::LongJump { when, .. } => vec![long_jump(when, 3), over(random)],
            Instr::Jl { .. } if part == Part::Loop => {
                vec![Instr::Jl { displacement: halfwords(own_address, SUBROUTINE) }]
            }
            // It returns four bytes behind.
            Instr::Jrl { .. } if part == Part::Loop => {
                vec![Instr::Jrl { rb: SUBROUTINE_BASE as u32 }, over(random)]
            }
            Instr::Mtsfr { .. } => {
                let sfr = match part {
                    Part::Loop => random.pick(&[0, 1, 2, 3, 3, 5, 6, 7, 8, 9, 10]),
                    _ => random.pick(&[3, 5, 9, 10]),
                };
                vec![Instr::Mtsfr { sfr, rb: random.below(8) }]
            }
            Instr::Swint { .. } if part == Part::Loop => vec![instr],
            Instr::Swint { .. } | Instr::Jr { .. } | Instr::Jsfr { .. } => vec![over(random)],
            Instr::Jl { .. } | Instr::Jrl { .. } => vec![over(random)],
            _ => {
                let [rd, last, _] = instr.operands().map(|operand| operand.unwrap_or(0));
                vec![instr.with_operands([rd % 8, last, 0])]
            }
        }
    }

    /// An instruction with operands in range.
    pub fn any(&self, random: &mut Random) -> Instr {
        let instr = random.pick(&self.mnemonics);
        let operands = match instr {
            Instr::Andi { .. } => [target(random), random.below(256), 0],
            Instr::Ldrpc { .. } => [target(random), random.pick(&[0, 1, 2, 3, 5, 9, 30, 255]), 0],
            Instr::Addi { .. } | Instr::Movi { .. } => {
                [target(random), sign_extend(random.word(), 8), 0]
            }
            Instr::CompareImmediate { .. } | Instr::ConditionalAddImmediate { .. } => {
                [target(random), sign_extend(random.word(), 4), 0]
            }
            Instr::Mfsfr { .. } => [target(random), random.below(11), 0],
            Instr::Mtsfr { .. } => [random.below(11), random.below(16), 0],
            Instr::Jsfr { .. } => [random.below(4), 0, 0],
            Instr::ShortJump { .. } => [displacement(random, 10), 0, 0],
            Instr::LongJump { .. } | Instr::Jl { .. } => [displacement(random, 26), 0, 0],
            Instr::Load { .. } | Instr::Store { .. } => {
                [target(random), random.pick(&[0, 0, 0, 1, 2, 3, 7, 15]), base(random)]
            }
            Instr::Jr { .. } | Instr::Jrl { .. } => [base(random), 0, 0],
            Instr::Swint { .. } => [random.below(16), 0, 0],
            _ => {
                let rd = target(random);
                [rd, if random.once_in(10) { rd } else { random.below(16) }, 0]
            }
        };
        instr.with_operands(operands)
    }
}

/// A register to write: mostly r0 to r7, so that the others go on holding addresses.
fn target(random: &mut Random) -> u32 {
    let many = random.pick(&[8, 8, 8, 16]);
    random.below(many)
}

/// A register that holds an address: mostly r8 to r15.
fn base(random: &mut Random) -> u32 {
    let first = random.pick(&[8, 8, 8, 0]);
    first + random.below(8)
}

/// A base of a firmware's data.
fn data_base(random: &mut Random) -> u32 {
    BASES.start as u32 + random.below(BASES.len() as u32)
}

/// Halfwords in so many bits, mostly few.
fn displacement(random: &mut Random, bits: u32) -> u32 {
    match random.below(30) {
        0 => sign_extend(random.word(), bits),
        _ => random.below(12).wrapping_sub(4),
    }
}

/// The displacement of a jump between two addresses.
pub fn halfwords(from: u32, to: u32) -> u32 {
    (to.wrapping_sub(from) as i32 >> 1) as u32
}

/// An instruction of one half to jump over.
fn over(random: &mut Random) -> Instr {
    Instr::Addi { rd: random.below(8), simm8: sign_extend(random.word(), 8) }
}

fn short_jump(when: When, displacement: u32) -> Instr {
    Instr::ShortJump { when, displacement }
}

fn long_jump(when: When, displacement: u32) -> Instr {
    Instr::LongJump { when, displacement }
}

/// Puts code at an address.
pub fn place(memory: &mut [u8], address: u32, code: &[Instr]) {
    let mut bytes = Vec::new();
    code.iter().for_each(|&instr| put(&mut bytes, instr));
    let start = address as usize;
    memory[start..start + bytes.len()].copy_from_slice(&bytes);
}

/// Puts an instruction at an address, as far as memory goes.
pub fn place_what_fits(memory: &mut [u8], address: u32, instr: Instr) {
    let mut bytes = Vec::new();
    put(&mut bytes, instr);
    for (place, byte) in memory.iter_mut().skip(address as usize).zip(bytes) {
        *place = byte;
    }
}

/// Adds the bytes of an instruction.
fn put(bytes: &mut Vec<u8>, instr: Instr) {
    match encode(&instr).expect("the operands are in range") {
        Halves::One(half) => bytes.extend(half.to_be_bytes()),
        Halves::Two(first, second) => {
            bytes.extend(first.to_be_bytes());
            bytes.extend(second.to_be_bytes());
        }
    }
}
