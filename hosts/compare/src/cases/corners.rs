//! Corners drawn on purpose.

use second::isa::Instr;
use second::state::{hwdbg, psw};
use second::word::{sign_extend, Width};

use super::{code, Cases, Draft};
use crate::random::Random;

impl Cases {
    /// Moves one thing, or a few that belong together, into a corner.
    pub(super) fn corner(&self, random: &mut Random, draft: &mut Draft) {
        let length = draft.memory.len() as u32;
        match random.below(8) {
            0 | 1 => access(random, draft),
            2 => {
                draft.state.timer = 1 + random.below(6);
                draft.state.pending = false;
                draft.state.psw |= psw::TE;
            }
            3 => {
                let end = [length, length.wrapping_sub(1), length.wrapping_sub(256), u32::MAX];
                draft.state.ibase = random.pick(&end);
            }
            4 => {
                draft.state.hwdbg |=
                    random.pick(&[hwdbg::BP0, hwdbg::BP1, hwdbg::BP0 | hwdbg::BP1]);
                draft.state.bp0 = draft.state.pc;
                draft.state.bp1 = draft.state.pc.wrapping_add(random.pick(&[0, 0, 2]));
            }
            5 => {
                draft.state.ra |= 1;
                draft.state.ipc |= 1;
                let sfr = random.pick(&[1, 2]);
                plant(draft, Instr::Jsfr { sfr });
            }
            6 => {
                let ends = [length, length.wrapping_sub(2), length.wrapping_sub(4), 0xffff_fffe];
                draft.state.pc = random.pick(&ends) & !1;
                if random.once_in(2) {
                    plant(draft, self.code.any(random));
                }
            }
            _ => {
                let displacement = far_displacement(random, draft.state.pc, length);
                plant(draft, Instr::Jl { displacement });
            }
        }
    }
}

/// A load or store next, at the end of memory, across 2^32 or at a watchpoint.
fn access(random: &mut Random, draft: &mut Draft) {
    let length = draft.memory.len() as u32;
    let width = random.pick(&Width::ALL);
    let (rd, uimm4, rb) = (random.below(16), random.below(16), random.below(16));
    let place = match random.below(3) {
        0 => length.wrapping_sub(random.below(6)).wrapping_add(random.pick(&[0, 0, 4])),
        1 => random.below(4),
        _ => random.below(length.max(1)),
    };
    // The sum of base and offset is this place: a small one comes by wrapping.
    draft.state.registers[rb as usize].value = place.wrapping_sub(uimm4 * width.bytes());
    draft.state.registers[rb as usize].marked = random.once_in(20);
    let aligned = place & !(width.bytes() - 1);
    draft.state.wp0 = random.pick(&[aligned, place, aligned.wrapping_add(1)]);
    draft.state.wp1 = random.pick(&[aligned, draft.state.wp1]);
    draft.state.hwdbg |= random.pick(&[0, hwdbg::WP0, hwdbg::WP1, hwdbg::WP0 | hwdbg::WP1]);
    if random.once_in(3) {
        mark_around(random, draft, aligned as usize);
    }
    let store = random.once_in(2);
    let access = if store {
        Instr::Store { width, rd, uimm4, rb }
    } else {
        Instr::Load { width, rd, uimm4, rb }
    };
    plant(draft, access);
}

/// Halfwords to an end of memory or of the address space.
fn far_displacement(random: &mut Random, pc: u32, length: u32) -> u32 {
    let target = random.pick(&[length, length.wrapping_sub(2), 0xffff_fffe, 0, pc]);
    sign_extend(code::halfwords(pc, target), 26)
}

/// Puts an instruction at the program counter, as far as memory goes.
fn plant(draft: &mut Draft, instr: Instr) {
    code::place_what_fits(&mut draft.memory, draft.state.pc, instr);
}

/// Any marks for the eight bytes whose mark byte is this address's, none past the end.
fn mark_around(random: &mut Random, draft: &mut Draft, address: usize) {
    let first = address / 8 * 8;
    let inside = draft.memory.len().saturating_sub(first).min(8);
    let any = random.below(1 << inside) as u8;
    draft.marks.get_mut(address / 8).into_iter().for_each(|byte| *byte = any);
}
