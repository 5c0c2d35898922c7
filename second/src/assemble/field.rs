//! What a value becomes in the bits of its line.

use super::line::Content;
use crate::isa::Instr;
use crate::word::{align, Width};

impl Content {
    /// The number that a value asks for at an address; none if it asks for no whole one. Whether
    /// the number is in its range shows where it becomes bits.
    pub(super) fn field(self, value: i32, address: u32) -> Option<u32> {
        let value = value as u32;
        let Content::Instruction(instr) = self else { return Some(value) };
        match instr {
            Instr::Load { width, .. } | Instr::Store { width, .. } => units(value, width),
            // The address is the sum after alignment, so it is counted from where that begins.
            Instr::Ldrpc { .. } => {
                units(value.wrapping_sub(align(address, Width::Word)), Width::Word)
            }
            Instr::ShortJump { .. } | Instr::LongJump { .. } | Instr::Jl { .. } => {
                halfwords(value.wrapping_sub(address))
            }
            _ => Some(value),
        }
    }
}

/// The number of units in some bytes, if they are whole ones. Negative bytes, taken as a word, are
/// more than any field holds.
fn units(bytes: u32, width: Width) -> Option<u32> {
    bytes.is_multiple_of(width.bytes()).then_some(bytes / width.bytes())
}

/// The signed number of halfwords in a signed number of bytes, if they are whole ones.
fn halfwords(bytes: u32) -> Option<u32> {
    bytes.is_multiple_of(2).then_some((bytes as i32 / 2) as u32)
}
