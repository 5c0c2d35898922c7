//! What lines say, and the places of their expressions' values.

use crate::isa::Instr;
use crate::word::{align, Width};

/// What a line says, but for its expression.
#[derive(Clone, Copy)]
pub(super) enum Content {
    Instruction(Instr),
    Half,
    Word,
}

/// Where a value goes: it fits if it is `base` and a whole number of `unit`, which is from `lowest`
/// to `highest`.
#[derive(Clone, Copy)]
pub(super) struct Place {
    pub(super) base: u32,
    pub(super) unit: i64,
    pub(super) lowest: i64,
    pub(super) highest: i64,
}

impl Place {
    const fn new(base: u32, unit: i64, lowest: i64, highest: i64) -> Place {
        Place { base, unit, lowest, highest }
    }

    /// A signed field of so many bits.
    const fn signed(base: u32, unit: i64, bits: u32) -> Place {
        Place::new(base, unit, -(1 << (bits - 1)), (1 << (bits - 1)) - 1)
    }

    /// An unsigned field of so many bits.
    const fn unsigned(base: u32, unit: i64, bits: u32) -> Place {
        Place::new(base, unit, 0, (1 << bits) - 1)
    }

    /// The value with this number of units.
    pub(super) fn value(&self, units: i64) -> i32 {
        self.base.wrapping_add((units * self.unit) as u32) as i32
    }

    /// Whether a value fits.
    pub(super) fn takes(&self, value: i32) -> bool {
        let distance = i64::from((value as u32).wrapping_sub(self.base) as i32);
        distance % self.unit == 0 && (self.lowest..=self.highest).contains(&(distance / self.unit))
    }
}

impl Content {
    pub(super) fn size(self) -> u32 {
        match self {
            Content::Instruction(instr) => instr.size(),
            Content::Half => 2,
            Content::Word => 4,
        }
    }

    pub(super) fn name(self) -> &'static str {
        match self {
            Content::Instruction(instr) => instr.mnemonic(),
            Content::Half => "half",
            Content::Word => "word",
        }
    }

    /// The place of its expression's value at an address; none if it has no expression.
    pub(super) fn place(self, address: u32) -> Option<Place> {
        let instr = match self {
            Content::Half => return Some(Place::unsigned(0, 1, 16)),
            Content::Word => return Some(Place::signed(0, 1, 32)),
            Content::Instruction(instr) => instr,
        };
        let place = match instr {
            Instr::Andi { .. } => Place::unsigned(0, 1, 8),
            Instr::Addi { .. } | Instr::Movi { .. } => Place::signed(0, 1, 8),
            Instr::MultShiftImmediate { .. } | Instr::Swint { .. } => Place::unsigned(0, 1, 4),
            Instr::CompareImmediate { .. } | Instr::ConditionalAddImmediate { .. } => {
                Place::signed(0, 1, 4)
            }
            Instr::Load { width, .. } | Instr::Store { width, .. } => {
                Place::unsigned(0, width.bytes().into(), 4)
            }
            Instr::Ldrpc { .. } => Place::unsigned(align(address, Width::Word), 4, 8),
            Instr::ShortJump { .. } => Place::signed(address, 2, 10),
            Instr::LongJump { .. } | Instr::Jl { .. } => Place::signed(address, 2, 26),
            _ => return None,
        };
        Some(place)
    }

    /// The operands, with this text as the expression.
    pub(super) fn operands(self, expression: String) -> Vec<String> {
        let (r, sfr) = (|n: u32| format!("r{n}"), |n: u32| format!("sfr{n}"));
        let Content::Instruction(instr) = self else { return vec![expression] };
        match instr {
            Instr::Alu { rd, rb, .. }
            | Instr::MultShift { rd, rb, .. }
            | Instr::Compare { rd, rb, .. }
            | Instr::Conditional { rd, rb, .. } => vec![r(rd), r(rb)],
            Instr::Andi { rd, .. }
            | Instr::Addi { rd, .. }
            | Instr::Movi { rd, .. }
            | Instr::MultShiftImmediate { rd, .. }
            | Instr::CompareImmediate { rd, .. }
            | Instr::ConditionalAddImmediate { rd, .. }
            | Instr::Ldrpc { rd, .. } => vec![r(rd), expression],
            Instr::Load { rd, rb, .. } | Instr::Store { rd, rb, .. } => {
                vec![r(rd), expression, r(rb)]
            }
            Instr::Mfsfr { rd, sfr: n } => vec![r(rd), sfr(n)],
            Instr::Mtsfr { sfr: n, rb } => vec![sfr(n), r(rb)],
            Instr::Jr { rb } | Instr::Jrl { rb } => vec![r(rb)],
            Instr::Jsfr { sfr: n } => vec![sfr(n)],
            Instr::Swint { .. }
            | Instr::ShortJump { .. }
            | Instr::LongJump { .. }
            | Instr::Jl { .. } => vec![expression],
        }
    }
}
