//! What a completed step costs in cycles (document 02, ticket 6): "Costs from the guide's pipeline
//! chapters, all code in cache", and house rules.

use crate::isa::MultShiftOp;
use crate::state::hwdbg;
use crate::step::Entry;
use crate::word::shift_amount;

/// "ALU, compare and conditional ALU 1", the last whether it is done or not.
pub const ALU: u32 = 1;

/// "taken jump 2": every jump without a condition is taken.
pub const TAKEN: u32 = 2;

/// "not taken 3".
pub const NOT_TAKEN: u32 = 3;

/// "load and store 2".
pub const ACCESS: u32 = 2;

/// "multiply 2".
pub const MULTIPLY: u32 = 2;

/// "mfsfr and mtsfr 1".
pub const SFR: u32 = 1;

/// A multiply, or a shift by this amount: "2 for amounts 0 to 7, 3 for 8 to 15, 4 for 16 to 23, 5
/// above". The amount is the one that the shift uses, the low 6 bits.
#[inline]
pub const fn mult_shift(op: MultShiftOp, amount: u32) -> u32 {
    match (op, shift_amount(amount)) {
        (MultShiftOp::Mult, _) => MULTIPLY,
        (_, 0..8) => 2,
        (_, 8..16) => 3,
        (_, 16..24) => 4,
        _ => 5,
    }
}

/// A step that makes an entry: "swint 2, any other entry 4 in all, a watchpoint's 6 with its load or
/// store". Bus errors are among the others.
pub const fn entry(entry: Entry) -> u32 {
    match entry {
        Entry::Swint(_) => 2,
        Entry::Debug(hwdbg::BP_HIT) => 4,
        Entry::Debug(_) => 6,
        Entry::Timer | Entry::External(_) | Entry::BusError(_) => 4,
    }
}
