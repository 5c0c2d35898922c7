//! The state record of 160 bytes, words big-endian (`include/manik.h`).
//!
//! ```text
//! 0 r0..r15 · 64 marks of r0..r15 · 80 pc · 84 PSW · 88 mark of TF · 89 mark of CY · 90 pending ·
//! 91 zero · 92 sfr1..sfr10 · 132 cycles · 136..159 zero
//! ```

use crate::state::{Register, State};

/// The length of a record.
pub const LENGTH: usize = 160;

/// Where the parts of a record begin.
mod place {
    pub const REGISTERS: usize = 0;
    pub const REGISTER_MARKS: usize = 64;
    pub const PC: usize = 80;
    pub const PSW: usize = 84;
    pub const TF_MARK: usize = 88;
    pub const CY_MARK: usize = 89;
    pub const PENDING: usize = 90;
    pub const ZERO: usize = 91;
    pub const SFR_1: usize = 92;
    pub const CYCLES: usize = 132;
    pub const ZEROS: usize = 136;
}

/// The state of a record. None if it has another length, a mark or flag byte above 1, or a byte
/// that isn't zero where zero stands.
pub fn read(record: &[u8]) -> Option<State> {
    let record: &[u8; LENGTH] = record.try_into().ok()?;
    if record[place::ZERO] != 0 || record[place::ZEROS..].iter().any(|&byte| byte != 0) {
        return None;
    }
    let mut registers = [Register::default(); 16];
    for (n, register) in registers.iter_mut().enumerate() {
        register.value = word(record, place::REGISTERS + 4 * n);
        register.marked = flag(record, place::REGISTER_MARKS + n)?;
    }
    let sfr = |number: usize| word(record, place::SFR_1 + 4 * (number - 1));
    Some(State {
        registers,
        pc: word(record, place::PC),
        psw: word(record, place::PSW),
        tf_marked: flag(record, place::TF_MARK)?,
        cy_marked: flag(record, place::CY_MARK)?,
        pending: flag(record, place::PENDING)?,
        cycles: word(record, place::CYCLES),
        ra: sfr(1),
        ipc: sfr(2),
        timer: sfr(3),
        ibase: sfr(4),
        usreg: sfr(5),
        hwdbg: sfr(6),
        bp0: sfr(7),
        bp1: sfr(8),
        wp0: sfr(9),
        wp1: sfr(10),
    })
}

/// The record of a state.
pub fn write(state: &State) -> [u8; LENGTH] {
    let mut record = [0; LENGTH];
    for (n, register) in state.registers.iter().enumerate() {
        put(&mut record, place::REGISTERS + 4 * n, register.value);
        record[place::REGISTER_MARKS + n] = register.marked.into();
    }
    put(&mut record, place::PC, state.pc);
    put(&mut record, place::PSW, state.psw);
    record[place::TF_MARK] = state.tf_marked.into();
    record[place::CY_MARK] = state.cy_marked.into();
    record[place::PENDING] = state.pending.into();
    for number in 1..=10 {
        put(&mut record, place::SFR_1 + 4 * (number as usize - 1), state.sfr(number));
    }
    put(&mut record, place::CYCLES, state.cycles);
    record
}

fn word(record: &[u8; LENGTH], place: usize) -> u32 {
    u32::from_be_bytes(std::array::from_fn(|i| record[place + i]))
}

fn put(record: &mut [u8; LENGTH], place: usize, value: u32) {
    record[place..place + 4].copy_from_slice(&value.to_be_bytes());
}

fn flag(record: &[u8; LENGTH], place: usize) -> Option<bool> {
    match record[place] {
        0 => Some(false),
        1 => Some(true),
        _ => None,
    }
}
