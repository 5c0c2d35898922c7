//! The state and its record of 160 bytes, words big-endian (`include/manik.h`).

/// The length of a record.
pub const RECORD_LENGTH: usize = 160;

/// Where the parts of a record begin. Byte 91 and bytes 136 to 159 are zero.
mod place {
    pub const REGISTERS: usize = 0;
    pub const REGISTER_MARKS: usize = 64;
    pub const PC: usize = 80;
    pub const PSW: usize = 84;
    pub const TF_MARK: usize = 88;
    pub const CY_MARK: usize = 89;
    pub const PENDING: usize = 90;
    pub const ZERO: usize = 91;
    pub const SFR_1: usize = 92;
    pub const CYCLES: usize = 132;
    pub const ZEROS: usize = 136;
}

/// The bits of PSW that carry marks.
pub(crate) mod psw {
    pub const TF: u32 = 1 << 8;
    pub const CY: u32 = 1 << 9;
}

/// A register of 32 bits with its mark.
#[derive(Clone, Copy, Default, PartialEq, Eq, Hash)]
pub struct Register {
    pub value: u32,
    pub marked: bool,
}

/// The state of document 01, "What the model has".
#[derive(Clone, PartialEq, Eq, Hash)]
pub struct State {
    pub registers: [Register; 16],
    /// The program counter.
    pub pc: u32,
    pub psw: u32,
    /// The marks of PSW's bits TF and CY.
    pub tf_marked: bool,
    pub cy_marked: bool,
    /// Timer pending.
    pub pending: bool,
    pub ra: u32,
    pub ipc: u32,
    pub timer: u32,
    pub ibase: u32,
    pub usreg: u32,
    pub hwdbg: u32,
    pub bp0: u32,
    pub bp1: u32,
    pub wp0: u32,
    pub wp1: u32,
    /// The cycle count, modulo 2^32.
    pub cycles: u32,
}

impl State {
    /// "Fresh: all zero and unmarked, HWDBG 3."
    pub const fn fresh() -> State {
        State {
            registers: [Register { value: 0, marked: false }; 16],
            pc: 0,
            psw: 0,
            tf_marked: false,
            cy_marked: false,
            pending: false,
            ra: 0,
            ipc: 0,
            timer: 0,
            ibase: 0,
            usreg: 0,
            hwdbg: 3,
            bp0: 0,
            bp1: 0,
            wp0: 0,
            wp1: 0,
            cycles: 0,
        }
    }

    /// The record of the state.
    pub fn to_record(&self) -> [u8; RECORD_LENGTH] {
        let mut record = [0; RECORD_LENGTH];
        for (n, register) in self.registers.iter().enumerate() {
            put(&mut record, place::REGISTERS + 4 * n, register.value);
            record[place::REGISTER_MARKS + n] = register.marked.into();
        }
        put(&mut record, place::PC, self.pc);
        put(&mut record, place::PSW, self.psw);
        record[place::TF_MARK] = self.tf_marked.into();
        record[place::CY_MARK] = self.cy_marked.into();
        record[place::PENDING] = self.pending.into();
        for (n, value) in self.special().into_iter().enumerate() {
            put(&mut record, place::SFR_1 + 4 * n, value);
        }
        put(&mut record, place::CYCLES, self.cycles);
        record
    }

    /// The state of a record; none if it is out of shape.
    pub fn from_record(record: &[u8]) -> Option<State> {
        let record: &[u8; RECORD_LENGTH] = record.try_into().ok()?;
        if record[place::ZERO] != 0 || record[place::ZEROS..].iter().any(|&byte| byte != 0) {
            return None;
        }
        let mut registers = [Register::default(); 16];
        for (n, register) in registers.iter_mut().enumerate() {
            register.value = word(record, place::REGISTERS + 4 * n);
            register.marked = flag(record, place::REGISTER_MARKS + n)?;
        }
        let special = std::array::from_fn(|n| word(record, place::SFR_1 + 4 * n));
        let [ra, ipc, timer, ibase, usreg, hwdbg, bp0, bp1, wp0, wp1] = special;
        Some(State {
            registers,
            pc: word(record, place::PC),
            psw: word(record, place::PSW),
            tf_marked: flag(record, place::TF_MARK)?,
            cy_marked: flag(record, place::CY_MARK)?,
            pending: flag(record, place::PENDING)?,
            ra,
            ipc,
            timer,
            ibase,
            usreg,
            hwdbg,
            bp0,
            bp1,
            wp0,
            wp1,
            cycles: word(record, place::CYCLES),
        })
    }

    /// The names of SFR 1 to 10.
    pub(crate) const SPECIAL: [&'static str; 10] =
        ["ra", "ipc", "timer", "ibase", "usreg", "hwdbg", "bp0", "bp1", "wp0", "wp1"];

    /// SFR 1 to 10.
    pub(crate) const fn special(&self) -> [u32; 10] {
        [
            self.ra, self.ipc, self.timer, self.ibase, self.usreg, self.hwdbg, self.bp0, self.bp1,
            self.wp0, self.wp1,
        ]
    }
}

impl Default for State {
    /// The fresh state.
    fn default() -> State {
        State::fresh()
    }
}

/// The cycle count in a record of the right length; none if it has another.
pub(crate) fn cycles(record: &[u8]) -> Option<u32> {
    record.try_into().ok().map(|record| word(record, place::CYCLES))
}

fn word(record: &[u8; RECORD_LENGTH], place: usize) -> u32 {
    u32::from_be_bytes(std::array::from_fn(|i| record[place + i]))
}

fn put(record: &mut [u8; RECORD_LENGTH], place: usize, value: u32) {
    record[place..place + 4].copy_from_slice(&value.to_be_bytes());
}

fn flag(record: &[u8; RECORD_LENGTH], place: usize) -> Option<bool> {
    match record[place] {
        0 => Some(false),
        1 => Some(true),
        _ => None,
    }
}
