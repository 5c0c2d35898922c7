//! All that is told of a run, in words or for machines.

use manik::{Entry, State};

use crate::checks::Checks;
use crate::history::Moment;
use crate::machine::Machine;
use crate::session::Ended;
use crate::symbols::Symbols;
use crate::why::Why;

/// The board's clock.
const CYCLES_A_SECOND: f64 = 24_000_000.0;

pub struct Report<'a> {
    pub image: String,
    pub ended: Ended,
    pub machine: &'a Machine,
    /// The instruction at the program counter; none if a byte of it is marked or outside memory.
    pub at_pc: Option<String>,
    pub symbols: &'a Symbols,
    pub checks: &'a Checks,
    pub why: Option<Why>,
    /// The steps up to the first check that failed, and those up to the end.
    pub moments: Vec<(Until, Moment)>,
}

#[derive(Clone, Copy, PartialEq, Eq)]
pub enum Until {
    End,
    Failure,
}

impl Report<'_> {
    /// Whether all checks hold.
    pub fn holds(&self) -> bool {
        self.checks.checks.iter().all(|check| check.holds(self.ended.reply))
    }

    pub fn seconds(&self) -> f64 {
        self.ended.cycles as f64 / CYCLES_A_SECOND
    }

    /// The name of an address in memory.
    pub fn symbol(&self, address: u32) -> Option<String> {
        let is_inside = (address as usize) < self.machine.memory.len();
        self.symbols.place(address).filter(|_| is_inside)
    }

    /// An address with its name, if it has one.
    pub fn place(&self, address: u32) -> String {
        match self.symbol(address) {
            Some(name) => format!("{address:08x} {name}"),
            None => format!("{address:08x}"),
        }
    }
}

/// The bits of PSW that stand for themselves, and TF and CY, which are told apart.
const PSW: [(u32, &str); 14] = [
    (0, "SW"),
    (1, "EI"),
    (2, "TI"),
    (3, "IP"),
    (4, "TE"),
    (5, "IE"),
    (6, "BIP"),
    (7, "PD"),
    (10, "BD"),
    (11, "II"),
    (12, "TR"),
    (13, "SS"),
    (14, "DBER"),
    (15, "IBER"),
];

/// The names of the bits of PSW that are set, without TF and CY.
pub fn psw_flags(state: &State) -> Vec<String> {
    let bit = |n: u32| state.psw >> n & 1 != 0;
    let mut flags: Vec<String> =
        PSW.into_iter().filter(|&(n, _)| bit(n)).map(|(_, name)| name.into()).collect();
    match state.psw >> 16 & 15 {
        0 => (),
        operand => flags.push(format!("SWI={operand}")),
    }
    flags.extend((0..6).filter(|line| bit(20 + line)).map(|line| format!("EI{line}")));
    flags.extend((0..6).filter(|line| bit(26 + line)).map(|line| format!("ES{line}")));
    flags
}

/// The names of the bits of HWDBG that are set.
pub fn hwdbg_flags(state: &State) -> Vec<String> {
    const NAMES: [&str; 9] = [
        "BPENB", "WPENB", "BP0_ENB", "BP1_ENB", "WP0_ENB", "WP1_ENB", "BP_HIT", "WP0_HIT",
        "WP1_HIT",
    ];
    let is_set = |&(n, _): &(usize, &str)| state.hwdbg >> n & 1 != 0;
    NAMES.into_iter().enumerate().filter(is_set).map(|(_, name)| name.into()).collect()
}

/// An entry in words.
pub fn entry_words(entry: Entry) -> String {
    match entry {
        Entry::Swint(operand) => format!("swint {operand}"),
        Entry::Debug(1) => "breakpoint".into(),
        Entry::Debug(2) => "watchpoint 0".into(),
        Entry::Debug(4) => "watchpoint 1".into(),
        Entry::Debug(_) => "watchpoints".into(),
        Entry::Timer => "timer".into(),
        Entry::External(line) => format!("line {line}"),
        Entry::FetchError => "bus error, fetch".into(),
        Entry::DataError => "bus error, data".into(),
    }
}

/// A time in the unit that suits it.
pub fn time(seconds: f64) -> String {
    match seconds {
        _ if seconds < 1e-3 => format!("{:.3} us", seconds * 1e6),
        _ if seconds < 1.0 => format!("{:.3} ms", seconds * 1e3),
        _ => format!("{seconds:.3} s"),
    }
}

#[cfg(test)]
mod tests {
    use super::*;

    #[test]
    fn flags_by_name() {
        let state = State { psw: 0x1043_0122, hwdbg: 0x47, ..State::fresh() };
        assert_eq!(psw_flags(&state), ["EI", "IE", "SWI=3", "EI2", "ES2"]);
        assert_eq!(hwdbg_flags(&state), ["BPENB", "WPENB", "BP0_ENB", "BP_HIT"]);
    }

    #[test]
    fn times() {
        assert_eq!(
            [time(0.0), time(0.000_012_5), time(0.25), time(61.5)],
            ["0.000 us", "12.500 us", "250.000 ms", "61.500 s"]
        );
    }
}
