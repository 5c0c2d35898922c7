//! The parts of a state that an instruction reads and writes, as numbers: r0 to r15, TF and CY,
//! which may be marked, and SFR 0 to 10.

use manik::State;

pub const TF: u8 = 16;
pub const CY: u8 = 17;
const SFR_0: u8 = 18;

/// How many places there are.
pub const COUNT: usize = 29;

const SFR_NAMES: [&str; 11] =
    ["psw", "ra", "ipc", "timer", "ibase", "usreg", "hwdbg", "bp0", "bp1", "wp0", "wp1"];

const PSW_TF: u32 = 1 << 8;
const PSW_CY: u32 = 1 << 9;

/// A set of places, one bit each.
#[derive(Clone, Copy, Debug, Default, PartialEq, Eq)]
pub struct Places(u32);

impl Places {
    pub const NONE: Places = Places(0);

    pub const fn with(self, place: u8) -> Places {
        Places(self.0 | 1 << place)
    }

    pub const fn and(self, other: Places) -> Places {
        Places(self.0 & other.0)
    }

    pub const fn has(self, place: u8) -> bool {
        self.0 >> place & 1 != 0
    }

    /// From the lowest on.
    pub fn iter(self) -> impl Iterator<Item = u8> {
        let mut left = self.0;
        std::iter::from_fn(move || {
            let place = left.trailing_zeros() as u8;
            left &= left.wrapping_sub(1);
            (place < 32).then_some(place)
        })
    }
}

/// The place of SFR n.
pub const fn sfr(n: u8) -> u8 {
    SFR_0 + n
}

pub fn name(place: u8) -> String {
    match place {
        0..=15 => format!("r{place}"),
        TF => "tf".into(),
        CY => "cy".into(),
        _ => SFR_NAMES[usize::from(place - SFR_0)].into(),
    }
}

/// The places that are marked.
pub fn marked(state: &State) -> Places {
    let flag = |bits: u32, (n, marked): (u32, bool)| bits | u32::from(marked) << n;
    let registers = (0..).zip(state.registers.iter().map(|register| register.marked)).fold(0, flag);
    let flags = [(TF.into(), state.tf_marked), (CY.into(), state.cy_marked)];
    Places(flags.into_iter().fold(registers, flag))
}

/// Whether TF is 1; for those alone who have seen that it is not marked.
pub fn tf(state: &State) -> bool {
    state.psw & PSW_TF != 0
}

/// PSW without TF and CY, which stand apart.
pub fn psw(state: &State) -> u32 {
    state.psw & !(PSW_TF | PSW_CY)
}

/// The content of a place; none if it is marked.
pub fn content(state: &State, place: u8) -> Option<u32> {
    let flag = |bit: u32| u32::from(state.psw & bit != 0);
    match place {
        0..=15 => {
            let register = state.registers[usize::from(place)];
            (!register.marked).then_some(register.value)
        }
        TF => (!state.tf_marked).then(|| flag(PSW_TF)),
        CY => (!state.cy_marked).then(|| flag(PSW_CY)),
        _ => Some(special(state)[usize::from(place - SFR_0)]),
    }
}

/// SFR 0 to 10.
fn special(state: &State) -> [u32; 11] {
    [
        psw(state),
        state.ra,
        state.ipc,
        state.timer,
        state.ibase,
        state.usreg,
        state.hwdbg,
        state.bp0,
        state.bp1,
        state.wp0,
        state.wp1,
    ]
}

/// A content as it is written: flags as 0 or 1, words in 8 hex digits, and stars for what is marked.
pub fn shown(place: u8, content: Option<u32>) -> String {
    match (place, content) {
        (_, None) => "********".into(),
        (TF | CY, Some(flag)) => flag.to_string(),
        (_, Some(word)) => format!("{word:08x}"),
    }
}

#[cfg(test)]
mod tests {
    use super::*;

    #[test]
    fn sets() {
        let set = Places::NONE.with(3).with(TF).with(sfr(10));
        assert_eq!(set.iter().collect::<Vec<_>>(), [3, 16, 28]);
        assert!(set.has(TF) && !set.has(CY));
        assert_eq!(set.iter().map(name).collect::<Vec<_>>(), ["r3", "tf", "wp1"]);
    }

    #[test]
    fn marked_contents_are_stars() {
        let mut state = State { psw: 0x300, cy_marked: true, ..State::fresh() };
        state.registers[2] = manik::Register { value: 7, marked: true };
        assert_eq!(marked(&state), Places::NONE.with(2).with(CY));
        let shown = |place| shown(place, content(&state, place));
        assert_eq!(
            [shown(2), shown(1), shown(TF), shown(CY)],
            ["********", "00000000", "1", "********"]
        );
        assert_eq!(shown(sfr(0)), "00000000");
        assert_eq!(shown(sfr(6)), "00000003");
    }
}
