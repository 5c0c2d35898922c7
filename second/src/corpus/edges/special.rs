//! mfsfr, mtsfr and jsfr.

use crate::corpus::build::{edge, BUSY_PSW};
use crate::corpus::Case;
use crate::state::{hwdbg, psw, State};

pub fn cases() -> Vec<Case> {
    [moves(), kept_bits(), at_once(), jumps(), none()].concat()
}

/// Each SFR read, and written with ones, zeros and a marked register.
fn moves() -> Vec<Case> {
    let mut cases = Vec::new();
    for sfr in 0..11 {
        let read = |what: &str| edge(format!("mfsfr sfr{sfr} {what}"), &[("mfsfr", &[3, sfr])]);
        let write = |what: &str| edge(format!("mtsfr sfr{sfr} {what}"), &[("mtsfr", &[sfr, 3])]);
        cases.extend([
            read("of a busy state"),
            read("into a marked register").marked(3, 0),
            read("with TF marked").state(|state| state.tf_marked = true),
            read("with CY marked").marked(3, 7).state(|state| state.cy_marked = true),
            write("of ones").register(3, u32::MAX),
            write("of zeros").register(3, 0),
            write("of ones into a fresh state")
                .state(|state| *state = State::fresh())
                .register(3, u32::MAX),
            write("of a marked register").marked(3, 5).gives(14, 0),
        ]);
    }
    cases
}

/// "mtsfr psw keeps bits 12 ... and 26 to 31", and "may now write bits 14 and 15" (document 02,
/// ticket 5). "mtsfr hwdbg writes bits 2 to 5 only."
fn kept_bits() -> Vec<Case> {
    let psw_write = |name: &str, psw: u32, value: u32| {
        edge(name, &[("mtsfr", &[0, 3])]).psw(psw).register(3, value)
    };
    let hwdbg_write = |name: &str, hwdbg: u32, value: u32| {
        edge(name, &[("mtsfr", &[6, 3])]).register(3, value).state(|state| state.hwdbg = hwdbg)
    };
    let flags = |state: &mut State| (state.tf_marked, state.cy_marked) = (true, true);
    vec![
        psw_write("mtsfr psw of ones onto zeros", 0, u32::MAX),
        psw_write("mtsfr psw of zeros onto ones", !psw::TR, 0),
        psw_write("mtsfr psw of TR alone", 0, psw::TR),
        psw_write("mtsfr psw of DBER alone", 0, psw::DBER),
        psw_write("mtsfr psw of IBER alone", 0, psw::IBER),
        psw_write("mtsfr psw clears DBER alone", psw::DBER | psw::IBER, psw::IBER),
        psw_write("mtsfr psw clears IBER alone", psw::DBER | psw::IBER, psw::DBER),
        psw_write("mtsfr psw unmarks TF and CY", BUSY_PSW, psw::TF).state(flags),
        psw_write("mtsfr psw of a marked register leaves marks", BUSY_PSW, 0)
            .state(flags)
            .marked(3, 0)
            .gives(14, 0),
        hwdbg_write("mtsfr hwdbg of ones onto the least", 3, u32::MAX),
        hwdbg_write("mtsfr hwdbg of zeros onto the most", 0x1ff, 0),
        hwdbg_write("mtsfr hwdbg of bits 6 to 8", 3, 0x1c0),
        hwdbg_write("mtsfr hwdbg of bits 2 and 5", 0x1db, hwdbg::BP0 | hwdbg::WP1),
        edge("mtsfr leaves the marks of flags", &[("mtsfr", &[5, 3])]).state(flags),
        edge("mtsfr from each register", &[("mtsfr", &[1, 15]), ("mtsfr", &[2, 0])]).steps(2),
        edge("mtsfr of an odd IPC, then jsfr", &[("mtsfr", &[2, 3]), ("jsfr", &[2])])
            .register(3, 0x15)
            .steps(2),
    ]
}

/// "Writes take effect at once."
fn at_once() -> Vec<Case> {
    let then = |name: &str, sfr| {
        edge(name, &[("mtsfr", &[sfr, 3]), ("ldr", &[1, 0, 5])]).register(5, 0x20).psw(0).steps(2)
    };
    vec![
        then("mtsfr hwdbg enables a breakpoint at the next instruction", 6)
            .register(3, hwdbg::BP1)
            .state(|state| state.bp1 = 2),
        then("mtsfr bp0 moves an enabled breakpoint to the next instruction", 7)
            .register(3, 2)
            .state(|state| state.hwdbg = 3 | hwdbg::BP0),
        then("mtsfr hwdbg enables a watchpoint on the next access", 6)
            .register(3, hwdbg::WP0)
            .state(|state| state.wp0 = 0x20),
        then("mtsfr wp1 moves an enabled watchpoint to the next access", 10)
            .register(3, 0x20)
            .state(|state| state.hwdbg = 3 | hwdbg::WP1),
        then("mtsfr psw permits the next step's line", 0)
            .register(3, psw::IE | 1 << psw::ENABLE_SHIFT)
            .lines(&[1, 1]),
        then("mtsfr psw forbids the next step's line", 0)
            .psw(psw::IE | 1 << psw::ENABLE_SHIFT)
            .register(3, 0)
            .lines(&[0, 1]),
        then("mtsfr ibase moves the next entry", 4)
            .register(3, 0xffff_ff00)
            .psw(psw::IE | 1 << psw::ENABLE_SHIFT)
            .lines(&[0, 1]),
        edge("mtsfr psw sets TF for the next jump", &[("mtsfr", &[0, 3]), ("sjt", &[6])])
            .psw(0)
            .register(3, psw::TF)
            .steps(2),
        edge("mtsfr psw unmarks TF for the next jump", &[("mtsfr", &[0, 3]), ("sjt", &[6])])
            .register(3, 0)
            .state(|state| state.tf_marked = true)
            .steps(2),
    ]
}

fn jumps() -> Vec<Case> {
    let mut cases = Vec::new();
    let values = |even: u32| {
        move |state: &mut State| (state.ra, state.ipc, state.timer) = (even, even + 1, even + 2)
    };
    for sfr in 0..4 {
        let jump = |what: &str| edge(format!("jsfr sfr{sfr} {what}"), &[("jsfr", &[sfr])]);
        let flagged = if sfr == 0 { (14, 0) } else { (10, 1) };
        cases.extend([
            jump("of a busy state"),
            jump("to even places").psw(0x10).state(values(0x10)),
            jump("to odd places").psw(0x11).state(values(0x11)),
            jump("to the highest addresses").psw(!psw::TR & !psw::IE).state(values(0xffff_fffc)),
            jump("under IP and BIP").psw(psw::IP | psw::BIP | psw::SW),
            jump("with TF marked")
                .state(|state| state.tf_marked = true)
                .gives(flagged.0, flagged.1),
            jump("with CY marked")
                .state(|state| state.cy_marked = true)
                .gives(flagged.0, flagged.1),
        ]);
    }
    cases.push(
        edge("jsfr psw with both flags marked", &[("jsfr", &[0])])
            .gives(14, 0)
            .state(|state| (state.tf_marked, state.cy_marked) = (true, true)),
    );
    cases
}

/// SFR 11 to 15, and jsfr above 3.
fn none() -> Vec<Case> {
    let bits = |first: u8, second: u8| {
        edge(format!("{first:02x}{second:02x} is no instruction"), &[])
            .bytes_at(0, &[first, second])
            .gives(13, 0)
    };
    let mut cases: Vec<Case> = (11..16).map(|sfr| bits(0x12, 0x30 | sfr)).collect();
    cases.extend((11..16).map(|sfr| bits(0x13, sfr << 4 | 3)));
    cases.extend([0x04, 0x10, 0x24, 0x80, 0xff].map(|low| bits(0x1e, low)));
    cases.extend(
        [(0x1c, 0x10), (0x1d, 0x80), (0x10, 0xf0), (0x11, 0), (0x14, 0), (0x1f, 0)]
            .map(|(first, second)| bits(first, second)),
    );
    cases.extend(
        [0x00, 0x07, 0x08, 0x09, 0x0a, 0x0b, 0xfc, 0xfd, 0xfe, 0xff].map(|top| bits(top, 0x35)),
    );
    cases
}
