//! The timer: its fall, pending, and writes of TIMER.

use crate::corpus::build::edge;
use crate::corpus::Case;
use crate::state::{hwdbg, psw, State};

pub fn cases() -> Vec<Case> {
    [falls(), entries_fall(), writes(), reads()].concat()
}

/// TIMER with nothing pending.
fn timer(value: u32) -> impl FnOnce(&mut State) {
    move |state| (state.timer, state.pending) = (value, false)
}

/// TIMER at 0 and pending.
fn pending(state: &mut State) {
    (state.timer, state.pending) = (0, true);
}

fn falls() -> Vec<Case> {
    let two = |name: &str, psw: u32, value: u32| {
        edge(name, &[("movi", &[1, 16]), ("movi", &[2, 7])]).psw(psw).state(timer(value))
    };
    vec![
        two("TIMER at 1 falls to 0 and is pending", psw::TE, 1),
        two("TIMER at 1 falls and is entered in the next step", psw::TE | psw::IE, 1).steps(2),
        two("TIMER at 1 falls under IP", psw::TE | psw::IE | psw::IP, 1).steps(2),
        two("TIMER at 2 falls twice", psw::TE, 2).steps(2),
        two("TIMER at 2 falls once", psw::TE, 2),
        two("TIMER at 0 stays 0", psw::TE | psw::IE, 0).steps(2),
        two("TIMER at 0 stays pending", psw::TE, 0).state(pending).steps(2),
        two("TIMER without TE stays", psw::IE, 1).steps(2),
        two("TIMER at 2^32 - 1 falls", psw::TE, u32::MAX),
        two("a stopping step lets nothing fall", psw::TE, 1).bytes_at(0, &[0xfc, 0]).gives(13, 0),
        two("the second step stops and lets nothing fall", psw::TE, 2)
            .bytes_at(2, &[0xfc, 0])
            .steps(2)
            .gives(13, 1),
        two("PSW bits 10, 11 and 13 do nothing", psw::TE | 0b10_1100 << 8, 1).steps(2),
    ]
}

fn entries_fall() -> Vec<Case> {
    let movi = |name: &str, psw: u32| edge(name, &[("movi", &[1, 16])]).psw(psw).state(timer(1));
    let open = psw::TE | psw::IE;
    vec![
        movi("TIMER falls in an external entry", open | 1 << psw::ENABLE_SHIFT).lines(&[1]),
        movi("TIMER stays in an external entry without TE", psw::IE | 1 << 20).lines(&[1]),
        movi("TIMER falls in a breakpoint", open)
            .state(|state| (state.bp0, state.hwdbg) = (0, 3 | hwdbg::BP0)),
        movi("TIMER falls in a swint", open).at(0, &[("swint", &[1])]),
        movi("a timer entry leaves TIMER 0 and nothing pending", open).state(pending),
        movi("a timer entry, then its handler writes TIMER", open)
            .state(pending)
            .at(8, &[("mtsfr", &[3, 3]), ("jsfr", &[2])])
            .register(3, 2)
            .at(0, &[("movi", &[1, 16]), ("movi", &[2, 7])])
            .steps(6),
        movi("pending waits for IP to go", open | psw::IP)
            .state(pending)
            .steps(2)
            .at(0, &[("jsfr", &[2])]),
    ]
}

fn writes() -> Vec<Case> {
    let write = |name: &str, psw: u32, value: u32| {
        edge(name, &[("mtsfr", &[3, 3]), ("movi", &[1, 16])])
            .psw(psw)
            .register(3, value)
            .state(timer(7))
    };
    let (ignored, in_handler) = (psw::IP, psw::IP | psw::TI);
    vec![
        write("a TIMER write under IP without TI is ignored", ignored, 9),
        write("an ignored TIMER write lets TIMER fall", ignored | psw::TE, 9),
        write("an ignored TIMER write lets TIMER fall to pending", ignored | psw::TE, 9)
            .state(timer(1)),
        write("an ignored TIMER write leaves pending", ignored | psw::TE, 9).state(pending),
        write("an ignored TIMER write under EI and SW", ignored | psw::EI | psw::SW, 9),
        write("a TIMER write under IP with TI", in_handler, 9),
        write("a TIMER write takes the place of the fall", psw::TE, 9),
        write(
            "a TIMER write under IP with TI takes the place of the fall",
            in_handler | psw::TE,
            9,
        ),
        write("a TIMER write clears pending", psw::TE, 9).state(pending),
        write("a TIMER write of 0 clears pending", psw::TE, 0).state(pending),
        write("a TIMER write of 0 sets nothing pending", psw::TE, 0).state(timer(1)),
        write("a TIMER write of 1, then it falls", psw::TE, 1).steps(2),
        write("a TIMER write of 1 stays 1 in its step", psw::TE, 1),
        write("a TIMER write without TE", 0, 1).steps(2),
        write("a TIMER write with TI and without IP", psw::TI | psw::TE, 9),
        write("a TIMER write of a marked register", psw::TE, 0).marked(3, 9).gives(14, 0),
        write("an ignored TIMER write of a marked register", ignored, 0).marked(3, 9).gives(14, 0),
        write("a pending timer is entered before the TIMER write", psw::TE | psw::IE, 9)
            .state(pending),
    ]
}

fn reads() -> Vec<Case> {
    let code = |name: &str, line| edge(name, &[line]).psw(psw::TE);
    vec![
        code("mfsfr reads TIMER before the fall", ("mfsfr", &[3, 3])).state(timer(1)),
        code("mfsfr reads TIMER before a longer fall", ("mfsfr", &[3, 3])).state(timer(0x1000)),
        code("jsfr reads TIMER before the fall", ("jsfr", &[3])).state(timer(0x10)),
        code("jsfr reads an odd TIMER before the fall", ("jsfr", &[3])).state(timer(0x11)),
        code("jsfr reads TIMER at 1", ("jsfr", &[3])).state(timer(1)),
        code("mtsfr psw clears TE and TIMER still falls", ("mtsfr", &[0, 3]))
            .register(3, 0)
            .state(timer(1)),
        code("mtsfr psw sets TE and TIMER doesn't fall yet", ("mtsfr", &[0, 3]))
            .psw(0)
            .register(3, psw::TE)
            .state(timer(1)),
        code("mtsfr psw sets TE and IE under pending", ("mtsfr", &[0, 3]))
            .psw(0)
            .register(3, psw::TE | psw::IE)
            .state(pending)
            .steps(2),
    ]
}
