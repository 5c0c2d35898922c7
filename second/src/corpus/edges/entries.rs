//! Interrupts by lines, breakpoints, watchpoints and swint.

use crate::corpus::build::{edge, BUSY_PSW, LENGTH};
use crate::corpus::Case;
use crate::state::{hwdbg, psw, State};
use crate::step::Access;

pub fn cases() -> Vec<Case> {
    [
        lines(),
        line_choice(),
        breakpoints(),
        breakpoint_shows(),
        watchpoints(),
        no_watch(),
        swint(),
        returns(),
        nested(),
    ]
    .concat()
}

/// All six enable bits.
const ENABLES: u32 = 0x3f << psw::ENABLE_SHIFT;

/// One movi with this PSW and these lines.
fn movi(name: impl Into<String>, psw: u32, lines: u8) -> Case {
    edge(name, &[("movi", &[1, 16])]).psw(psw).lines(&[lines])
}

fn lines() -> Vec<Case> {
    let mut cases = Vec::new();
    for line in 0..6 {
        let (high, bit) = (1 << line, 1 << (psw::ENABLE_SHIFT + line));
        let clear = psw::IE | psw::STATUS | ENABLES & !bit;
        cases.push(movi(format!("line {line} alone high, not enabled"), clear, high));
        cases.push(movi(format!("line {line} alone high and enabled"), psw::IE | bit, high));
        cases.push(movi(
            format!("line {line} enabled, the others high"),
            psw::IE | bit,
            !high & 63,
        ));
        let name = format!("line {line} is the lowest of several");
        cases.push(movi(name, psw::IE | ENABLES, 63 & !(high - 1)));
    }
    cases
}

fn line_choice() -> Vec<Case> {
    let open = psw::IE | ENABLES;
    let busy = BUSY_PSW & !psw::IP | psw::IE;
    let pending = |state: &mut State| (state.timer, state.pending) = (0, true);
    vec![
        movi("the lowest line is not enabled", open & !(1 << 22), 0b101100),
        movi("lines high without IE", ENABLES, 63),
        movi("lines high under IP", open | psw::IP, 63),
        movi("external entry shows only the line taken", open | psw::STATUS, 0b001000),
        movi("external entry in a busy PSW", busy, 0b010000),
        movi("external entry with BIP set clears it", open | psw::BIP, 1),
        movi("timer before lines", open | psw::TE, 63).state(pending),
        movi("pending without TE gives way to a line", open, 63).state(pending),
        movi("pending without TE and no line", open, 0).state(pending),
        movi("pending under IP", open | psw::TE | psw::IP, 63).state(pending),
        movi("pending without IE", ENABLES | psw::TE, 63).state(pending),
        movi("timer entry in a busy PSW", busy | psw::TE, 63).state(pending),
        movi("an entry before bits that are no instruction", open, 1).bytes_at(0, &[0xfc, 0]),
        movi("an entry before a marked instruction", open, 1).mark(0),
        movi("an entry with the program counter outside", open, 1).pc(0xffff_fffe),
        movi("an entry with marked flags", open, 1)
            .state(|state| (state.tf_marked, state.cy_marked) = (true, true)),
        movi("IBASE's low 8 bits are replaced", open, 1).state(|state| state.ibase = 0xffff_ffff),
        movi("an interrupt before a breakpoint", open, 1)
            .state(|state| (state.bp0, state.hwdbg) = (0, 3 | hwdbg::BP0)),
        movi("a timer entry, then a line under IP", open | psw::TE, 63)
            .state(pending)
            .at(8, &[("movi", &[2, 5])])
            .lines(&[63, 63]),
        movi("timer, return, then the line", open | psw::TE, 0)
            .state(pending)
            .at(8, &[("jsfr", &[2])])
            .lines(&[63, 63, 62]),
    ]
}

/// A state with these breakpoints, enabled as the bits of `enabled` say.
fn broken(bp0: u32, bp1: u32, enabled: u32) -> impl FnOnce(&mut State) {
    move |state| {
        (state.bp0, state.bp1) = (bp0, bp1);
        state.hwdbg = state.hwdbg & !hwdbg::ENABLES | enabled;
    }
}

fn breakpoints() -> Vec<Case> {
    let at = |name: &str| {
        edge(name, &[]).at(0x10, &[("movi", &[1, 16]), ("movi", &[2, 7])]).pc(0x10).psw(0)
    };
    let both = hwdbg::BP0 | hwdbg::BP1;
    vec![
        at("BP0 hits").state(broken(0x10, 0x20, hwdbg::BP0)),
        at("BP1 hits").state(broken(0x20, 0x10, hwdbg::BP1)),
        at("both breakpoints hit").state(broken(0x10, 0x10, both)),
        at("BP0 is not enabled").state(broken(0x10, 0x20, hwdbg::BP1)),
        at("BP1 is not enabled").state(broken(0x20, 0x10, hwdbg::BP0)),
        at("a breakpoint at an odd address").state(broken(0x11, 0x11, both)),
        at("watchpoints equal to the program counter")
            .state(broken(0x10, 0x10, hwdbg::WP0 | hwdbg::WP1))
            .state(|state| (state.wp0, state.wp1) = (0x10, 0x10)),
        at("a breakpoint at the second instruction").state(broken(0x12, 0, hwdbg::BP0)).steps(2),
        at("a breakpoint hits again after jsfr ipc")
            .at(4, &[("jsfr", &[2])])
            .state(broken(0x10, 0, hwdbg::BP0))
            .steps(4),
        at("a breakpoint disabled in the handler lets go")
            .at(4, &[("mtsfr", &[6, 3]), ("jsfr", &[2])])
            .register(3, 0)
            .state(broken(0x10, 0x10, both))
            .steps(5),
        at("a breakpoint at its own handler").pc(4).state(broken(4, 0, hwdbg::BP0)).steps(3),
        at("a breakpoint in the middle of a long jump").at(0x10, &[("j", &[4])]).state(broken(
            0x12,
            0,
            hwdbg::BP0,
        )),
    ]
}

fn breakpoint_shows() -> Vec<Case> {
    let hit = |name: &str, psw: u32| {
        edge(name, &[("swint", &[5])]).psw(psw).state(broken(0, 0, hwdbg::BP0))
    };
    vec![
        hit("debug entry leaves PSW 31:26", psw::STATUS),
        hit("debug entry leaves PSW 31:26 with lines high", psw::STATUS).lines(&[63]),
        hit("debug entry leaves PSW 23:20 clear", 0),
        hit("debug entry leaves PSW 25:20 set", ENABLES),
        hit("debug entry clears SW", psw::SW | 5 << psw::SWI_SHIFT),
        hit("debug entry in a busy PSW", BUSY_PSW),
        hit("debug entry under IP sets BIP", psw::IP),
        hit("debug entry without IP clears BIP", psw::BIP),
        hit("debug entry makes HWDBG show only this hit", 0)
            .state(|state| state.hwdbg |= hwdbg::WP0_HIT | hwdbg::WP1_HIT),
        hit("a breakpoint before bits that are no instruction", 0).bytes_at(0, &[0xfc, 0]),
        hit("a breakpoint at a marked instruction", 0).mark(0).mark(1),
        hit("a breakpoint outside memory", 0).pc(LENGTH + 8).state(broken(
            0,
            LENGTH + 8,
            hwdbg::BP1,
        )),
        hit("a breakpoint before a line under IP", psw::IE | psw::IP | ENABLES).lines(&[63]),
    ]
}

/// A state with these watchpoints, enabled as the bits of `enabled` say.
fn watched(wp0: u32, wp1: u32, enabled: u32) -> impl FnOnce(&mut State) {
    move |state| {
        (state.wp0, state.wp1) = (wp0, wp1);
        state.hwdbg = state.hwdbg & !hwdbg::ENABLES | enabled;
    }
}

fn watchpoints() -> Vec<Case> {
    let both = hwdbg::WP0 | hwdbg::WP1;
    let mut cases = vec![
        edge("ldrpc under a watchpoint", &[("ldrpc", &[3, 5])]).state(watched(0x14, 0, hwdbg::WP0)),
        edge("ldrpc at an unaligned place under a watchpoint", &[])
            .at(2, &[("ldrpc", &[3, 5])])
            .pc(2)
            .state(watched(0x14, 0x16, both)),
        edge("a watchpoint and the timer's fall", &[("ldr", &[3, 0, 5])])
            .register(5, 0x20)
            .psw(psw::TE | psw::IE)
            .state(watched(0x20, 0, hwdbg::WP0))
            .state(|state| state.timer = 1),
        edge("a watchpoint, then the breakpoint behind it", &[("ldr", &[3, 0, 5])])
            .at(4, &[("jsfr", &[2])])
            .register(5, 0x20)
            .state(watched(0x20, 0, hwdbg::WP0 | hwdbg::BP0))
            .state(|state| state.bp0 = 2)
            .steps(3),
    ];
    for name in ["ldr", "ldrh", "ldrb", "str", "strh", "strb"] {
        let access = |what: &str| {
            let case = edge(format!("{name} {what}"), &[(name, &[3, 0, 5])]);
            case.psw(psw::STATUS).register(5, 0x28)
        };
        cases.extend([
            access("hits WP0").state(watched(0x28, 0, hwdbg::WP0)),
            access("hits WP1").state(watched(0, 0x28, hwdbg::WP1)),
            access("hits both watchpoints").state(watched(0x28, 0x28, both)),
            access("hits WP0 while WP1 is elsewhere").state(watched(0x28, 0x2c, both)),
            access("hits WP0 and WP1 is not enabled").state(watched(0x28, 0x28, hwdbg::WP0)),
        ]);
    }
    cases
}

fn no_watch() -> Vec<Case> {
    let both = hwdbg::WP0 | hwdbg::WP1;
    let ldr = |name: &str, base: u32| edge(name, &[("ldr", &[3, 0, 5])]).register(5, base);
    let ldrh = |name: &str, base: u32| edge(name, &[("ldrh", &[3, 0, 5])]).register(5, base);
    vec![
        ldr("a watchpoint equal to the unaligned address", 0x23).state(watched(0x23, 0x22, both)),
        ldr("a watchpoint equal to the aligned address", 0x23).state(watched(0x20, 0, both)),
        ldrh("a watchpoint equal to a half's unaligned address", 0x23)
            .state(watched(0x23, 0x20, both)),
        ldrh("a watchpoint equal to a half's aligned address", 0x23).state(watched(0, 0x22, both)),
        ldr("a watchpoint inside the word", 0x20).state(watched(0x21, 0x22, both)),
        ldr("watchpoints that are not enabled", 0x20).state(watched(0x20, 0x20, 0)),
        ldr("breakpoints enabled, not watchpoints", 0x20).state(watched(
            0x20,
            0x20,
            hwdbg::BP0 | hwdbg::BP1,
        )),
        ldr("a load outside under a watchpoint", LENGTH)
            .state(watched(LENGTH, 0, both))
            .bus_error(Access::Data),
        ldr("a marked base under a watchpoint", 0)
            .marked(5, 0x20)
            .state(watched(0x20, 0, both))
            .gives(14, 0),
        edge("a watchpoint equal to what is no access", &[("movi", &[5, 32])])
            .state(watched(32, 0, both)),
        ldr("a watchpoint hit keeps the mark loaded", 0x20)
            .mark(0x22)
            .state(watched(0x20, 0, both)),
    ]
}

fn swint() -> Vec<Case> {
    let swint = |name: &str, code| edge(name, &[("swint", &[code])]);
    let mut cases = vec![
        swint("swint from within a handler sets BIP", 5).psw(psw::IP),
        swint("swint without IP clears BIP", 5).psw(psw::BIP),
        swint("swint replaces PSW 19:16", 5).psw(psw::SWI | psw::STATUS | ENABLES),
        swint("swint in a busy PSW", 2),
        swint("swint leaves HWDBG", 2).state(|state| state.hwdbg = 0x1ff),
        swint("swint from within its own handler", 3).psw(0).at(4, &[("swint", &[12])]).steps(2),
        swint("swint and back by jsfr ipc", 7).psw(0).at(4, &[("jsfr", &[2])]).steps(3),
        swint("swint to an IBASE outside memory", 7)
            .steps(2)
            .state(|state| state.ibase = 0x100)
            .bus_error(Access::Fetch),
        swint("swint with a high IBASE", 1).state(|state| state.ibase = 0x8000_01ff),
        swint("swint's bits 7:4 are zero", 1).bytes_at(0, &[0x10, 0x11]).gives(13, 0),
        swint("swint with marked flags", 1)
            .state(|state| (state.tf_marked, state.cy_marked) = (true, true)),
    ];
    for code in 0..16 {
        cases.push(swint(&format!("swint {code}"), code).psw(psw::IE));
    }
    cases
}

/// jsfr of each SFR with each IP and BIP, and what the next step then takes.
fn returns() -> Vec<Case> {
    let mut cases = Vec::new();
    for sfr in 0..4 {
        for (ip, bip) in [(0, 0), (0, 1), (1, 0), (1, 1)] {
            let bits = (ip * psw::IP) | (bip * psw::BIP);
            let named = |what: &str| format!("jsfr sfr{sfr} with IP {ip} and BIP {bip}{what}");
            let jump = |what: &str, psw| edge(named(what), &[("jsfr", &[sfr])]).psw(psw | bits);
            cases.push(jump("", 0));
            cases.push(jump(", in a busy PSW", BUSY_PSW & !(psw::IP | psw::BIP)));
            if sfr == 0 {
                continue; // PSW is no address of this memory
            }
            cases.push(
                jump(", then a line", psw::IE | ENABLES)
                    .state(|state| (state.ra, state.ipc, state.timer) = (0x10, 0x10, 0x10))
                    .at(0x10, &[("movi", &[1, 16])])
                    .lines(&[0, 63]),
            );
        }
    }
    cases
}

/// Entries inside handlers, and their returns.
fn nested() -> Vec<Case> {
    let open = psw::IE | psw::TE | ENABLES;
    let handler = |name: &str| {
        edge(name, &[("movi", &[1, 16])])
            .psw(open)
            .state(|state| (state.timer, state.pending) = (0, true))
            .at(8, &[("swint", &[1]), ("movi", &[2, 7])])
            .at(4, &[("jsfr", &[2])])
    };
    vec![
        handler("swint in the timer handler, a line high after its return").lines(&[0, 0, 0, 63]),
        handler("swint in the timer handler, a line high all the time").lines(&[0, 63, 63, 63]),
        handler("swint in the timer handler, the timer due again")
            .at(8, &[("mtsfr", &[3, 3]), ("swint", &[1]), ("movi", &[2, 7])])
            .register(3, 1)
            .steps(5),
        handler("a breakpoint in the timer handler, and its return")
            .state(broken(8, 0, hwdbg::BP0))
            .lines(&[0, 63, 63, 63]),
        handler("two returns lose the outer IP")
            .at(4, &[("jsfr", &[2])])
            .at(8, &[("swint", &[1]), ("jsfr", &[2]), ("movi", &[2, 7])])
            .lines(&[0, 63, 63, 63, 63]),
        handler("BIP written by mtsfr before the return")
            .at(4, &[("mtsfr", &[0, 3]), ("jsfr", &[2])])
            .register(3, open | psw::IP | psw::BIP)
            .lines(&[0, 63, 63, 63, 63]),
    ]
}
