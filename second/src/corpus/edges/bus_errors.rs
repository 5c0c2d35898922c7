//! Bus errors (document 02, ticket 5): "An access outside memory now enters at IBASE with low byte
//! 16."

use super::accesses::ACCESSES;
use crate::corpus::build::{assemble, edge, BUSY_PSW, LENGTH};
use crate::corpus::Case;
use crate::state::{hwdbg, psw, State};
use crate::step::Access;

pub fn cases() -> Vec<Case> {
    [
        fetches(),
        data(),
        bits(),
        not_masked(),
        entries_first(),
        stops_first(),
        watched(),
        timer(),
        vectors(),
        returns(),
    ]
    .concat()
}

/// A fetch outside memory: its first half.
fn fetch(name: impl Into<String>) -> Case {
    edge(name, &[]).pc(LENGTH).bus_error(Access::Fetch)
}

/// A load outside memory.
fn load(name: impl Into<String>) -> Case {
    edge(name, &[("ldr", &[3, 0, 5])]).register(5, LENGTH).bus_error(Access::Data)
}

/// Both kinds, each with its name before this.
fn both(what: impl AsRef<str>) -> [Case; 2] {
    let what = what.as_ref();
    [fetch(format!("fetch bus error {what}")), load(format!("data bus error {what}"))]
}

/// First and second halves outside.
fn fetches() -> Vec<Case> {
    let places = [LENGTH, LENGTH + 2, 65_536, 1 << 31, 0xffff_ff00, 0xffff_fffe];
    let mut cases: Vec<Case> =
        places.map(|pc| fetch(format!("a first half at {pc:#x}")).pc(pc)).to_vec();
    let last = LENGTH - 2;
    for name in ["jf", "jt", "j", "jl"] {
        let first = &assemble(&[(name, &[-4])])[..2];
        let jump = |what: &str| {
            fetch(format!("the second half of {name} outside{what}")).bytes_at(last, first).pc(last)
        };
        cases.extend([
            jump(""),
            jump(" under TF").psw(psw::TF),
            jump(" with RA at the end").state(|state| state.ra = LENGTH),
        ]);
    }
    for length in [4, 8, 12, 16, 20] {
        let case = edge(format!("the second half of jl outside {length} bytes"), &[]);
        let first = &assemble(&[("jl", &[1])])[..2];
        cases.push(
            case.length(length).bytes_at(length - 2, first).pc(length - 2).bus_error(Access::Fetch),
        );
    }
    cases
}

/// Loads and stores outside: marked or not, by sums that wrap, and at the end of the code.
fn data() -> Vec<Case> {
    let mut cases = Vec::new();
    for (name, size) in ACCESSES {
        let access = |what: &str, units, base| {
            edge(format!("{name} outside, {what}"), &[(name, &[3, units, 5])])
                .register(5, base)
                .bus_error(Access::Data)
        };
        cases.extend([
            access("the last unit below 2^32", 15, 0u32.wrapping_sub(16 * size)),
            access("the sum at 2^32 - 1", 15, u32::MAX - 15 * size),
            access("an unaligned address", 0, LENGTH + 3),
            access("of a marked register", 0, LENGTH).marked(3, 9),
            access("every byte marked", 0, LENGTH).mark_all(2..LENGTH),
            access("its own base", 0, LENGTH).at(0, &[(name, &[5, 0, 5])]),
            access("as the last instruction", 0, LENGTH)
                .at(LENGTH - 2, &[(name, &[3, 0, 5])])
                .pc(LENGTH - 2),
        ]);
    }
    for (pc, units) in [(0, 16), (2, 16), (2, 17), (LENGTH - 2, 1), (LENGTH - 4, 255)] {
        let case = edge(format!("ldrpc outside, {units} words behind {pc}"), &[]);
        let case = case.at(pc, &[("ldrpc", &[3, units])]).pc(pc).marked(3, 9);
        cases.push(case.bus_error(Access::Data));
    }
    cases
}

/// Each kind sets its own bit and leaves the other. IP goes to BIP.
fn bits() -> Vec<Case> {
    let mut cases = Vec::new();
    for (dber, iber) in [(0, 0), (0, 1), (1, 0), (1, 1)] {
        let psw = (dber * psw::DBER) | (iber * psw::IBER);
        cases.extend(both(format!("with DBER {dber} and IBER {iber}")).map(|case| case.psw(psw)));
    }
    for (ip, bip) in [(0, 0), (0, 1), (1, 0), (1, 1)] {
        let psw = (ip * psw::IP) | (bip * psw::BIP);
        cases.extend(both(format!("with IP {ip} and BIP {bip}")).map(|case| case.psw(psw)));
    }
    cases.extend(both("in a busy PSW").map(|case| case.psw(BUSY_PSW)));
    cases.extend(both("in a PSW of ones").map(|case| case.psw(!psw::TR & !psw::IE)));
    cases.extend(both("with marked flags").map(|case| {
        case.psw(psw::TF | psw::CY).state(|state| (state.tf_marked, state.cy_marked) = (true, true))
    }));
    cases
}

/// "nothing masks it": neither IE nor IP does.
fn not_masked() -> Vec<Case> {
    let masks = [(0, 0), (0, psw::IP), (psw::IE, 0), (psw::IE, psw::IP)];
    let named = |(ie, ip)| {
        let name = format!("with IE {} and IP {}, lines high", ie / psw::IE, ip / psw::IP);
        both(name).map(|case| case.psw(ie | ip).lines(&[63]))
    };
    let kinds =
        |[fetch, load]: [Case; 2]| [fetch.bus_error(Access::Fetch), load.bus_error(Access::Data)];
    masks.into_iter().map(named).flat_map(kinds).collect()
}

/// An interrupt or a breakpoint takes the place of the instruction, and so of its bus error, which
/// comes after the return.
fn entries_first() -> Vec<Case> {
    let open = psw::IE | psw::TE | 1 << psw::ENABLE_SHIFT;
    let mut cases = Vec::new();
    for (kind, access) in [(0, Access::Fetch), (1, Access::Data)] {
        let case = |what: &str| both(what)[kind].clone().psw(open);
        cases.extend([
            case("after an external entry")
                .at(12, &[("jsfr", &[2])])
                .lines(&[1, 0, 0])
                .bus_error(access),
            case("after a timer entry")
                .state(|state| (state.timer, state.pending) = (0, true))
                .at(8, &[("jsfr", &[2])])
                .steps(3)
                .bus_error(access),
            case("after a breakpoint that lets go")
                .state(|state| {
                    (state.bp0, state.bp1) = (state.pc, state.pc);
                    state.hwdbg = 3 | hwdbg::BP0 | hwdbg::BP1;
                })
                .at(4, &[("mtsfr", &[6, 4]), ("jsfr", &[2])])
                .register(4, 0)
                .steps(4)
                .bus_error(access),
        ]);
    }
    cases
}

/// "The order of the tests stays, so a marked base still stops first."
fn stops_first() -> Vec<Case> {
    let last = LENGTH - 2;
    let first = &assemble(&[("jl", &[8])])[..2];
    vec![
        load("a marked base, not its bus error").marked(5, LENGTH).gives(14, 0),
        load("a marked base and Rd, not its bus error").marked(3, 9).marked(5, LENGTH).gives(14, 0),
        load("a marked first half, not its data bus error").mark(1).gives(12, 0),
        fetch("a marked first half, not its second half's bus error")
            .bytes_at(last, first)
            .pc(last)
            .mark(last)
            .gives(12, 0),
        fetch("no instruction at the end, not a bus error")
            .bytes_at(last, &[0xfc, 0])
            .pc(last)
            .gives(13, 0),
        fetch("a bus error, then a marked handler")
            .mark(16)
            .steps(2)
            .gives(12, 1)
            .bus_error(Access::Fetch),
        load("a bus error, then a handler that is no instruction")
            .bytes_at(16, &[0xfc, 0])
            .steps(2)
            .gives(13, 1)
            .bus_error(Access::Data),
        load("a bus error, then a handler with a marked operand")
            .at(16, &[("jr", &[6])])
            .marked(6, 0)
            .steps(2)
            .gives(14, 1)
            .bus_error(Access::Data),
    ]
}

/// "no register, byte or watchpoint hit changes", though a watchpoint equals the address.
fn watched() -> Vec<Case> {
    let watch = |wp0, wp1, hits| {
        move |state: &mut State| {
            (state.wp0, state.wp1) = (wp0, wp1);
            state.hwdbg = 3 | hwdbg::WP0 | hwdbg::WP1 | hits;
        }
    };
    let mut cases = Vec::new();
    for (name, _) in ACCESSES {
        let case = |what: &str| {
            let case = edge(format!("{name} outside under {what}"), &[(name, &[3, 0, 5])]);
            case.register(5, LENGTH + 8).bus_error(Access::Data)
        };
        cases.extend([
            case("WP0").state(watch(LENGTH + 8, 0, 0)),
            case("both watchpoints, no hit shown").state(watch(LENGTH + 8, LENGTH + 8, 0)),
            case("WP1, all hits shown").state(watch(0, LENGTH + 8, hwdbg::HITS)),
        ]);
    }
    cases.push(
        edge("ldrpc outside under both watchpoints", &[("ldrpc", &[3, 16])])
            .state(watch(LENGTH, LENGTH, hwdbg::BP_HIT))
            .bus_error(Access::Data),
    );
    cases.push(fetch("a fetch outside at both watchpoints").state(watch(LENGTH, LENGTH, 0)));
    cases
}

/// A bus error's step is completed, so TIMER falls.
fn timer() -> Vec<Case> {
    let mut cases = Vec::new();
    for (what, psw, timer, pending) in [
        ("with TIMER at 1", psw::TE, 1, false),
        ("with TIMER at 1 under IE", psw::TE | psw::IE, 1, false),
        ("with TIMER at 5", psw::TE, 5, false),
        ("with TIMER at 0", psw::TE, 0, false),
        ("with TIMER at 1, without TE", 0, 1, false),
        ("with the timer pending without TE", psw::IE, 0, true),
        ("with the timer pending under IP", psw::TE | psw::IE | psw::IP, 0, true),
    ] {
        let set = move |state: &mut State| (state.timer, state.pending) = (timer, pending);
        cases.extend(both(what).map(|case| case.psw(psw).state(set)));
    }
    let due = |state: &mut State| (state.timer, state.pending) = (2, false);
    cases.extend(both("and the timer due in its handler").map(|case| {
        case.psw(psw::TE | psw::IE)
            .state(due)
            .at(16, &[("mtsfr", &[2, 4]), ("jsfr", &[2])])
            .register(4, 0x20)
            .at(8, &[("movi", &[1, 1])])
            .steps(5)
    }));
    cases
}

/// IBASE with low byte 16; where that is outside too, every further step is a bus error.
fn vectors() -> Vec<Case> {
    let mut cases = Vec::new();
    for ibase in [0, 0xff, 0x100, 0xffff_ff00, u32::MAX, 0x8000_01ff] {
        let case = both(format!("with IBASE {ibase:#x}"));
        cases.extend(case.map(|case| case.state(|state| state.ibase = ibase)));
    }
    for ibase in [0x100, 0xffff_ffff] {
        let case = both(format!("with IBASE {ibase:#x}, again and again"));
        cases.extend(case.map(|case| {
            case.state(|state| state.ibase = ibase).psw(psw::TE).steps(20).bus_error(Access::Fetch)
        }));
    }
    // The handler is the first address outside, and the last one inside.
    for (length, inside) in [(4, false), (12, false), (16, false), (20, true)] {
        let case = edge(format!("a bus error in {length} bytes"), &[]).length(length).pc(length);
        let case = case.steps(3).bus_error(Access::Fetch);
        cases.push(match inside {
            true => case.at(16, &[("movi", &[1, 1]), ("movi", &[2, 2])]).gives(10, 3),
            false => case,
        });
    }
    cases
}

/// Handlers that go back, and bus errors in handlers.
fn returns() -> Vec<Case> {
    let back: &[(&str, &[i32])] = &[("addi", &[1, 1]), ("jsfr", &[2])];
    let to_caller: &[(&str, &[i32])] = &[("mfsfr", &[4, 1]), ("mtsfr", &[2, 4]), ("jsfr", &[2])];
    let handled = |name: &str, handler| load(name).at(2, &[("movi", &[2, 7])]).at(16, handler);
    vec![
        handled("a data bus error, its handler goes back", back).steps(4),
        handled("a data bus error under IP, its handler goes back", back).psw(psw::IP).steps(4),
        fetch("a fetch bus error, its handler goes back in vain")
            .at(16, back)
            .steps(4)
            .bus_error(Access::Fetch),
        fetch("a fetch bus error, its handler goes to the caller")
            .at(2, &[("jrl", &[5])])
            .at(6, &[("movi", &[2, 7])])
            .pc(2)
            .register(5, LENGTH)
            .at(16, to_caller)
            .steps(6),
        handled("a data bus error in its own handler", &[("ldr", &[3, 0, 5]), ("jsfr", &[2])])
            .steps(2)
            .bus_error(Access::Data),
        handled("a swint in the handler of a bus error", &[("swint", &[3]), ("jsfr", &[2])])
            .psw(psw::IE)
            .at(4, &[("jsfr", &[2])])
            .steps(5),
        load("a bus error in the handler of swint")
            .at(0, &[("swint", &[3])])
            .at(4, &[("ldr", &[3, 0, 5]), ("jsfr", &[2])])
            .at(16, &[("jsfr", &[2])])
            .psw(0)
            .steps(4),
        handled("a line high in the handler of a bus error", back)
            .psw(psw::IE | 1 << psw::ENABLE_SHIFT)
            .lines(&[0, 1, 1, 1]),
    ]
}
