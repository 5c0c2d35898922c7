//! Cycles (document 02, ticket 6): each cost, the count at 2^32, TIMER around a cost, and amounts
//! that are marked.

use super::accesses::ACCESSES;
use crate::corpus::build::{edge, Line, LENGTH};
use crate::corpus::Case;
use crate::state::{hwdbg, psw, State};
use crate::step::Access;

pub fn cases() -> Vec<Case> {
    [instructions(), shifts(), entries(), wraps(), timer(), timer_writes(), marked(), runs()]
        .concat()
}

/// A line of code under a TF, with its cost.
fn costs(line: Line, tf: bool, cost: u32) -> Case {
    let case = edge(format!("{} costs {cost} under TF {}", line.0, u32::from(tf)), &[line]);
    case.psw(if tf { psw::TF } else { 0 }).register(5, 0x20).costs(cost)
}

/// One of each class: ALU, compare, conditional, multiply, access, jump and move of an SFR.
fn instructions() -> Vec<Case> {
    let lines: [(Line, [u32; 2]); 20] = [
        (("addc", &[3, 5]), [1, 1]),
        (("zxh", &[3, 5]), [1, 1]),
        (("andi", &[3, 5]), [1, 1]),
        (("addi", &[3, 5]), [1, 1]),
        (("cmphs", &[3, 5]), [1, 1]),
        (("cmpgti", &[3, 5]), [1, 1]),
        (("subf", &[3, 5]), [1, 1]),
        (("addit", &[3, 5]), [1, 1]),
        (("mult", &[3, 5]), [2, 2]),
        (("multi", &[3, 15]), [2, 2]),
        (("ldrpc", &[3, 5]), [2, 2]),
        (("sjf", &[5]), [2, 3]),
        (("sjt", &[5]), [3, 2]),
        (("jf", &[5]), [2, 3]),
        (("jt", &[5]), [3, 2]),
        (("sj", &[5]), [2, 2]),
        (("jl", &[5]), [2, 2]),
        (("jrl", &[5]), [2, 2]),
        (("jsfr", &[1]), [2, 2]),
        (("mfsfr", &[3, 5]), [1, 1]),
    ];
    let each = |(line, [clear, set]): (Line, [u32; 2])| {
        [costs(line, false, clear), costs(line, true, set)]
    };
    let accesses = ACCESSES.map(|(name, _)| costs((name, &[3, 0, 5]), false, 2));
    lines.into_iter().flat_map(each).chain(accesses).collect()
}

/// The amounts at which the cost changes, and those that have more than five bits.
fn shifts() -> Vec<Case> {
    let mut cases = Vec::new();
    for name in ["lsl", "lsr", "asr"] {
        for (amount, cost) in [
            (0, 2),
            (7, 2),
            (8, 3),
            (15, 3),
            (16, 4),
            (23, 4),
            (24, 5),
            (31, 5),
            (32, 5),
            (63, 5),
            (64, 2),
            (0xffff_ff88, 3),
        ] {
            let case = edge(format!("{name} by {amount:#x} costs {cost}"), &[(name, &[3, 5])]);
            cases.push(case.register(5, amount).marked(3, 0x8765_4321).costs(cost));
        }
        let case = edge(format!("{name} by itself costs 4"), &[(name, &[3, 3])]);
        cases.push(case.register(3, 0xabcd_1210).costs(4));
    }
    for name in ["lsli", "lsri", "asri"] {
        for (amount, cost) in [(0, 2), (7, 2), (8, 3), (15, 3)] {
            let case = edge(format!("{name} {amount} costs {cost}"), &[(name, &[3, amount])]);
            cases.push(case.marked(3, 0x8765_4321).costs(cost));
        }
    }
    cases
}

/// An entry of each kind, named by its cost. A load that is not watched stands beside them.
fn entry_kinds() -> Vec<Case> {
    let movi = |name: &str| edge(name, &[("movi", &[1, 16])]);
    let load = |name: &str| edge(name, &[("ldr", &[3, 0, 5])]).register(5, 0x28);
    let watched = |state: &mut State| {
        (state.wp0, state.hwdbg) = (0x28, 3 | hwdbg::WP0);
    };
    vec![
        edge("swint costs 2", &[("swint", &[5])]).costs(2),
        movi("an external entry costs 4")
            .psw(psw::IE | 1 << psw::ENABLE_SHIFT)
            .lines(&[1])
            .costs(4),
        movi("a breakpoint costs 4")
            .state(|state| (state.bp1, state.hwdbg) = (0, 3 | hwdbg::BP1))
            .costs(4),
        movi("a fetch bus error costs 4").pc(LENGTH).costs(4).bus_error(Access::Fetch),
        load("a data bus error costs 4").register(5, LENGTH).costs(4).bus_error(Access::Data),
        load("a watchpoint costs 6 with its load").state(watched).costs(6),
        load("a watchpoint costs 6 with its store")
            .at(0, &[("strh", &[3, 0, 5])])
            .state(watched)
            .costs(6),
        load("a load that isn't watched costs 2").costs(2),
    ]
}

fn entries() -> Vec<Case> {
    let pending = |state: &mut State| (state.timer, state.pending) = (0, true);
    let mut cases = entry_kinds();
    let timer = edge("a timer entry costs 4", &[("movi", &[1, 16])]).psw(psw::IE | psw::TE);
    cases.push(timer.state(pending).costs(4));
    cases
}

/// The count is modulo 2^32.
fn wraps() -> Vec<Case> {
    let mut cases = Vec::new();
    for (line, cost) in [
        (("movi", &[1, 16] as &[i32]), 1),
        (("sj", &[4]), 2),
        (("sjt", &[4]), 3),
        (("lsr", &[3, 5]), 4),
    ] {
        for before in [0x7fff_ffff, 0u32.wrapping_sub(cost), 0u32.wrapping_sub(cost + 1)] {
            let case = edge(format!("{} with {before:#x} cycles before", line.0), &[line]);
            let case = case.psw(0).register(5, 20).state(|state| state.cycles = before);
            cases.push(case.costs(cost));
        }
    }
    let again = edge("cycles from 2^32 - 100 on past 0", &[("sj", &[0])]).steps(90);
    cases.push(again.state(|state| state.cycles = 0u32.wrapping_sub(100)).costs(180));
    cases
}

/// TIMER just below, at and just above the cost of a step.
fn timer() -> Vec<Case> {
    let mut kinds = entry_kinds();
    kinds.extend([
        edge("a movi", &[("movi", &[1, 16])]).costs(1),
        edge("a jump not taken", &[("sjt", &[4])]).psw(0).costs(3),
        edge("a shift by 24", &[("lsl", &[3, 5])]).register(5, 24).costs(5),
        edge("an mtsfr of PSW", &[("mtsfr", &[0, 5])]).register(5, 0).costs(1),
    ]);
    let mut cases = Vec::new();
    for kind in kinds {
        let cost = kind.promise.and_then(|promise| promise.cycles).expect("a cost");
        for timer in cost.saturating_sub(1)..=cost + 1 {
            let mut case = kind.clone();
            case.name = format!("{}, TIMER at {timer}", kind.name);
            case.state.psw |= psw::TE;
            case.state.timer = timer;
            cases.push(case);
        }
    }
    cases
}

/// "an accepted write ... takes the place of that step's fall", and costs what an ignored one does.
fn timer_writes() -> Vec<Case> {
    let write = |name: &str, psw: u32, timer: u32| {
        edge(name, &[("mtsfr", &[3, 3])])
            .psw(psw | psw::TE)
            .register(3, 9)
            .state(move |state| (state.timer, state.pending) = (timer, false))
            .costs(1)
    };
    vec![
        write("an accepted TIMER write costs 1", 0, 7),
        write("an accepted TIMER write at TIMER 1 costs 1", 0, 1),
        write("an ignored TIMER write costs 1", psw::IP, 7),
        write("an ignored TIMER write at TIMER 1 costs 1", psw::IP, 1),
        write("a TIMER write, then a fall by 3", 0, 7).at(2, &[("sjt", &[4])]).steps(2).costs(4),
        write("a TIMER write of 2, then a fall by 3", 0, 7)
            .register(3, 2)
            .at(2, &[("sjt", &[4])])
            .steps(2)
            .costs(4),
    ]
}

/// "a register shift with its amount register marked becomes stop 14."
fn marked() -> Vec<Case> {
    let mut cases = Vec::new();
    for name in ["lsl", "lsr", "asr"] {
        let shift = |what: &str| edge(format!("{name} {what}"), &[(name, &[3, 5])]);
        cases.extend([
            shift("by a marked 0").marked(5, 0).gives(14, 0).costs(0),
            shift("by a marked 9, with TIMER at 1")
                .marked(5, 9)
                .psw(psw::TE)
                .state(|state| state.timer = 1)
                .gives(14, 0)
                .costs(0),
            shift("by a marked 64").marked(5, 64).gives(14, 0).costs(0),
            shift("of a marked register by a marked one").marked(3, 1).marked(5, 1).gives(14, 0),
            shift("of a marked register").marked(3, 1).register(5, 1).costs(2),
            shift("of a marked register by itself")
                .at(0, &[(name, &[3, 3])])
                .marked(3, 1)
                .gives(14, 0),
            shift("with a marked first half").marked(5, 1).mark(0).gives(12, 0),
        ]);
        let own: &[Line] = &[(name, &[3, 5]), ("movi", &[5, 1]), (name, &[3, 5])];
        let case = edge(format!("{name} in a second step by a marked one"), own).register(5, 8);
        cases.push(
            case.at(2, &[("ldr", &[5, 0, 6])])
                .register(6, 0x20)
                .mark_all(0x20..LENGTH)
                .steps(3)
                .gives(14, 2),
        );
    }
    cases.push(edge("mult by a marked register", &[("mult", &[3, 5])]).marked(5, 9).costs(2));
    cases.push(edge("lsli of a marked register", &[("lsli", &[3, 9])]).marked(3, 9).costs(3));
    cases
}

/// Sums over several steps, stops and refusals.
fn runs() -> Vec<Case> {
    let code: &[Line] = &[
        ("movi", &[1, 16]),
        ("lsl", &[3, 1]),
        ("mult", &[3, 1]),
        ("str", &[3, 0, 6]),
        ("cmpeqi", &[1, 7]),
        ("sjt", &[4]),
        ("addif", &[1, 7]),
    ];
    let run = |name: &str| edge(name, code).psw(0).register(6, 0x30).steps(7);
    vec![
        run("seven steps cost 14").costs(14),
        run("seven steps bring TIMER from 14 to 0")
            .psw(psw::TE)
            .state(|state| state.timer = 14)
            .costs(14),
        run("seven steps bring TIMER from 15 to 1")
            .psw(psw::TE)
            .state(|state| state.timer = 15)
            .costs(14),
        run("no instruction after seven steps")
            .bytes_at(14, &[0xfc, 0])
            .steps(9)
            .gives(13, 7)
            .costs(14),
        run("a refused run keeps its cycles").pc(1).gives(4, 0).costs(0),
        run("a run of budget 0 keeps its cycles").steps(0).costs(0),
    ]
}
