//! Refusals 1 to 6, budgets, and the order of the stops.

use crate::corpus::build::{assemble, edge, LENGTH};
use crate::corpus::Case;
use crate::state::psw;
use crate::step::Access;

pub fn cases() -> Vec<Case> {
    [lengths(), forms(), tapes(), pairs(), budgets(), stops(), stop_order()].concat()
}

fn movi(name: impl Into<String>) -> Case {
    edge(name, &[("movi", &[1, 16]), ("movi", &[2, 7])])
}

/// Refusal 1 by each of its clauses, with room for as many marks.
fn lengths() -> Vec<Case> {
    [0, 1, 2, 3, 5, 6, 62, 63, 65_540]
        .map(|length| movi(format!("memory of {length} bytes")).length(length).gives(1, 0))
        .to_vec()
}

/// Refusal 4 by each of its clauses, and states that are just in form.
fn forms() -> Vec<Case> {
    let mut cases = vec![
        movi("an odd program counter").pc(1).gives(4, 0),
        movi("an odd program counter outside").pc(u32::MAX).gives(4, 0),
        movi("PSW bit 12 set").psw(psw::TR).gives(4, 0),
        movi("all of PSW set").psw(u32::MAX).gives(4, 0),
        movi("all of PSW set but bit 12").psw(!psw::TR & !psw::IE),
        movi("HWDBG with all its bits").state(|state| (state.hwdbg, state.bp0) = (0x1ff, 64)),
        movi("pending with TIMER 1")
            .state(|state| (state.pending, state.timer) = (true, 1))
            .gives(4, 0),
        movi("pending with TIMER 2^31")
            .state(|state| (state.pending, state.timer) = (true, 1 << 31))
            .gives(4, 0),
        movi("pending with TIMER 0").state(|state| (state.pending, state.timer) = (true, 0)),
    ];
    for hwdbg in [0, 1, 2, 0x1fc, 0x1fd, 0x1fe] {
        let case = movi(format!("HWDBG {hwdbg:#x}"));
        cases.push(case.state(|state| state.hwdbg = hwdbg).gives(4, 0));
    }
    for bit in 9..32 {
        let case = movi(format!("HWDBG bit {bit} set"));
        cases.push(case.state(|state| state.hwdbg |= 1 << bit).gives(4, 0));
    }
    cases
}

/// Refusals 5 and 6.
fn tapes() -> Vec<Case> {
    let budget =
        |name: &str, tape: &[u8], budget| movi(name).lines(tape).with(|case| case.budget = budget);
    vec![
        budget("an empty tape and budget 1", &[], 1).gives(5, 0),
        budget("a tape one byte short", &[0; 4], 5).gives(5, 0),
        budget("the greatest budget", &[0; 4], u32::MAX).gives(5, 0),
        budget("a longer tape than the budget", &[0; 4], 2).gives(10, 2),
        budget("a tape byte of 63", &[63, 63], 2).gives(10, 2),
        budget("a tape byte of 64", &[64, 0], 2).gives(6, 0),
        budget("a last tape byte of 64", &[0, 64], 2).gives(6, 0),
        budget("a tape byte of 255", &[0, 255], 2).gives(6, 0),
        budget("a byte above 63 behind the budget", &[0, 0, 64], 2).gives(10, 2),
        budget("a short tape with a byte above 63", &[64], 2).gives(5, 0),
        budget("a byte above 63 and budget 0", &[64], 0).gives(10, 0),
    ]
}

/// What brings each of the refusals 1 to 6 about in a memory of 60 bytes, whose last mark byte is
/// half past the end.
const FAULTS: [fn(&mut Case); 6] = [
    |case| case.memory.truncate(58),
    |case| case.marks.push(0),
    |case| case.marks[7] = 0x10,
    |case| case.state.psw |= psw::TR,
    |case| case.budget = 3,
    |case| case.tape[0] = 64,
];

/// Two faults at once, and all from one on: the earlier refusal is given.
fn pairs() -> Vec<Case> {
    let code = [("movi", &[1, 16][..]), ("movi", &[2, 7])];
    let faulty = |name: String| edge(name, &[]).length(60).at(0, &code).steps(2);
    let mut cases = Vec::new();
    for (first, earlier) in (1..).zip(FAULTS) {
        for (second, later) in (1..).zip(FAULTS).skip(first as usize) {
            let case = faulty(format!("refusal {first} before refusal {second}"));
            cases.push(case.with(earlier).with(later).gives(first, 0));
        }
        let all = faulty(format!("all refusals from {first} on"));
        let all = FAULTS.into_iter().skip(first as usize - 1).fold(all, Case::with);
        cases.push(all.gives(first, 0));
    }
    // Memory of another length than the marks are for, where the memory's length is good.
    let case = faulty("a good memory length and other marks".to_string());
    cases.push(case.with(|case| case.memory.truncate(56)).gives(2, 0));
    cases
}

fn budgets() -> Vec<Case> {
    let none = |name: &str| movi(name).steps(0);
    vec![
        none("budget 0"),
        none("budget 0 with the program counter outside").pc(0xffff_fffe),
        none("budget 0 with a pending timer")
            .psw(psw::IE | psw::TE)
            .state(|state| (state.pending, state.timer) = (true, 0)),
        none("budget 0 and a longer tape").with(|case| case.tape = vec![63; 3]),
        none("budget 0 with a state out of form").pc(3).gives(4, 0),
        none("budget 0 with memory of 0 bytes").length(0).gives(1, 0),
        movi("budget 1"),
        movi("budget 200 of a jump to itself").at(0, &[("sj", &[0])]).steps(200),
        movi("budget 4,096 of a jump to itself").at(0, &[("sj", &[0])]).steps(4_096),
    ]
}

/// Each stop by itself, after 0 and after 2 steps.
fn stops() -> Vec<Case> {
    let mut cases = Vec::new();
    for at in [0, 4] {
        let steps = u64::from(at) / 2;
        let case = |name: &str| movi(format!("{name} after {steps} steps")).steps(5);
        cases.extend([
            case("bits that are no instruction").bytes_at(at, &[0xfc, 0]).gives(13, steps),
            case("a first byte marked").mark(at).gives(12, steps),
            case("a second byte marked").mark(at + 1).gives(12, steps),
            case("a third byte marked").at(at, &[("j", &[8])]).mark(at + 2).gives(12, steps),
            case("a fourth byte marked").at(at, &[("jl", &[8])]).mark(at + 3).gives(12, steps),
            case("a marked TF")
                .at(at, &[("sjt", &[8])])
                .state(|state| state.tf_marked = true)
                .gives(14, steps),
        ]);
    }
    cases.push(movi("a mark behind a short instruction").mark(2));
    cases
}

/// Two stops at once, or a stop and a bus error: the earlier one of document 01's order is given.
fn stop_order() -> Vec<Case> {
    let last = LENGTH - 2;
    let none = |name: &str, at| movi(name).bytes_at(at, &[0xff, 0xff]).pc(at);
    let jt = |name: &str, at| {
        let first = &assemble(&[("jt", &[-4])])[..2];
        movi(name).bytes_at(at, first).pc(at).state(|state| state.tf_marked = true)
    };
    let ldr = |name: &str| movi(name).at(0, &[("ldr", &[3, 0, 5])]);
    vec![
        none("first half marked before no instruction", 0).mark(0).gives(12, 0),
        none("no instruction before second half outside", last).gives(13, 0),
        none("no instruction before second half marked", 0).mark(2).gives(13, 0),
        jt("first half marked before second half outside", last).mark(last + 1).gives(12, 0),
        jt("first half marked before an operand marked", 0).mark(1).gives(12, 0),
        jt("second half outside before an operand marked", last).bus_error(Access::Fetch),
        jt("second half marked before an operand marked", 0).mark(2).gives(12, 0),
        jt("an operand marked and nothing before it", 0).gives(14, 0),
        ldr("first half marked before data outside").register(5, 64).mark(0).gives(12, 0),
        ldr("an operand marked before data outside").marked(5, 64).gives(14, 0),
        ldr("data outside with Rd marked").marked(3, 0).register(5, 64).bus_error(Access::Data),
        ldr("first half outside with everything else")
            .pc(LENGTH)
            .marked(5, 64)
            .bus_error(Access::Fetch),
    ]
}
