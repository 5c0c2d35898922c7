//! Relative jumps and jumps to a register.

use crate::corpus::build::edge;
use crate::corpus::Case;
use crate::state::psw;
use crate::step::Access;

pub fn cases() -> Vec<Case> {
    [relative(), extremes(), wraps(), register(), marked()].concat()
}

/// The mnemonics of the relative jumps.
const RELATIVE: [&str; 7] = ["sjf", "sjt", "sj", "jf", "jt", "j", "jl"];

/// Each relative jump forward and back, under either TF.
fn relative() -> Vec<Case> {
    let mut cases = Vec::new();
    for name in RELATIVE {
        for (tf, psw) in [(0, 0), (1, psw::TF)] {
            for displacement in [5, 1, 0, -1, -5] {
                let case = edge(format!("{name} {displacement} halfwords, TF {tf}"), &[]);
                let case = case.at(0x20, &[(name, &[displacement])]).pc(0x20);
                cases.push(case.psw(psw));
            }
        }
    }
    cases
}

fn extremes() -> Vec<Case> {
    let mut cases = Vec::new();
    for (names, bits) in [(["sjf", "sj"], 9), (["jf", "j"], 25), (["jl", "jl"], 25)] {
        for (name, case) in names.into_iter().zip(["a conditional", "an unconditional"]) {
            for displacement in [(1 << bits) - 1, -1 << bits] {
                let title = format!("{name} {displacement} halfwords, {case} one");
                cases.push(edge(title, &[(name, &[displacement])]).psw(0));
            }
        }
    }
    cases
}

/// Targets wrap at 2^32.
fn wraps() -> Vec<Case> {
    let jump = |name: &str, line| edge(name, &[line]).psw(psw::TF);
    vec![
        jump("sj below address 0", ("sj", &[-1])),
        jump("sj below address 0, then the fetch", ("sj", &[-1])).steps(2).bus_error(Access::Fetch),
        jump("j below address 0", ("j", &[-1])),
        jump("0xf3ffffff is j, -2", ("j", &[-1])).bytes_at(0, &[0xf3, 0xff, 0xff, 0xff]),
        jump("sjt below address 0", ("sjt", &[-512])),
        jump("jl below address 0", ("jl", &[-3])),
        jump("sj to itself", ("sj", &[0])).steps(50),
        jump("j around", ("j", &[4])).at(8, &[("j", &[-4])]).steps(9),
        jump("a jump into the middle of a jump", ("sj", &[2]))
            .at(2, &[("j", &[0x7000])])
            .steps(3)
            .gives_any(),
    ]
}

fn register() -> Vec<Case> {
    let jump = |what: &str, name: &str, target: u32| {
        edge(format!("{name} {what}"), &[(name, &[5])]).register(5, target)
    };
    let mut cases = Vec::new();
    for name in ["jr", "jrl"] {
        cases.extend([
            jump("to an even address", name, 0x20),
            jump("to an odd address", name, 0x21),
            jump("to the highest address", name, u32::MAX),
            jump("outside, then the fetch", name, 0x40).steps(2).bus_error(Access::Fetch),
            jump("to a marked register", name, 0).marked(5, 0x20).gives(14, 0),
            jump("to a marked register outside", name, 0).marked(5, 0x8000_0000).gives(14, 0),
            jump("with marked flags", name, 0x20)
                .state(|state| (state.tf_marked, state.cy_marked) = (true, true)),
        ]);
    }
    cases.push(edge("jrl from 0x20 sets RA", &[]).at(0x20, &[("jrl", &[5])]).pc(0x20));
    cases.push(edge("jl from 0x20 sets RA", &[]).at(0x20, &[("jl", &[5])]).pc(0x20));
    let call = edge("jl and back by jsfr ra", &[("jl", &[8]), ("movi", &[1, 1])]);
    cases.push(call.at(0x10, &[("jsfr", &[1])]).steps(3));
    // RA is the program counter + 4 although jrl has two bytes.
    let call =
        edge("jrl and back by jsfr ra", &[("jrl", &[5]), ("movi", &[1, 1]), ("movi", &[1, 2])]);
    cases.push(call.register(5, 0x10).at(0x10, &[("jsfr", &[1])]).steps(3));
    cases
}

/// Jumps under a marked TF: the conditional ones stop, taken or not.
fn marked() -> Vec<Case> {
    let mut cases = Vec::new();
    for name in RELATIVE {
        for (tf, psw) in [(0, 0), (1, psw::TF)] {
            let conditional = name.ends_with(['f', 't']);
            let (reply, steps) = if conditional { (14, 0) } else { (10, 1) };
            let case = edge(format!("{name} under a marked TF {tf}"), &[(name, &[5])]).psw(psw);
            cases.push(case.state(|state| state.tf_marked = true).gives(reply, steps));
        }
        let case = edge(format!("{name} under a marked CY"), &[(name, &[5])]);
        cases.push(case.state(|state| state.cy_marked = true));
    }
    cases
}
