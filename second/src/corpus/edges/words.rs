//! Every mnemonic, and the words at which arithmetic has its edges.

use crate::corpus::build::edge;
use crate::corpus::Case;
use crate::isa::mnemonics;
use crate::state::psw;

pub fn cases() -> Vec<Case> {
    [every_mnemonic(), compares(), compare_immediates(), carries(), shifts(), immediates()].concat()
}

/// Each mnemonic under a clear TF, a set one, and with everything marked but r5.
fn every_mnemonic() -> Vec<Case> {
    let mut cases = Vec::new();
    for name in mnemonics().iter().map(|each| each.mnemonic()) {
        let operands: &[i32] = match name {
            "jsfr" => &[2],
            "jr" | "jrl" => &[5],
            _ => &[3, 5, 5],
        };
        let plain = |what: &str| edge(format!("{name} {what}"), &[(name, operands)]).register(5, 6);
        cases.push(plain("with flags clear"));
        cases.push(plain("with flags set").psw(psw::TF | psw::CY | psw::STATUS));
        let marked = plain("with everything marked").state(|state| {
            state.registers.iter_mut().for_each(|register| register.marked = true);
            (state.tf_marked, state.cy_marked) = (true, true);
        });
        cases.push(marked.gives_any());
        cases.push(plain("with only Rb marked").marked(5, 6).gives_any());
        cases.push(plain("with only Rd marked").marked(3, 9).gives_any());
    }
    cases
}

/// Pairs whose difference overflows, and some beside them.
const PAIRS: [(u32, u32); 8] = [
    (0x8000_0000, 0x7fff_ffff),
    (0x7fff_ffff, 0x8000_0000),
    (0x8000_0000, 1),
    (0x7fff_ffff, 0xffff_ffff),
    (0xffff_ffff, 0),
    (0, 0xffff_ffff),
    (0x8000_0000, 0x8000_0000),
    (2, 3),
];

fn compares() -> Vec<Case> {
    let mut cases = Vec::new();
    for name in ["cmpeq", "cmphs", "cmpls", "cmplt", "cmpgt"] {
        for (d, b) in PAIRS {
            let case = edge(format!("{name} of {d:#x} and {b:#x}"), &[(name, &[3, 5])]);
            cases.push(case.register(3, d).register(5, b));
        }
    }
    cases
}

fn compare_immediates() -> Vec<Case> {
    let mut cases = Vec::new();
    for name in ["cmpeqi", "cmplti", "cmpgti"] {
        for (d, immediate) in [
            (0x8000_0000, 1),
            (0x8000_0000, 7),
            (0x7fff_ffff, -1),
            (0x7fff_ffff, -8),
            (0xffff_fff8, -8),
            (0xffff_ffff, -1),
            (15, -1),
            (7, 7),
            (0, 0),
        ] {
            let case =
                edge(format!("{name} of {d:#x} and {immediate}"), &[(name, &[3, immediate])]);
            cases.push(case.register(3, d).psw(psw::TF));
        }
    }
    cases
}

/// Carries and borrows, with CY clear and set.
fn carries() -> Vec<Case> {
    let mut cases = Vec::new();
    for name in ["add", "addc", "sub", "subc"] {
        for (d, b) in [
            (0xffff_ffff, 1),
            (0xffff_ffff, 0),
            (0, 0xffff_ffff),
            (0xffff_ffff, 0xffff_ffff),
            (0, 0),
            (0x8000_0000, 0x8000_0000),
            (1, 2),
        ] {
            for (cy, psw) in [(0, 0), (1, psw::CY | psw::STATUS)] {
                let title = format!("{name} of {d:#x} and {b:#x}, CY {cy}");
                let case = edge(title, &[(name, &[3, 5])]);
                cases.push(case.register(3, d).register(5, b).psw(psw));
            }
        }
    }
    cases
}

fn shifts() -> Vec<Case> {
    let mut cases = Vec::new();
    for name in ["lsl", "lsr", "asr", "mult"] {
        for amount in [0, 1, 31, 32, 33, 40, 63, 64, 95, 0xffff_ffff] {
            let case = edge(format!("{name} by {amount:#x}"), &[(name, &[3, 5])]);
            cases.push(case.register(3, 0x8765_4321).register(5, amount));
        }
    }
    for name in ["lsli", "lsri", "asri", "multi"] {
        for amount in [0, 1, 8, 15] {
            let case = edge(format!("{name} {amount}"), &[(name, &[3, amount])]);
            cases.push(case.register(3, 0x8765_4321));
        }
    }
    cases
}

/// Immediates of eight and of four bits, and the extensions.
fn immediates() -> Vec<Case> {
    let mut cases = Vec::new();
    for name in ["movi", "addi"] {
        for immediate in [-128, -8, -1, 0, 127] {
            let case = edge(format!("{name} {immediate}"), &[(name, &[3, immediate])]);
            cases.push(case.register(3, 5));
        }
    }
    for immediate in [0, 0x80, 0xff] {
        let case = edge(format!("andi {immediate}"), &[("andi", &[3, immediate])]);
        cases.push(case.register(3, 0xffff_ffff));
    }
    for name in ["addif", "addit"] {
        for immediate in [-8, 7] {
            let case = edge(format!("{name} {immediate}"), &[(name, &[3, immediate])]);
            let psw = if name == "addit" { psw::TF } else { 0 };
            cases.push(case.register(3, 5).psw(psw));
        }
    }
    for name in ["sxb", "sxh", "zxh", "xhw"] {
        for value in [0x1234_5678, 0x8765_80ff, 0xffff_7f7f, 0x80] {
            let case = edge(format!("{name} of {value:#x}"), &[(name, &[3, 5])]);
            cases.push(case.register(5, value));
        }
    }
    cases
}
