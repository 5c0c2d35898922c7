//! Marks, beside stop 14.

use crate::corpus::build::{edge, LENGTH};
use crate::corpus::Case;
use crate::state::{psw, State};
use crate::step::Access;

pub fn cases() -> Vec<Case> {
    [conditionals(), stores(), loads(), results(), flags(), bases()].concat()
}

/// The conditional instructions, with the TF under which each is done.
const CONDITIONALS: [(&str, bool); 8] = [
    ("movf", false),
    ("subf", false),
    ("addf", false),
    ("addif", false),
    ("movt", true),
    ("subt", true),
    ("addt", true),
    ("addit", true),
];

/// Each taken and not, with each of TF, Rd and Rb marked.
fn conditionals() -> Vec<Case> {
    let mut cases = Vec::new();
    for (name, done_if) in CONDITIONALS {
        for taken in [false, true] {
            let word = if taken { "taken" } else { "not taken" };
            let psw = if done_if == taken { psw::TF } else { 0 };
            let case = |what: &str| {
                edge(format!("{name} {word} with {what} marked"), &[(name, &[3, 5])]).psw(psw)
            };
            let tf = |state: &mut State| state.tf_marked = true;
            cases.extend([
                case("Rd").marked(3, 9),
                case("Rb").marked(5, 9),
                case("TF").state(tf),
                case("TF and Rd").marked(3, 9).state(tf),
                case("CY").state(|state| state.cy_marked = true),
            ]);
        }
    }
    cases
}

fn stores() -> Vec<Case> {
    let mut cases = Vec::new();
    for name in ["str", "strh", "strb"] {
        let store =
            |what: &str| edge(format!("{name} {what}"), &[(name, &[3, 0, 5])]).register(5, 0x22);
        cases.extend([
            store("of an unmarked register clears marks").mark_all(8..LENGTH),
            store("of a marked register sets marks").marked(3, 0x1234_5678),
            store("of a marked register over marks").marked(3, 0x1234_5678).mark_all(8..LENGTH),
            store("to a marked base").marked(5, 0x22).gives(14, 0),
        ]);
    }
    cases.push(
        edge("a marked store over the next instruction", &[("str", &[3, 0, 5])])
            .register(5, 0)
            .marked(3, 0x7110_7142)
            .steps(2)
            .gives(12, 1),
    );
    cases
}

/// Each byte of an access marked by itself, and those around it.
fn loads() -> Vec<Case> {
    let mut cases = Vec::new();
    for (name, base) in [("ldr", 0x20), ("ldrh", 0x22), ("ldrb", 0x22)] {
        for place in 0x1f..0x25 {
            let case = edge(format!("{name} at {base} with {place} marked"), &[(name, &[3, 0, 5])]);
            cases.push(case.register(5, base).mark(place));
        }
        let case = edge(format!("{name} of unmarked bytes clears a mark"), &[(name, &[3, 0, 5])]);
        cases.push(case.register(5, base).marked(3, 1));
    }
    cases.push(edge("ldrpc of a marked byte", &[("ldrpc", &[3, 5])]).mark(0x17));
    cases.push(edge("ldrpc of unmarked bytes clears a mark", &[("ldrpc", &[3, 5])]).marked(3, 1));
    cases
}

fn results() -> Vec<Case> {
    vec![
        edge("xor of a marked register with itself", &[("xor", &[3, 3])]).marked(3, 7),
        edge("sub of a marked register from itself", &[("sub", &[3, 3])]).marked(3, 7),
        edge("andi 0 of a marked register", &[("andi", &[3, 0])]).marked(3, 7),
        edge("multi 0 of a marked register", &[("multi", &[3, 0])]).marked(3, 7),
        edge("movi into a marked register", &[("movi", &[3, 0])]).marked(3, 7),
        edge("mov of an unmarked register over a mark", &[("mov", &[3, 5])]).marked(3, 7),
        edge("mov of a marked register", &[("mov", &[3, 5])]).marked(5, 7),
        edge("sxb of an unmarked register over a mark", &[("sxb", &[3, 5])]).marked(3, 7),
        edge("lsl by a marked register", &[("lsl", &[3, 5])]).marked(5, 7).gives(14, 0),
        edge("and with a marked register", &[("and", &[3, 5])]).marked(5, 0),
        edge("mult of a marked register by 0", &[("mult", &[3, 5])]).marked(3, 7).register(5, 0),
        edge("jl leaves marks and RA is unmarked", &[("jl", &[5]), ("movi", &[1, 1])])
            .at(10, &[("mfsfr", &[3, 1])])
            .marked(3, 7)
            .steps(2),
    ]
}

fn flags() -> Vec<Case> {
    let cy = |state: &mut State| state.cy_marked = true;
    let tf = |state: &mut State| state.tf_marked = true;
    let mut cases = Vec::new();
    for name in ["add", "sub", "addc", "subc"] {
        let case = |what: &str| edge(format!("{name} {what}"), &[(name, &[3, 5])]);
        cases.extend([
            case("with marked CY").state(cy),
            case("with marked CY at 1").state(cy).psw(psw::CY),
            case("with marked TF").state(tf),
            case("with marked Rd and CY").marked(3, 7).state(cy),
            case("with marked Rb").marked(5, 7),
            case("of itself, marked").at(0, &[(name, &[3, 3])]).marked(3, 7),
        ]);
    }
    for name in ["cmpeq", "cmphs", "cmpls", "cmplt", "cmpgt", "cmpeqi", "cmplti", "cmpgti"] {
        let case = |what: &str| edge(format!("{name} {what}"), &[(name, &[3, 5])]);
        cases.extend([
            case("with marked Rd").marked(3, 7),
            case("with marked Rb").marked(5, 7),
            case("of unmarked registers unmarks TF").state(tf).state(cy),
        ]);
    }
    cases
}

/// "a marked base still stops first" (document 02, ticket 5).
fn bases() -> Vec<Case> {
    let mut cases = Vec::new();
    for name in ["ldr", "ldrh", "ldrb", "str", "strh", "strb"] {
        for (what, base) in [("inside", 0x20), ("at the length", LENGTH), ("outside", u32::MAX - 9)]
        {
            let case = edge(format!("{name} from a marked base {what}"), &[(name, &[3, 0, 5])]);
            cases.push(case.marked(5, base).gives(14, 0));
        }
        let case = edge(format!("{name} of a marked Rd outside"), &[(name, &[3, 0, 5])]);
        cases.push(case.marked(3, 7).register(5, LENGTH).bus_error(Access::Data));
    }
    cases
}
