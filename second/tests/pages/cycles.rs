//! The table of what instructions cost.

use second::isa::{mnemonics, Instr, MultShiftOp, When};
use second::state::psw;

use crate::markdown::{page, rows};
use crate::rig::Rig;

/// The case of an instruction, by the page's words, for a shift by this amount and under this TF.
fn case(instr: Instr, amount: u32, tf: bool) -> &'static str {
    match instr {
        Instr::MultShift { op: MultShiftOp::Mult, .. }
        | Instr::MultShiftImmediate { op: MultShiftOp::Mult, .. } => "-",
        Instr::MultShift { .. } | Instr::MultShiftImmediate { .. } => match amount % 64 {
            0..8 => "by 0 to 7",
            8..16 => "by 8 to 15",
            16..24 => "by 16 to 23",
            _ => "by 24 to 63",
        },
        Instr::Conditional { .. } | Instr::ConditionalAddImmediate { .. } => "done or not",
        Instr::ShortJump { when, .. } | Instr::LongJump { when, .. } => match (when, tf) {
            (When::Always, _) => "-",
            (When::False, false) | (When::True, true) => "taken",
            _ => "not taken",
        },
        _ => "-",
    }
}

/// What one step costs that does this instruction with r1 as Rd, and r2 as Rb.
fn cost(instr: Instr, amount: u32, tf: bool) -> u32 {
    let mut rig = Rig::with(instr);
    rig.state.registers[2].value = amount;
    rig.state.psw = if tf { psw::TF } else { 0 };
    rig.step(0).expect("it does not stop");
    rig.state.cycles
}

#[test]
fn instructions_cost_what_the_page_says() {
    let rows = rows(&page("MANIK.md"), ["Instructions", "Case", "Cycles"]);
    let mut reached = vec![false; rows.len()];
    let without_entry = |instr: &Instr| !matches!(instr, Instr::Swint { .. });
    for instr in mnemonics().into_iter().filter(without_entry) {
        for (amount, tf) in (0..130).flat_map(|amount| [(amount, false), (amount, true)]) {
            let instr = match instr {
                Instr::MultShiftImmediate { .. } => instr.with_operands([1, amount % 16, 0]),
                Instr::MultShift { .. } => instr.with_operands([1, 2, 0]),
                _ => instr,
            };
            let amount = match instr {
                Instr::MultShiftImmediate { .. } => amount % 16,
                _ => amount,
            };
            let (name, case) = (instr.mnemonic(), case(instr, amount, tf));
            let belongs =
                |row: &[String; 3]| row[0].split(' ').any(|n| n == name) && row[1] == case;
            let place = rows.iter().position(belongs);
            let place = place.unwrap_or_else(|| panic!("no row for {name}, {case}"));
            reached[place] = true;
            assert_eq!(cost(instr, amount, tf).to_string(), rows[place][2], "{name}, {case}");
        }
    }
    assert!(!reached.contains(&false), "{reached:?}");
}
