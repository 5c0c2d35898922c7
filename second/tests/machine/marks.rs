//! "Marks": for each instruction, which marks it makes and when it stops with 14.

use second::isa::mnemonics;

use crate::rig::{half, Rig, LENGTH};

/// The marks before a step, and TF.
#[derive(Clone, Copy, Debug)]
struct Before {
    rd: bool,
    rb: bool,
    tf: bool,
    cy: bool,
    tf_value: bool,
}

impl Before {
    fn either(self) -> bool {
        self.rd || self.rb
    }

    /// The marks when nothing changes.
    fn unchanged(self) -> Option<After> {
        Some(After { rd: self.rd, tf: self.tf, cy: self.cy })
    }

    /// The marks when only Rd's changes.
    fn rd_becomes(self, rd: bool) -> Option<After> {
        Some(After { rd, tf: self.tf, cy: self.cy })
    }

    fn tf_becomes(self, tf: bool) -> Option<After> {
        Some(After { rd: self.rd, tf, cy: self.cy })
    }

    /// Rd's and CY's.
    fn sum_becomes(self, marked: bool) -> Option<After> {
        Some(After { rd: marked, tf: self.tf, cy: marked })
    }

    /// A conditional instruction, done if TF is `done_if`, whose result is marked if `sources` are.
    fn conditional(self, done_if: bool, sources: bool) -> Option<After> {
        match (self.tf, self.tf_value == done_if) {
            (true, _) => self.rd_becomes(true),
            (false, true) => self.rd_becomes(sources),
            (false, false) => self.unchanged(),
        }
    }

    /// Nothing changes, but a marked operand stops.
    fn stops_if(self, marked: bool) -> Option<After> {
        if marked {
            None
        } else {
            self.unchanged()
        }
    }
}

/// The marks after a step; none of them means stop 14.
#[derive(Clone, Copy, Debug, PartialEq)]
struct After {
    rd: bool,
    tf: bool,
    cy: bool,
}

/// A mnemonic, its halves with Rd r3 and Rb r5, and document 01's rule for its marks.
type Row = (&'static str, &'static [u16], fn(Before) -> Option<After>);

/// Every mnemonic, in the order of the bits; mfsfr, mtsfr and jsfr here with the PSW.
const TABLE: [Row; 59] = [
    ("lsli", &[0x0c31], |m| m.unchanged()),
    ("lsri", &[0x0d31], |m| m.unchanged()),
    ("asri", &[0x0e31], |m| m.unchanged()),
    ("multi", &[0x0f30], |m| m.unchanged()),
    ("swint", &[0x1003], |m| m.unchanged()),
    ("mfsfr", &[0x1230], |m| m.rd_becomes(m.tf || m.cy)),
    ("mtsfr", &[0x1305], |m| (!m.rb).then_some(After { rd: m.rd, tf: false, cy: false })),
    ("jr", &[0x1c05], |m| m.stops_if(m.rb)),
    ("jrl", &[0x1d05], |m| m.stops_if(m.rb)),
    ("jsfr", &[0x1e00], |m| m.stops_if(m.tf || m.cy)),
    ("sub", &[0x2035], |m| m.sum_becomes(m.either())),
    ("add", &[0x2135], |m| m.sum_becomes(m.either())),
    ("subc", &[0x2235], |m| m.sum_becomes(m.either() || m.cy)),
    ("addc", &[0x2335], |m| m.sum_becomes(m.either() || m.cy)),
    ("mov", &[0x2435], |m| m.rd_becomes(m.rb)),
    ("and", &[0x2535], |m| m.rd_becomes(m.either())),
    ("or", &[0x2635], |m| m.rd_becomes(m.either())),
    ("xor", &[0x2735], |m| m.rd_becomes(m.either())),
    ("sxb", &[0x2835], |m| m.rd_becomes(m.rb)),
    ("xhw", &[0x2935], |m| m.rd_becomes(m.rb)),
    ("sxh", &[0x2a35], |m| m.rd_becomes(m.rb)),
    ("zxh", &[0x2b35], |m| m.rd_becomes(m.rb)),
    ("lsl", &[0x2c35], |m| m.stops_if(m.rb)),
    ("lsr", &[0x2d35], |m| m.stops_if(m.rb)),
    ("asr", &[0x2e35], |m| m.stops_if(m.rb)),
    ("mult", &[0x2f35], |m| m.rd_becomes(m.either())),
    ("cmpeqi", &[0x3035], |m| m.tf_becomes(m.rd)),
    ("cmpeq", &[0x3135], |m| m.tf_becomes(m.either())),
    ("cmphs", &[0x3235], |m| m.tf_becomes(m.either())),
    ("cmpls", &[0x3335], |m| m.tf_becomes(m.either())),
    ("cmplt", &[0x3435], |m| m.tf_becomes(m.either())),
    ("cmpgt", &[0x3535], |m| m.tf_becomes(m.either())),
    ("cmplti", &[0x3635], |m| m.tf_becomes(m.rd)),
    ("cmpgti", &[0x3735], |m| m.tf_becomes(m.rd)),
    ("movf", &[0x3835], |m| m.conditional(false, m.rb)),
    ("subf", &[0x3935], |m| m.conditional(false, m.either())),
    ("addif", &[0x3a35], |m| m.conditional(false, m.rd)),
    ("addf", &[0x3b35], |m| m.conditional(false, m.either())),
    ("movt", &[0x3c35], |m| m.conditional(true, m.rb)),
    ("subt", &[0x3d35], |m| m.conditional(true, m.either())),
    ("addit", &[0x3e35], |m| m.conditional(true, m.rd)),
    ("addt", &[0x3f35], |m| m.conditional(true, m.either())),
    ("ldrpc", &[0x4130], |m| m.rd_becomes(false)),
    ("andi", &[0x5f3f], |m| m.unchanged()),
    ("addi", &[0x6f3f], |m| m.unchanged()),
    ("movi", &[0x7f3f], |m| m.rd_becomes(false)),
    ("ldr", &[0x8135], |m| (!m.rb).then_some(After { rd: false, tf: m.tf, cy: m.cy })),
    ("str", &[0x9135], |m| m.stops_if(m.rb)),
    ("ldrh", &[0xa135], |m| (!m.rb).then_some(After { rd: false, tf: m.tf, cy: m.cy })),
    ("strh", &[0xb135], |m| m.stops_if(m.rb)),
    ("ldrb", &[0xc135], |m| (!m.rb).then_some(After { rd: false, tf: m.tf, cy: m.cy })),
    ("strb", &[0xd135], |m| m.stops_if(m.rb)),
    ("jf", &[0xe000, 0x0010], |m| m.stops_if(m.tf)),
    ("sjf", &[0xe410], |m| m.stops_if(m.tf)),
    ("jt", &[0xe800, 0x0010], |m| m.stops_if(m.tf)),
    ("sjt", &[0xec10], |m| m.stops_if(m.tf)),
    ("j", &[0xf000, 0x0010], |m| m.unchanged()),
    ("sj", &[0xf410], |m| m.unchanged()),
    ("jl", &[0xf800, 0x0010], |m| m.unchanged()),
];

/// Every setting of the four marks and of TF.
fn settings() -> impl Iterator<Item = Before> {
    (0..32).map(|bits| {
        let bit = |i| bits >> i & 1 == 1;
        Before { rd: bit(0), rb: bit(1), tf: bit(2), cy: bit(3), tf_value: bit(4) }
    })
}

/// A busy machine with these marks and TF; r5 is an address in memory.
fn machine(halves: &[u16], before: Before) -> Rig {
    let mut rig = Rig::busy(halves);
    rig.set(5, 0x40);
    rig.state.registers[3].marked = before.rd;
    rig.state.registers[5].marked = before.rb;
    (rig.state.tf_marked, rig.state.cy_marked) = (before.tf, before.cy);
    rig.state.psw |= u32::from(before.tf_value) << 8;
    rig
}

/// The step makes these marks of Rd (here register `rd`), TF and CY, and no other of a register.
fn assert_marks(rig: &Rig, rd: usize, expected: Option<After>, context: &str) {
    let Some(expected) = expected else {
        rig.assert_stops(14);
        return;
    };
    let mut after = rig.clone();
    assert_eq!(after.run_steps(1), (10, 1), "{context}");
    let marks = After {
        rd: after.state.registers[rd].marked,
        tf: after.state.tf_marked,
        cy: after.state.cy_marked,
    };
    assert_eq!(marks, expected, "{context}");
    for n in (0..16).filter(|&n| n != rd) {
        let unchanged = rig.state.registers[n].marked;
        assert_eq!(after.state.registers[n].marked, unchanged, "r{n} of {context}");
    }
}

#[test]
fn the_table_has_every_mnemonic() {
    let names: Vec<&str> = mnemonics().iter().map(|instr| instr.mnemonic()).collect();
    assert_eq!(names, TABLE.map(|(name, ..)| name));
}

#[test]
fn every_instruction_under_every_setting_of_the_marks() {
    for (name, halves, rule) in TABLE {
        for before in settings() {
            let context = format!("{name} with {before:?}");
            assert_marks(&machine(halves, before), 3, rule(before), &context);
        }
    }
}

/// The rules hold as well if Rd and Rb are one register. "xor of a register with itself stays
/// marked."
#[test]
fn a_register_with_itself() {
    for (name, halves, rule) in TABLE {
        let on_two_registers = matches!(halves, [0x2000..=0x2fff] | [0x3100..=0x35ff]);
        let conditional = matches!(halves[0] >> 8, 0x38 | 0x39 | 0x3b | 0x3c | 0x3d | 0x3f);
        if !on_two_registers && !conditional {
            continue;
        }
        for before in settings().filter(|before| before.rd == before.rb) {
            let context = format!("{name} r3,r3 with {before:?}");
            let rig = machine(&[halves[0] & 0xfff0 | 3], before);
            assert_marks(&rig, 3, rule(before), &context);
        }
    }
    let mut rig = Rig::busy(&[0x2733]); // xor r3,r3
    rig.mark(3);
    rig.assert_step(|after| {
        after.state.pc = 2;
        after.state.registers[3].value = 0;
    });
}

#[test]
fn an_instruction_is_done_with_values_whether_marked_or_not() {
    for (name, halves, rule) in TABLE {
        for before in settings().filter(|&before| rule(before).is_some()) {
            let unmarked = Before { rd: false, rb: false, tf: false, cy: false, ..before };
            let (mut marked, mut plain) = (machine(halves, before), machine(halves, unmarked));
            assert_eq!(marked.run_steps(1), (10, 1));
            assert_eq!(plain.run_steps(1), (10, 1));
            for rig in [&mut marked, &mut plain] {
                rig.state.registers.iter_mut().for_each(|register| register.marked = false);
                (rig.state.tf_marked, rig.state.cy_marked) = (false, false);
                rig.marks.fill(0);
            }
            assert_eq!(marked, plain, "{name} with {before:?}");
        }
    }
}

#[test]
fn a_loaded_register_is_marked_if_any_byte_loaded_is() {
    for (half, width) in [(0x8035, 4), (0xa035, 2), (0xc035, 1), (0x4130, 4)] {
        for place in 0x3c..0x48 {
            for earlier in [false, true] {
                let mut rig = Rig::busy(&[half]);
                rig.set(5, 0x40);
                rig.state.registers[3].marked = earlier;
                rig.mark_byte(place);
                let loaded = (0x40..0x40 + width).contains(&place);
                let mut after = rig.clone();
                assert_eq!(after.run_steps(1), (10, 1));
                assert_eq!(after.state.registers[3].marked, loaded, "{half:#06x}, {place:#x}");
                assert_eq!(after.marks, rig.marks, "a load changes no mark of memory");
            }
        }
    }
}

#[test]
fn a_stored_byte_takes_the_registers_mark_so_an_unmarked_store_clears_one() {
    for (half, width) in [(0x9035, 4), (0xb035, 2), (0xd035, 1)] {
        for marked in [false, true] {
            for earlier in [false, true] {
                let mut rig = Rig::busy(&[half]);
                rig.set(3, 0x1122_3344);
                rig.set(5, 0x40);
                rig.state.registers[3].marked = marked;
                if earlier {
                    rig.mark_bytes(0x20..LENGTH as usize);
                }
                rig.assert_step(|after| {
                    after.state.pc = 2;
                    let bytes = 0x1122_3344_u32.to_be_bytes();
                    after.memory[0x40..0x40 + width].copy_from_slice(&bytes[4 - width..]);
                    let stored = 0x40..0x40 + width;
                    if marked {
                        after.mark_bytes(stored);
                    } else {
                        after.unmark_bytes(stored);
                    }
                });
            }
        }
    }
}

/// A store of the base itself: it is marked, so the store stops.
#[test]
fn a_marked_register_stored_through_itself_stops() {
    for half in [0x9055, 0xb055, 0xd055] {
        let mut rig = Rig::busy(&[half]);
        rig.set(5, 0x40);
        rig.mark(5);
        rig.assert_stops(14);
    }
}

/// A load whose Rd is its base: only the mark before the load counts for stop 14.
#[test]
fn a_load_into_its_own_base_marks_it() {
    let mut rig = Rig::busy(&[0x8055, 0x8055]);
    rig.set(5, 0x40);
    rig.mark_byte(0x43);
    assert_eq!(rig.run_steps(2), (14, 1));
    assert!(rig.state.registers[5].marked);
}

#[test]
fn mfsfr_of_another_sfr_is_not_marked() {
    for number in 1..=10 {
        for before in settings() {
            let rig = machine(&[half(0x12, 3, number)], before);
            assert_marks(&rig, 3, before.rd_becomes(false), &format!("sfr{number} {before:?}"));
        }
    }
}

#[test]
fn any_mtsfr_of_a_marked_register_stops_and_only_that_of_psw_unmarks_the_flags() {
    for number in 1..=10 {
        for before in settings() {
            let rig = machine(&[half(0x13, number, 5)], before);
            let context = format!("sfr{number} {before:?}");
            assert_marks(&rig, 3, before.stops_if(before.rb), &context);
        }
    }
}

/// The write would be ignored, and still a marked register stops.
#[test]
fn an_ignored_timer_write_of_a_marked_register_stops() {
    let mut rig = Rig::with(&[0x1332]);
    rig.state.psw = 1 << 3;
    rig.mark(2);
    rig.assert_stops(14);
}

#[test]
fn jsfr_of_another_sfr_does_not_look_at_the_flags() {
    for number in 1..=3 {
        for before in settings() {
            let rig = machine(&[half(0x1e, 0, number)], before);
            assert_marks(&rig, 3, before.unchanged(), &format!("sfr{number} {before:?}"));
        }
    }
}

/// Marked data may be moved, stored and computed with, and no other register stops a store.
#[test]
fn a_marked_register_that_is_not_the_base_may_be_stored() {
    let mut rig = Rig::busy(&[0x9035]);
    rig.set(5, LENGTH - 4);
    rig.mark(3);
    assert_eq!(rig.run_steps(1), (10, 1));
    assert_eq!(rig.marks.last(), Some(&0xf0));
}

/// Entries and their SFR are never marked, and they leave the flags' marks.
#[test]
fn entries_change_no_mark() {
    for before in settings() {
        let mut rig = machine(&[0x1003], before);
        rig.state.hwdbg |= 0b100;
        assert_marks(&rig, 3, before.unchanged(), "a breakpoint");
        let mut rig = machine(&[0x1003], before);
        rig.state.psw = rig.state.psw & !(1 << 3) | 1 << 5 | 63 << 20;
        let mut after = rig.clone();
        assert_eq!(after.run(&[63]), (10, 1));
        assert_eq!((after.state.tf_marked, after.state.cy_marked), (before.tf, before.cy));
        assert_eq!(after.state.registers, rig.state.registers);
    }
}

/// IPC, RA and a swint's PSW carry nothing of a marked flag but the flag's own bit.
#[test]
fn the_flags_stay_in_their_bits_and_keep_their_marks_over_an_entry() {
    let mut rig = Rig::with(&[0x1003]);
    rig.place(4, &[0x1230]); // mfsfr r3,psw
    rig.state.psw = 1 << 8;
    rig.state.tf_marked = true;
    assert_eq!(rig.run_steps(2), (10, 2));
    assert!(rig.state.tf_marked && rig.state.registers[3].marked);
    assert_eq!(rig.value(3), 1 << 8 | 1 << 3 | 1 | 3 << 16);
}
