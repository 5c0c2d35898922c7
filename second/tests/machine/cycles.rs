//! Cycles (document 02, ticket 6).

use second::isa::{encode, mnemonics, Halves, Instr};
use second::run::{run, Outcome};

use crate::rig::{access, half, Rig, LENGTH};

const IP: u32 = 1 << 3;
const TE: u32 = 1 << 4;
const IE: u32 = 1 << 5;
const TF: u32 = 1 << 8;

/// movi r1,16.
const MOVI: u16 = 0x7110;

/// The cycles of one step with these lines, which completes.
#[track_caller]
fn cost_with(rig: &Rig, lines: u8) -> u32 {
    let mut after = rig.clone();
    assert_eq!(after.run(&[lines]), (10, 1), "from {rig:x?}");
    after.state.cycles.wrapping_sub(rig.state.cycles)
}

/// The cycles of one step with all lines low.
#[track_caller]
fn cost(rig: &Rig) -> u32 {
    cost_with(rig, 0)
}

/// The halves of an instruction.
fn halves(instr: Instr) -> Vec<u16> {
    match encode(&instr).expect("the operands are in range") {
        Halves::One(first) => vec![first],
        Halves::Two(first, second) => vec![first, second],
    }
}

/// The ticket's cost of a mnemonic with all operands 0, so of a shift by 0, under a TF.
fn expected(mnemonic: &str, tf: bool) -> u32 {
    match mnemonic {
        "sjf" | "jf" => 2 + u32::from(tf),
        "sjt" | "jt" => 3 - u32::from(tf),
        "sj" | "j" | "jl" | "jr" | "jrl" | "jsfr" => 2,
        "ldr" | "ldrh" | "ldrb" | "str" | "strh" | "strb" | "ldrpc" => 2,
        "lsl" | "lsr" | "asr" | "lsli" | "lsri" | "asri" => 2,
        "mult" | "multi" | "swint" => 2,
        "mfsfr" | "mtsfr" => 1,
        // ALU, compare and conditional ALU, the last whether done or not.
        "sub" | "add" | "subc" | "addc" | "mov" | "and" | "or" | "xor" | "sxb" | "xhw" | "sxh"
        | "zxh" | "andi" | "addi" | "movi" | "cmpeq" | "cmphs" | "cmpls" | "cmplt" | "cmpgt"
        | "cmpeqi" | "cmplti" | "cmpgti" | "movf" | "subf" | "addif" | "addf" | "movt" | "subt"
        | "addit" | "addt" => 1,
        _ => panic!("{mnemonic} is no mnemonic"),
    }
}

#[test]
fn every_instruction_has_its_cost() {
    for instr in mnemonics() {
        for (tf, flags) in [(false, 0), (true, TF)] {
            let mut rig = Rig::with(&halves(instr));
            rig.state.psw = flags;
            assert_eq!(cost(&rig), expected(instr.mnemonic(), tf), "{instr:?}, TF {tf}");
        }
    }
}

/// Contents and marks of what is computed with don't matter.
#[test]
fn the_cost_does_not_depend_on_values() {
    for instr in mnemonics() {
        let instr = match instr {
            Instr::Load { .. } | Instr::Store { .. } => instr.with_operands([3, 0, 5]),
            Instr::MultShift { .. } => instr.with_operands([3, 5, 0]),
            _ => instr.with_operands([3; 3]),
        };
        let mut rig = Rig::busy(&halves(instr));
        rig.set(5, 0x40);
        for value in [0, 1, 0x7fff_ffff, 0x8000_0000, u32::MAX] {
            let mut other = rig.clone();
            other.set(3, value);
            other.state.registers[3].marked =
                !matches!(instr, Instr::Jr { .. } | Instr::Jrl { .. } | Instr::Mtsfr { .. });
            assert_eq!(cost(&other), cost(&rig), "{instr:?} of {value:#x}");
        }
    }
}

/// "2 for amounts 0 to 7, 3 for 8 to 15, 4 for 16 to 23, 5 above", by the low 6 bits.
#[test]
fn a_shift_costs_by_its_amount() {
    let table = |amount| match amount {
        0..=7 => 2,
        8..=15 => 3,
        16..=23 => 4,
        24..=63 => 5,
        _ => panic!("{amount} has more than 6 bits"),
    };
    for amount in 0..=255_u32 {
        for top in [0x2c, 0x2d, 0x2e] {
            let mut rig = Rig::busy(&[half(top, 3, 5)]);
            for high in [0, 0x100, 0xffff_ff00] {
                rig.set(5, high | amount);
                assert_eq!(cost(&rig), table(amount % 64), "{top:#x} by {amount}");
            }
            // By itself.
            let mut rig = Rig::busy(&[half(top, 3, 3)]);
            rig.set(3, amount);
            assert_eq!(cost(&rig), table(amount % 64), "{top:#x} of {amount} by itself");
        }
    }
    for amount in 0..16 {
        for top in [0x0c, 0x0d, 0x0e] {
            let rig = Rig::busy(&[half(top, 3, amount)]);
            assert_eq!(cost(&rig), table(amount as u32), "{top:#x} by {amount}");
        }
    }
}

#[test]
fn a_multiply_costs_2_whatever_it_multiplies_by() {
    for value in [0, 1, 8, 16, 24, 63, 64, u32::MAX] {
        let mut rig = Rig::busy(&[half(0x2f, 3, 5)]);
        rig.set(5, value);
        assert_eq!(cost(&rig), 2);
        rig.mark(5);
        assert_eq!(cost(&rig), 2, "its factor may be marked");
        assert_eq!(cost(&Rig::busy(&[half(0x0f, 3, value as usize % 16)])), 2);
    }
}

/// "a register shift with its amount register marked becomes stop 14", also where the amount is 0,
/// and where it is shifted itself. Immediate shifts go on.
#[test]
fn a_marked_amount_stops() {
    for top in [0x2c, 0x2d, 0x2e] {
        for amount in [0, 1, 31, 32, u32::MAX] {
            let mut rig = Rig::busy(&[half(top, 3, 5)]);
            rig.set(5, amount);
            rig.mark(5);
            rig.assert_stops(14);
            let mut rig = Rig::busy(&[half(top, 3, 3)]);
            rig.set(3, amount);
            rig.mark(3);
            rig.assert_stops(14);
            let mut rig = Rig::busy(&[half(top, 3, 5)]);
            rig.mark(3);
            assert_eq!(rig.run_steps(1), (10, 1), "only the amount's mark stops");
            assert!(rig.state.registers[3].marked);
        }
        let mut rig = Rig::busy(&[half(top - 0x20, 3, 9)]);
        rig.mark(3);
        assert_eq!(cost(&rig), 3, "by an immediate");
    }
}

#[test]
fn timer_external_and_breakpoint_entries_and_bus_errors_cost_4_in_all() {
    let mut timer = Rig::busy(&[MOVI]);
    (timer.state.psw, timer.state.timer, timer.state.pending) = (IE | TE, 0, true);
    assert_eq!(cost(&timer), 4);
    let mut external = Rig::busy(&[0xf400]);
    external.state.psw = IE | 1 << 20;
    assert_eq!(cost_with(&external, 1), 4);
    for half in [MOVI, 0x8035, 0x1003, 0xfc00] {
        let mut breakpoint = Rig::busy(&[half]);
        breakpoint.state.hwdbg |= 0b100;
        assert_eq!(cost(&breakpoint), 4, "{half:#x} under a breakpoint");
    }
    let mut fetch = Rig::busy(&[]);
    fetch.state.pc = LENGTH;
    assert_eq!(cost(&fetch), 4);
    let mut second_half = Rig::busy(&[]);
    second_half.place(LENGTH - 2, &[0xe800]);
    second_half.state.pc = LENGTH - 2;
    assert_eq!(cost(&second_half), 4);
    for top in [0x8, 0x9, 0xa, 0xb, 0xc, 0xd] {
        let mut data = Rig::busy(&[access(top, 0, 3, 5)]);
        data.set(5, LENGTH);
        assert_eq!(cost(&data), 4);
        data.state.hwdbg |= 0b11 << 4;
        (data.state.wp0, data.state.wp1) = (LENGTH, LENGTH);
        assert_eq!(cost(&data), 4, "no watchpoint hits it");
    }
}

#[test]
fn a_watchpoint_costs_6_with_its_load_or_store() {
    for hwdbg in [0b01 << 4, 0b10 << 4, 0b11 << 4] {
        for top in [0x8, 0x9, 0xa, 0xb, 0xc, 0xd] {
            let mut rig = Rig::busy(&[access(top, 0, 3, 5)]);
            rig.set(5, 0x40);
            rig.state.hwdbg |= hwdbg;
            assert_eq!(cost(&rig), 6);
            rig.set(5, 0x44);
            assert_eq!(cost(&rig), 2, "not hit");
        }
        let mut ldrpc = Rig::busy(&[0x4130]);
        ldrpc.state.hwdbg |= hwdbg;
        assert_eq!(cost(&ldrpc), 6);
    }
}

#[test]
fn swint_costs_2_whatever_its_operand_and_ip_are() {
    for code in 0..16 {
        for psw in [0, IP, IE] {
            let mut rig = Rig::busy(&[0x1000 | code]);
            rig.state.psw = psw;
            assert_eq!(cost(&rig), 2);
        }
    }
}

/// Written or ignored, a TIMER write costs what every mtsfr does; so does one that writes nothing
/// new.
#[test]
fn every_mfsfr_and_mtsfr_costs_1() {
    for number in 0..=10 {
        for psw in [0, IP, TE, IP | TE] {
            for top in [0x12, 0x13] {
                let fields = if top == 0x12 { (3, number) } else { (number, 3) };
                let mut rig = Rig::with(&[half(top, fields.0, fields.1)]);
                (rig.state.psw, rig.state.timer) = (psw, 50);
                rig.set(3, 7);
                assert_eq!(cost(&rig), 1, "{top:#x} of sfr{number}");
            }
        }
    }
}

#[test]
fn the_count_is_modulo_2_to_the_32() {
    for (before, after) in
        [(0, 3), (7, 10), (0xffff_fffc, u32::MAX), (0xffff_fffd, 0), (u32::MAX, 2)]
    {
        let mut rig = Rig::busy(&[0xec05]); // sjt, not taken
        rig.state.cycles = before;
        assert_eq!(rig.run_steps(1), (10, 1));
        assert_eq!(rig.state.cycles, after);
    }
}

/// movi 1, sj 2, ldrpc 2, swint 2; then no instruction.
#[test]
fn a_run_sums_its_steps_and_the_result_repeats_the_count() {
    let start = [MOVI, 0xf405, 0xfc00];
    let after = [(0, 100), (1, 101), (2, 103), (3, 105), (4, 107), (9, 107)];
    for (budget, cycles) in after {
        let mut rig = Rig::with(&start);
        rig.place(12, &[0x4130, 0x1003]);
        rig.state.cycles = 100;
        let tape = vec![0; budget];
        let (state, memory, marks) = (&mut rig.state, &mut rig.memory, &mut rig.marks);
        let outcome = run(state, memory, marks, &tape, budget as u64);
        assert_eq!((outcome.steps, outcome.cycles), (budget.min(4) as u64, cycles));
        assert_eq!(rig.state.cycles, cycles);
    }
}

#[test]
fn a_refusal_costs_nothing_and_its_result_repeats_the_count_as_given() {
    let mut rig = Rig::with(&[MOVI]);
    (rig.state.pc, rig.state.cycles) = (1, 77);
    let Outcome { steps, cycles, .. } =
        run(&mut rig.state, &mut rig.memory, &mut rig.marks, &[0], 1);
    assert_eq!((steps, cycles, rig.state.cycles), (0, 77, 77));
}
