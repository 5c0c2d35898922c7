//! Document 01's "Sixteen lines to prove", as far as words and instructions go.

use second::isa::{data_address, decode, encode, jump_target};
use second::isa::{AluOp, Halves, Instr, When};
use second::word::{self, Width};

/// A negative number as a word.
fn minus(magnitude: u32) -> u32 {
    magnitude.wrapping_neg()
}

/// The bits decode to the instruction, and the instruction encodes to the bits.
fn assert_is(halves: Halves, instr: Instr) {
    let (first, second) = match halves {
        Halves::One(first) => (first, 0),
        Halves::Two(first, second) => (first, second),
    };
    assert_eq!(decode(first, second), Some(instr));
    assert_eq!(encode(&instr), Some(halves));
}

/// As above, for a jump whose displacement in bytes is given; from address 0x4000.
fn assert_jumps(halves: Halves, instr: Instr, displacement: u32, bytes: u32) {
    assert_is(halves, instr);
    assert_eq!(jump_target(0x4000, displacement), 0x4000u32.wrapping_add(bytes));
}

#[test]
fn lines_1_to_4_are_instructions_on_registers() {
    assert_is(Halves::One(0x2112), Instr::Alu { op: AluOp::Add, rd: 1, rb: 2 });
    assert_is(Halves::One(0x6f08), Instr::Addi { rd: 0, simm8: minus(8) });
    assert_is(Halves::One(0x7110), Instr::Movi { rd: 1, simm8: 16 });
    assert_is(Halves::One(0x8110), Instr::Load { width: Width::Word, rd: 1, uimm4: 1, rb: 0 });
    assert_eq!(data_address(0x100, 1, Width::Word), 0x104);
}

#[test]
fn lines_5_to_7_are_short_jumps() {
    let short = |when, displacement| Instr::ShortJump { when, displacement };
    assert_jumps(Halves::One(0xe402), short(When::False, 2), 2, 4);
    assert_jumps(Halves::One(0xefff), short(When::True, minus(1)), minus(1), minus(2));
    assert_jumps(Halves::One(0xf600), short(When::Always, minus(512)), minus(512), minus(1024));
}

#[test]
fn lines_8_and_9_are_long_jumps() {
    let j = Instr::LongJump { when: When::Always, displacement: minus(1) };
    assert_jumps(Halves::Two(0xf3ff, 0xffff), j, minus(1), minus(2));
    assert_jumps(Halves::Two(0xf800, 0x0002), Instr::Jl { displacement: 2 }, 2, 4);
}

#[test]
fn line_10_is_nothing() {
    assert_eq!(decode(0xfc00, 0), None);
    assert_eq!(decode(0xfc00, 0xffff), None);
}

#[test]
fn lines_11_and_12_are_sums_with_carry() {
    assert_eq!(word::add(0xffff_ffff, 1, false), (0, true));
    assert_eq!(word::sub(0, 0xffff_ffff, true), (0, true));
}

#[test]
fn lines_13_and_14_are_shifts() {
    assert_eq!(word::lsr(0x1234_5678, 64), 0x1234_5678);
    assert_eq!(word::lsl(0x1234_5678, 32), 0);
    assert_eq!(word::asr(0x8000_0000, 40), 0xffff_ffff);
}

#[test]
fn line_15_is_a_compare() {
    assert!(word::less(0x8000_0000, 0x7fff_ffff));
}

#[test]
fn line_16_is_a_load_beside_the_program_counter() {
    assert_is(Halves::One(0x4011), Instr::Ldrpc { rd: 1, uimm8: 1 });
    assert_eq!(data_address(0x102, 1, Width::Word), 0x104);
}
