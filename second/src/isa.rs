//! The instructions: their bits, their mnemonics and their operands.
//!
//! Document 01, section "Instructions", decides; then the guide's instruction tables; then
//! Appendix B where document 01 names it. So `asr`, `mult`, `asri` and `multi` have the numbers of
//! the tables (Appendix B swaps them), and `sxb` has the table's name (Appendix B writes `sxtb`).
//!
//! Decoding and encoding are written apart from each other, so that a round trip tests both.

use crate::word::{align, sign_extend, Width};

/// An ALU instruction on two registers; its number is bits 11:8 after 0x2.
#[derive(Clone, Copy, Debug, PartialEq, Eq, Hash)]
pub enum AluOp {
    Sub = 0x0,
    Add = 0x1,
    Subc = 0x2,
    Addc = 0x3,
    Mov = 0x4,
    And = 0x5,
    Or = 0x6,
    Xor = 0x7,
    Sxb = 0x8,
    Xhw = 0x9,
    Sxh = 0xa,
    Zxh = 0xb,
}

/// A multiply or a shift; its number is bits 11:8 after 0x2 with Rb, after 0x0 with UIMM4.
#[derive(Clone, Copy, Debug, PartialEq, Eq, Hash)]
pub enum MultShiftOp {
    Lsl = 0xc,
    Lsr = 0xd,
    Asr = 0xe,
    Mult = 0xf,
}

/// A compare with a register; its number is bits 11:8 after 0x3.
#[derive(Clone, Copy, Debug, PartialEq, Eq, Hash)]
pub enum CompareOp {
    Eq = 0x1,
    Hs = 0x2,
    Ls = 0x3,
    Lt = 0x4,
    Gt = 0x5,
}

/// A compare with SIMM4; its number is bits 11:8 after 0x3. There is none for the unsigned ones.
#[derive(Clone, Copy, Debug, PartialEq, Eq, Hash)]
pub enum CompareImmediateOp {
    Eq = 0x0,
    Lt = 0x6,
    Gt = 0x7,
}

/// What a conditional instruction on two registers does; its number is bits 9:8.
#[derive(Clone, Copy, Debug, PartialEq, Eq, Hash)]
pub enum ConditionalOp {
    Mov = 0x0,
    Sub = 0x1,
    Add = 0x3,
}

/// When a relative jump is taken; its number is the two bits below 111.
#[derive(Clone, Copy, Debug, PartialEq, Eq, Hash)]
pub enum When {
    /// If TF is 0.
    False = 0b00,
    /// If TF is 1.
    True = 0b01,
    /// In either case.
    Always = 0b10,
}

/// An instruction. Operands are whole words: a signed one is modulo 2^32, and one that is out of
/// its field's range can be held, so that the encoder can refuse it.
#[derive(Clone, Copy, Debug, PartialEq, Eq, Hash)]
pub enum Instr {
    /// `sub` `add` `subc` `addc` `mov` `and` `or` `xor` `sxb` `xhw` `sxh` `zxh`.
    Alu { op: AluOp, rd: u32, rb: u32 },
    /// `andi`.
    Andi { rd: u32, uimm8: u32 },
    /// `addi`.
    Addi { rd: u32, simm8: u32 },
    /// `movi`.
    Movi { rd: u32, simm8: u32 },
    /// `lsl` `lsr` `asr` `mult`.
    MultShift { op: MultShiftOp, rd: u32, rb: u32 },
    /// `lsli` `lsri` `asri` `multi`.
    MultShiftImmediate { op: MultShiftOp, rd: u32, uimm4: u32 },
    /// `cmpeq` `cmphs` `cmpls` `cmplt` `cmpgt`.
    Compare { op: CompareOp, rd: u32, rb: u32 },
    /// `cmpeqi` `cmplti` `cmpgti`.
    CompareImmediate { op: CompareImmediateOp, rd: u32, simm4: u32 },
    /// `movf` `subf` `addf`, done if TF is 0, and `movt` `subt` `addt`, done if TF is 1.
    Conditional { tf: bool, op: ConditionalOp, rd: u32, rb: u32 },
    /// `addif`, done if TF is 0, and `addit`, done if TF is 1.
    ConditionalAddImmediate { tf: bool, rd: u32, simm4: u32 },
    /// `ldr` `ldrh` `ldrb`; `uimm4` counts units of the access.
    Load { width: Width, rd: u32, uimm4: u32, rb: u32 },
    /// `str` `strh` `strb`; `uimm4` counts units of the access.
    Store { width: Width, rd: u32, uimm4: u32, rb: u32 },
    /// `ldrpc`; `uimm8` counts words.
    Ldrpc { rd: u32, uimm8: u32 },
    /// `mfsfr`.
    Mfsfr { rd: u32, sfr: u32 },
    /// `mtsfr`.
    Mtsfr { sfr: u32, rb: u32 },
    /// `swint` with its 4 bits.
    Swint { code: u32 },
    /// `jr`.
    Jr { rb: u32 },
    /// `jrl`.
    Jrl { rb: u32 },
    /// `jsfr`.
    Jsfr { sfr: u32 },
    /// `sjf` `sjt` `sj`; `displacement` counts halfwords.
    ShortJump { when: When, displacement: u32 },
    /// `jf` `jt` `j`; `displacement` counts halfwords.
    LongJump { when: When, displacement: u32 },
    /// `jl`; `displacement` counts halfwords.
    Jl { displacement: u32 },
}

/// The bits of an instruction.
#[derive(Clone, Copy, Debug, PartialEq, Eq, Hash)]
pub enum Halves {
    /// The one half of an instruction of two bytes.
    One(u16),
    /// The first and the second half of an instruction of four bytes.
    Two(u16, u16),
}

/// The last SFR: "SFR 11 to 15 ... are no instruction" (document 01).
const LAST_SFR: u32 = 10;

/// The last SFR of jsfr: "jsfr takes SFR 0 to 3, bits 7:2 zero" (document 01).
const LAST_JUMP_SFR: u32 = 3;

/// Whether an instruction that begins with this half goes on in a second one.
///
/// Every such half begins an instruction, whatever the second half is: document 01 lists the four
/// long jumps by their top six bits, 111000, 111010, 111100 and 111110, and all other bits are the
/// displacement.
#[inline]
pub const fn needs_second(first: u16) -> bool {
    first >> 10 & 0b111001 == 0b111000
}

/// The instruction with these bits, if they are one. `second` counts only if `first` needs it.
///
/// It and its parts are always inlined: then a match on the answer joins with theirs, and the step
/// never makes the answer.
#[inline(always)]
pub fn decode(first: u16, second: u16) -> Option<Instr> {
    let bits = u32::from(first);
    match bits >> 12 {
        0x0 => decode_mult_shift_immediate(bits),
        0x1 => decode_special(bits),
        0x2 => Some(decode_alu_and_mult_shift(bits)),
        0x3 => Some(decode_compare_and_conditional(bits)),
        0x4..=0x7 => Some(decode_byte_immediate(bits)),
        0x8..=0xd => Some(decode_load_and_store(bits)),
        _ => decode_relative_jump(bits, second),
    }
}

/// Bits 11:8.
#[inline]
const fn bits_11_8(bits: u32) -> u32 {
    bits >> 8 & 0xf
}

/// Bits 7:4.
#[inline]
const fn bits_7_4(bits: u32) -> u32 {
    bits >> 4 & 0xf
}

/// Bits 3:0.
#[inline]
const fn bits_3_0(bits: u32) -> u32 {
    bits & 0xf
}

/// 0x0: the multiply and shifts with UIMM4. udi0 to udi3 (0x08 to 0x0b) are no instruction.
#[inline(always)]
fn decode_mult_shift_immediate(bits: u32) -> Option<Instr> {
    let op = match bits_11_8(bits) {
        0xc => MultShiftOp::Lsl,
        0xd => MultShiftOp::Lsr,
        0xe => MultShiftOp::Asr,
        0xf => MultShiftOp::Mult,
        _ => return None,
    };
    let (rd, uimm4) = (bits_7_4(bits), bits_3_0(bits));
    Some(Instr::MultShiftImmediate { op, rd, uimm4 })
}

/// 0x1: swint, the moves of SFR, and the jumps to a register.
///
/// The guide's tables have no row for the first three, so their bits are those of their pages of
/// Appendix B, as document 01 says. It widens the SFR of the moves to four bits, upward from the
/// lowest, and it gives swint 4 bits: bits 7:4 have no meaning then and are zero. jr is 0x1c and
/// jrl 0x1d by document 01, against the table.
#[inline(always)]
fn decode_special(bits: u32) -> Option<Instr> {
    let (high, low) = (bits_7_4(bits), bits_3_0(bits));
    match bits >> 8 {
        0x10 if high == 0 => Some(Instr::Swint { code: low }),
        0x12 if low <= LAST_SFR => Some(Instr::Mfsfr { rd: high, sfr: low }),
        0x13 if high <= LAST_SFR => Some(Instr::Mtsfr { sfr: high, rb: low }),
        0x1c if high == 0 => Some(Instr::Jr { rb: low }),
        0x1d if high == 0 => Some(Instr::Jrl { rb: low }),
        0x1e if high == 0 && low <= LAST_JUMP_SFR => Some(Instr::Jsfr { sfr: low }),
        _ => None,
    }
}

/// 0x2: the ALU, multiply and shift instructions on two registers.
#[inline(always)]
fn decode_alu_and_mult_shift(bits: u32) -> Instr {
    let (rd, rb) = (bits_7_4(bits), bits_3_0(bits));
    let alu = |op| Instr::Alu { op, rd, rb };
    let mult_shift = |op| Instr::MultShift { op, rd, rb };
    match bits_11_8(bits) {
        0x0 => alu(AluOp::Sub),
        0x1 => alu(AluOp::Add),
        0x2 => alu(AluOp::Subc),
        0x3 => alu(AluOp::Addc),
        0x4 => alu(AluOp::Mov),
        0x5 => alu(AluOp::And),
        0x6 => alu(AluOp::Or),
        0x7 => alu(AluOp::Xor),
        0x8 => alu(AluOp::Sxb),
        0x9 => alu(AluOp::Xhw),
        0xa => alu(AluOp::Sxh),
        0xb => alu(AluOp::Zxh),
        0xc => mult_shift(MultShiftOp::Lsl),
        0xd => mult_shift(MultShiftOp::Lsr),
        0xe => mult_shift(MultShiftOp::Asr),
        _ => mult_shift(MultShiftOp::Mult),
    }
}

/// 0x3: the compare and the conditional instructions.
#[inline(always)]
fn decode_compare_and_conditional(bits: u32) -> Instr {
    let (rd, rb) = (bits_7_4(bits), bits_3_0(bits));
    let simm4 = sign_extend(bits, 4);
    let compare = |op| Instr::Compare { op, rd, rb };
    let compare_immediate = |op| Instr::CompareImmediate { op, rd, simm4 };
    let conditional = |tf, op| Instr::Conditional { tf, op, rd, rb };
    match bits_11_8(bits) {
        0x0 => compare_immediate(CompareImmediateOp::Eq),
        0x1 => compare(CompareOp::Eq),
        0x2 => compare(CompareOp::Hs),
        0x3 => compare(CompareOp::Ls),
        0x4 => compare(CompareOp::Lt),
        0x5 => compare(CompareOp::Gt),
        0x6 => compare_immediate(CompareImmediateOp::Lt),
        0x7 => compare_immediate(CompareImmediateOp::Gt),
        0x8 => conditional(false, ConditionalOp::Mov),
        0x9 => conditional(false, ConditionalOp::Sub),
        0xa => Instr::ConditionalAddImmediate { tf: false, rd, simm4 },
        0xb => conditional(false, ConditionalOp::Add),
        0xc => conditional(true, ConditionalOp::Mov),
        0xd => conditional(true, ConditionalOp::Sub),
        0xe => Instr::ConditionalAddImmediate { tf: true, rd, simm4 },
        _ => conditional(true, ConditionalOp::Add),
    }
}

/// 0x4 to 0x7: the instructions with an immediate of eight bits, which lie in 11:8 and 3:0.
#[inline(always)]
fn decode_byte_immediate(bits: u32) -> Instr {
    let rd = bits_7_4(bits);
    let uimm8 = bits_11_8(bits) << 4 | bits_3_0(bits);
    let simm8 = sign_extend(uimm8, 8);
    match bits >> 12 {
        0x4 => Instr::Ldrpc { rd, uimm8 },
        0x5 => Instr::Andi { rd, uimm8 },
        0x6 => Instr::Addi { rd, simm8 },
        _ => Instr::Movi { rd, simm8 },
    }
}

/// 0x8 to 0xd: the loads and stores with a base register.
#[inline(always)]
fn decode_load_and_store(bits: u32) -> Instr {
    let (uimm4, rd, rb) = (bits_11_8(bits), bits_7_4(bits), bits_3_0(bits));
    let load = |width| Instr::Load { width, rd, uimm4, rb };
    let store = |width| Instr::Store { width, rd, uimm4, rb };
    match bits >> 12 {
        0x8 => load(Width::Word),
        0x9 => store(Width::Word),
        0xa => load(Width::Half),
        0xb => store(Width::Half),
        0xc => load(Width::Byte),
        _ => store(Width::Byte),
    }
}

/// 0xe and 0xf: the relative jumps, by document 01's top six bits. The guide's table (sjt as 0xed,
/// long jumps from bit 26 down) and Appendix B (27 bits, jf as jt) give way. 111111 is none.
#[inline(always)]
fn decode_relative_jump(bits: u32, second: u16) -> Option<Instr> {
    let simm10 = sign_extend(bits, 10);
    let simm26 = sign_extend(bits << 16 | u32::from(second), 26);
    let short = |when| Instr::ShortJump { when, displacement: simm10 };
    let long = |when| Instr::LongJump { when, displacement: simm26 };
    match bits >> 10 {
        0b111000 => Some(long(When::False)),
        0b111001 => Some(short(When::False)),
        0b111010 => Some(long(When::True)),
        0b111011 => Some(short(When::True)),
        0b111100 => Some(long(When::Always)),
        0b111101 => Some(short(When::Always)),
        0b111110 => Some(Instr::Jl { displacement: simm26 }),
        _ => None,
    }
}

/// The field of an unsigned value in `bits` bits, if it fits.
fn unsigned(value: u32, bits: u32) -> Option<u32> {
    (value >> bits == 0).then_some(value)
}

/// The field of a signed value in `bits` bits, if it fits.
fn signed(value: u32, bits: u32) -> Option<u32> {
    (sign_extend(value, bits) == value).then_some(value & ((1 << bits) - 1))
}

/// The field of a register, r0 to r15.
fn register(number: u32) -> Option<u32> {
    unsigned(number, 4)
}

/// The field of an SFR up to `last`.
fn special(number: u32, last: u32) -> Option<u32> {
    (number <= last).then_some(number)
}

/// A half of a top byte and two fields of four bits, if both fit.
fn two_fields(top: u32, high: Option<u32>, low: Option<u32>) -> Option<Halves> {
    Some(Halves::One((top << 8 | high? << 4 | low?) as u16))
}

/// A half with bits 15:12 and an immediate of eight bits around Rd, if both fit.
fn split_immediate(top: u32, rd: u32, immediate: Option<u32>) -> Option<Halves> {
    let immediate = immediate?;
    two_fields(top << 4 | immediate >> 4, register(rd), Some(immediate & 0xf))
}

/// The half of a load; that of a store is one higher in bits 15:12.
fn load_or_store(store: bool, width: Width, [rd, uimm4, rb]: [u32; 3]) -> Option<Halves> {
    let load = match width {
        Width::Word => 0x8,
        Width::Half => 0xa,
        Width::Byte => 0xc,
    };
    let top = load + u32::from(store);
    two_fields(top << 4 | unsigned(uimm4, 4)?, register(rd), register(rb))
}

/// The top byte of a conditional instruction: TF is bit 10, and the operation is bits 9:8.
fn conditional(tf: bool, op: u32) -> u32 {
    0x38 | u32::from(tf) << 2 | op
}

/// The half of a short jump, whose top six bits end in 1.
fn short_jump(when: When, displacement: u32) -> Option<Halves> {
    let top = 0b111001 | (when as u32) << 1;
    Some(Halves::One((top << 10 | signed(displacement, 10)?) as u16))
}

/// Both halves of a long jump: six bits, then 26 bits of displacement over both.
fn long_jump(top: u32, displacement: u32) -> Option<Halves> {
    let bits = top << 26 | signed(displacement, 26)?;
    Some(Halves::Two((bits >> 16) as u16, bits as u16))
}

/// The bits of an instruction; none exactly if an operand is out of its field's range.
pub fn encode(instr: &Instr) -> Option<Halves> {
    use Instr::*;
    match *instr {
        Alu { op, rd, rb } => two_fields(0x20 | op as u32, register(rd), register(rb)),
        Andi { rd, uimm8 } => split_immediate(0x5, rd, unsigned(uimm8, 8)),
        Addi { rd, simm8 } => split_immediate(0x6, rd, signed(simm8, 8)),
        Movi { rd, simm8 } => split_immediate(0x7, rd, signed(simm8, 8)),
        MultShift { op, rd, rb } => two_fields(0x20 | op as u32, register(rd), register(rb)),
        MultShiftImmediate { op, rd, uimm4 } => {
            two_fields(op as u32, register(rd), unsigned(uimm4, 4))
        }
        Compare { op, rd, rb } => two_fields(0x30 | op as u32, register(rd), register(rb)),
        CompareImmediate { op, rd, simm4 } => {
            two_fields(0x30 | op as u32, register(rd), signed(simm4, 4))
        }
        Conditional { tf, op, rd, rb } => {
            two_fields(conditional(tf, op as u32), register(rd), register(rb))
        }
        ConditionalAddImmediate { tf, rd, simm4 } => {
            two_fields(conditional(tf, 0b10), register(rd), signed(simm4, 4))
        }
        Load { width, rd, uimm4, rb } => load_or_store(false, width, [rd, uimm4, rb]),
        Store { width, rd, uimm4, rb } => load_or_store(true, width, [rd, uimm4, rb]),
        Ldrpc { rd, uimm8 } => split_immediate(0x4, rd, unsigned(uimm8, 8)),
        Mfsfr { rd, sfr } => two_fields(0x12, register(rd), special(sfr, LAST_SFR)),
        Mtsfr { sfr, rb } => two_fields(0x13, special(sfr, LAST_SFR), register(rb)),
        Swint { code } => two_fields(0x10, Some(0), unsigned(code, 4)),
        Jr { rb } => two_fields(0x1c, Some(0), register(rb)),
        Jrl { rb } => two_fields(0x1d, Some(0), register(rb)),
        Jsfr { sfr } => two_fields(0x1e, Some(0), special(sfr, LAST_JUMP_SFR)),
        ShortJump { when, displacement } => short_jump(when, displacement),
        LongJump { when, displacement } => long_jump(0b111000 | (when as u32) << 1, displacement),
        Jl { displacement } => long_jump(0b111110, displacement),
    }
}

/// Every mnemonic as its instruction with all operands 0, in the order of the bits.
pub fn mnemonics() -> Vec<Instr> {
    // A mnemonic's halves follow each other, and one of them at least has the low byte 0.
    let zeroed = |top: u8| Some(decode(u16::from(top) << 8, 0)?.with_operands([0; 3]));
    let mut each: Vec<Instr> = (0..=u8::MAX).filter_map(zeroed).collect();
    each.dedup();
    each
}

impl Instr {
    /// The size in bytes: 2 or 4.
    #[inline]
    pub const fn size(&self) -> u32 {
        match self {
            Instr::LongJump { .. } | Instr::Jl { .. } => 4,
            _ => 2,
        }
    }

    /// The name in the documents.
    ///
    /// It and its parts are always inlined, as those of `decode` are: then a listing has no match
    /// for it alone.
    #[inline(always)]
    pub const fn mnemonic(&self) -> &'static str {
        match *self {
            Instr::Alu { op, .. } => op.mnemonic(),
            Instr::Andi { .. } => "andi",
            Instr::Addi { .. } => "addi",
            Instr::Movi { .. } => "movi",
            Instr::MultShift { op, .. } => op.mnemonics().0,
            Instr::MultShiftImmediate { op, .. } => op.mnemonics().1,
            Instr::Compare { op, .. } => op.mnemonic(),
            Instr::CompareImmediate { op, .. } => op.mnemonic(),
            Instr::Conditional { tf, op, .. } => op.mnemonic(tf),
            Instr::ConditionalAddImmediate { tf: false, .. } => "addif",
            Instr::ConditionalAddImmediate { tf: true, .. } => "addit",
            Instr::Load { width: Width::Word, .. } => "ldr",
            Instr::Load { width: Width::Half, .. } => "ldrh",
            Instr::Load { width: Width::Byte, .. } => "ldrb",
            Instr::Store { width: Width::Word, .. } => "str",
            Instr::Store { width: Width::Half, .. } => "strh",
            Instr::Store { width: Width::Byte, .. } => "strb",
            Instr::Ldrpc { .. } => "ldrpc",
            Instr::Mfsfr { .. } => "mfsfr",
            Instr::Mtsfr { .. } => "mtsfr",
            Instr::Swint { .. } => "swint",
            Instr::Jr { .. } => "jr",
            Instr::Jrl { .. } => "jrl",
            Instr::Jsfr { .. } => "jsfr",
            Instr::ShortJump { when, .. } => when.mnemonics().0,
            Instr::LongJump { when, .. } => when.mnemonics().1,
            Instr::Jl { .. } => "jl",
        }
    }

    /// The places of the operands in the order of `docs/VECTORS.md`; none where it has fewer.
    fn places(&mut self) -> [Option<&mut u32>; 3] {
        use Instr::*;
        match self {
            Alu { rd, rb: last, .. }
            | MultShift { rd, rb: last, .. }
            | Compare { rd, rb: last, .. }
            | Conditional { rd, rb: last, .. }
            | MultShiftImmediate { rd, uimm4: last, .. }
            | CompareImmediate { rd, simm4: last, .. }
            | ConditionalAddImmediate { rd, simm4: last, .. }
            | Andi { rd, uimm8: last }
            | Addi { rd, simm8: last }
            | Movi { rd, simm8: last }
            | Ldrpc { rd, uimm8: last }
            | Mfsfr { rd, sfr: last } => [Some(rd), Some(last), None],
            Mtsfr { sfr, rb } => [Some(sfr), Some(rb), None],
            Load { rd, uimm4, rb, .. } | Store { rd, uimm4, rb, .. } => {
                [Some(rd), Some(uimm4), Some(rb)]
            }
            Jr { rb: only }
            | Jrl { rb: only }
            | Jsfr { sfr: only }
            | Swint { code: only }
            | ShortJump { displacement: only, .. }
            | LongJump { displacement: only, .. }
            | Jl { displacement: only } => [Some(only), None, None],
        }
    }

    /// The operands in the order of `docs/VECTORS.md`; one that it lacks is none.
    pub fn operands(mut self) -> [Option<u32>; 3] {
        self.places().map(|place| place.copied())
    }

    /// The same mnemonic with these operands; those that it lacks are ignored.
    pub fn with_operands(mut self, operands: [u32; 3]) -> Instr {
        for (place, operand) in self.places().into_iter().flatten().zip(operands) {
            *place = operand;
        }
        self
    }
}

impl AluOp {
    #[inline(always)]
    const fn mnemonic(self) -> &'static str {
        match self {
            AluOp::Sub => "sub",
            AluOp::Add => "add",
            AluOp::Subc => "subc",
            AluOp::Addc => "addc",
            AluOp::Mov => "mov",
            AluOp::And => "and",
            AluOp::Or => "or",
            AluOp::Xor => "xor",
            AluOp::Sxb => "sxb",
            AluOp::Xhw => "xhw",
            AluOp::Sxh => "sxh",
            AluOp::Zxh => "zxh",
        }
    }
}

impl MultShiftOp {
    /// The names with Rb and with UIMM4.
    #[inline(always)]
    const fn mnemonics(self) -> (&'static str, &'static str) {
        match self {
            MultShiftOp::Lsl => ("lsl", "lsli"),
            MultShiftOp::Lsr => ("lsr", "lsri"),
            MultShiftOp::Asr => ("asr", "asri"),
            MultShiftOp::Mult => ("mult", "multi"),
        }
    }
}

impl CompareOp {
    #[inline(always)]
    const fn mnemonic(self) -> &'static str {
        match self {
            CompareOp::Eq => "cmpeq",
            CompareOp::Hs => "cmphs",
            CompareOp::Ls => "cmpls",
            CompareOp::Lt => "cmplt",
            CompareOp::Gt => "cmpgt",
        }
    }
}

impl CompareImmediateOp {
    #[inline(always)]
    const fn mnemonic(self) -> &'static str {
        match self {
            CompareImmediateOp::Eq => "cmpeqi",
            CompareImmediateOp::Lt => "cmplti",
            CompareImmediateOp::Gt => "cmpgti",
        }
    }
}

impl ConditionalOp {
    #[inline(always)]
    const fn mnemonic(self, tf: bool) -> &'static str {
        match (self, tf) {
            (ConditionalOp::Mov, false) => "movf",
            (ConditionalOp::Sub, false) => "subf",
            (ConditionalOp::Add, false) => "addf",
            (ConditionalOp::Mov, true) => "movt",
            (ConditionalOp::Sub, true) => "subt",
            (ConditionalOp::Add, true) => "addt",
        }
    }
}

impl When {
    /// The names of the short and of the long jump.
    #[inline(always)]
    const fn mnemonics(self) -> (&'static str, &'static str) {
        match self {
            When::False => ("sjf", "jf"),
            When::True => ("sjt", "jt"),
            When::Always => ("sj", "j"),
        }
    }
}

/// The address of a load or store: the sum, then aligned down to the access size (document 01).
/// `units` is the field UIMM4 or UIMM8; the base of ldrpc is its own address.
#[inline]
pub const fn data_address(base: u32, units: u32, width: Width) -> u32 {
    align(base.wrapping_add(units.wrapping_mul(width.bytes())), width)
}

/// The target of a relative jump. "Displacements count halfwords and addresses count bytes; the
/// base is the jump's ... own address" (document 01).
#[inline]
pub const fn jump_target(own_address: u32, displacement: u32) -> u32 {
    own_address.wrapping_add(displacement.wrapping_mul(2))
}
