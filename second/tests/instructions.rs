//! From the side of the instructions: every mnemonic with every operand in range has the bits of
//! the documents, and one out of range has none.
//!
//! The table below is typed from document 01 and the guide's tables by itself: nothing of it is
//! taken from the decoder or the encoder.

mod generator;

use generator::Generator;
use second::isa::{decode, encode, mnemonics, AluOp, CompareImmediateOp, CompareOp};
use second::isa::{ConditionalOp, Halves, Instr, MultShiftOp, When};
use second::word::Width;

/// An operand: where its field lies and which values it takes.
#[derive(Clone, Copy, Debug, PartialEq)]
enum Field {
    /// A register in bits 7:4.
    High,
    /// A register in bits 3:0.
    Low,
    /// Four unsigned bits in 3:0.
    Uimm4,
    /// Four signed bits in 3:0.
    Simm4,
    /// Eight unsigned bits in 11:8 and 3:0.
    Uimm8,
    /// Eight signed bits in 11:8 and 3:0.
    Simm8,
    /// Four unsigned bits in 11:8.
    Units,
    /// SFR 0 to 10 in bits 3:0.
    SfrLow,
    /// SFR 0 to 10 in bits 7:4.
    SfrHigh,
    /// SFR 0 to 3 in bits 1:0.
    SfrJump,
    /// Ten signed bits in 9:0.
    Simm10,
    /// 26 signed bits in 25:0 of both halves.
    Simm26,
}

use Field::*;

impl Field {
    /// The least and the greatest value.
    fn range(self) -> (i64, i64) {
        match self {
            High | Low | Uimm4 | Units => (0, 15),
            Simm4 => (-8, 7),
            Uimm8 => (0, 255),
            Simm8 => (-128, 127),
            SfrLow | SfrHigh => (0, 10),
            SfrJump => (0, 3),
            Simm10 => (-512, 511),
            Simm26 => (-33_554_432, 33_554_431),
        }
    }

    /// Whether the word is a value in range, modulo 2^32.
    fn takes(self, word: u32) -> bool {
        let (least, greatest) = self.range();
        let range = least..=greatest;
        range.contains(&i64::from(word)) || range.contains(&(i64::from(word) - (1 << 32)))
    }

    /// The value in its place.
    fn place(self, value: i64) -> i64 {
        match self {
            High | SfrHigh => value * 16,
            Low | Uimm4 | SfrLow | SfrJump => value,
            Simm4 => value.rem_euclid(16),
            Uimm8 => value / 16 * 256 + value % 16,
            Simm8 => value.rem_euclid(256) / 16 * 256 + value.rem_euclid(16),
            Units => value * 256,
            Simm10 => value.rem_euclid(1024),
            Simm26 => value.rem_euclid(67_108_864),
        }
    }

    /// All values in range; of the 26 bits, the ends, those around 0 and a sample.
    fn values(self) -> Vec<i64> {
        let (least, greatest) = self.range();
        if self != Simm26 {
            return (least..=greatest).collect();
        }
        let ends = (least..least + 1000).chain(-70_000..70_000).chain(greatest - 999..=greatest);
        ends.chain((least..=greatest).step_by(997)).collect()
    }

    /// Values out of range: just below, just above, and far off; modulo 2^32.
    fn bad_values(self) -> Vec<u32> {
        let (least, greatest) = self.range();
        let mut bad = vec![(least - 1) as u32, (greatest + 1) as u32];
        let powers = (0..32).map(|bit| 1i64 << bit);
        let far = powers.flat_map(|p| [greatest + p, least - p, p, -p, p + 1, p - 1]);
        bad.extend(far.map(|value| value as u32).filter(|&word| !self.takes(word)));
        bad
    }
}

/// A mnemonic, its bits with all fields 0, and its fields in the order of `docs/VECTORS.md`.
type Row = (&'static str, u32, &'static [Field]);

const RD_RB: &[Field] = &[High, Low];
const MEMORY: &[Field] = &[High, Units, Low];

/// All mnemonics in the order of `docs/VECTORS.md`. Long jumps have the bits of both halves.
const TABLE: [Row; 59] = [
    ("lsli", 0x0c00, &[High, Uimm4]),
    ("lsri", 0x0d00, &[High, Uimm4]),
    ("asri", 0x0e00, &[High, Uimm4]),
    ("multi", 0x0f00, &[High, Uimm4]),
    ("swint", 0x1000, &[Uimm4]),
    ("mfsfr", 0x1200, &[High, SfrLow]),
    ("mtsfr", 0x1300, &[SfrHigh, Low]),
    ("jr", 0x1c00, &[Low]),
    ("jrl", 0x1d00, &[Low]),
    ("jsfr", 0x1e00, &[SfrJump]),
    ("sub", 0x2000, RD_RB),
    ("add", 0x2100, RD_RB),
    ("subc", 0x2200, RD_RB),
    ("addc", 0x2300, RD_RB),
    ("mov", 0x2400, RD_RB),
    ("and", 0x2500, RD_RB),
    ("or", 0x2600, RD_RB),
    ("xor", 0x2700, RD_RB),
    ("sxb", 0x2800, RD_RB),
    ("xhw", 0x2900, RD_RB),
    ("sxh", 0x2a00, RD_RB),
    ("zxh", 0x2b00, RD_RB),
    ("lsl", 0x2c00, RD_RB),
    ("lsr", 0x2d00, RD_RB),
    ("asr", 0x2e00, RD_RB),
    ("mult", 0x2f00, RD_RB),
    ("cmpeqi", 0x3000, &[High, Simm4]),
    ("cmpeq", 0x3100, RD_RB),
    ("cmphs", 0x3200, RD_RB),
    ("cmpls", 0x3300, RD_RB),
    ("cmplt", 0x3400, RD_RB),
    ("cmpgt", 0x3500, RD_RB),
    ("cmplti", 0x3600, &[High, Simm4]),
    ("cmpgti", 0x3700, &[High, Simm4]),
    ("movf", 0x3800, RD_RB),
    ("subf", 0x3900, RD_RB),
    ("addif", 0x3a00, &[High, Simm4]),
    ("addf", 0x3b00, RD_RB),
    ("movt", 0x3c00, RD_RB),
    ("subt", 0x3d00, RD_RB),
    ("addit", 0x3e00, &[High, Simm4]),
    ("addt", 0x3f00, RD_RB),
    ("ldrpc", 0x4000, &[High, Uimm8]),
    ("andi", 0x5000, &[High, Uimm8]),
    ("addi", 0x6000, &[High, Simm8]),
    ("movi", 0x7000, &[High, Simm8]),
    ("ldr", 0x8000, MEMORY),
    ("str", 0x9000, MEMORY),
    ("ldrh", 0xa000, MEMORY),
    ("strh", 0xb000, MEMORY),
    ("ldrb", 0xc000, MEMORY),
    ("strb", 0xd000, MEMORY),
    ("jf", 0xe000_0000, &[Simm26]),
    ("sjf", 0xe400, &[Simm10]),
    ("jt", 0xe800_0000, &[Simm26]),
    ("sjt", 0xec00, &[Simm10]),
    ("j", 0xf000_0000, &[Simm26]),
    ("sj", 0xf400, &[Simm10]),
    ("jl", 0xf800_0000, &[Simm26]),
];

/// The instruction with all operands 0 that has this mnemonic.
fn named(name: &str) -> Instr {
    let each = mnemonics();
    *each.iter().find(|instr| instr.mnemonic() == name).expect("the mnemonic is known")
}

/// All choices of one value from each list, missing lists counting as a single 0.
fn choices(lists: &[Vec<i64>]) -> Vec<[i64; 3]> {
    let only_zero = vec![0];
    let list = |k: usize| lists.get(k).unwrap_or(&only_zero);
    let mut all = Vec::new();
    for &a in list(0) {
        for &b in list(1) {
            all.extend(list(2).iter().map(|&c| [a, b, c]));
        }
    }
    all
}

/// The bits that the table gives.
fn table_bits((_, fixed, fields): Row, operands: [i64; 3]) -> Halves {
    let placed: i64 = fields.iter().zip(operands).map(|(field, value)| field.place(value)).sum();
    let bits = i64::from(fixed) + placed;
    match fixed {
        0..=0xffff => Halves::One(u16::try_from(bits).expect("one half")),
        _ => Halves::Two((bits / 65536) as u16, (bits % 65536) as u16),
    }
}

#[test]
fn the_mnemonics_are_those_of_the_table_in_its_order() {
    let names: Vec<&str> = mnemonics().iter().map(|instr| instr.mnemonic()).collect();
    assert_eq!(names, TABLE.map(|(name, ..)| name));
}

#[test]
fn the_operands_are_those_of_the_table() {
    for (name, _, fields) in TABLE {
        let instr = named(name).with_operands([7, 8, 9]);
        let expected = [7, 8, 9].map(|value| (value < 7 + fields.len() as u32).then_some(value));
        assert_eq!(instr.operands(), expected, "{name}");
        assert_eq!(instr.mnemonic(), name);
    }
}

#[test]
fn every_value_in_range_has_its_bits_and_decodes_back() {
    for row @ (name, fixed, fields) in TABLE {
        let pattern = named(name);
        let values: Vec<Vec<i64>> = fields.iter().map(|field| field.values()).collect();
        for operands in choices(&values) {
            let instr = pattern.with_operands(operands.map(|value| value as u32));
            let bits = table_bits(row, operands);
            assert_eq!(encode(&instr), Some(bits), "{name} {operands:?}");
            let decoded = match bits {
                Halves::One(first) => decode(first, 0x5a5a),
                Halves::Two(first, second) => decode(first, second),
            };
            assert_eq!(decoded, Some(instr), "{name} {operands:?}");
            assert_eq!(instr.size(), if fixed > 0xffff { 4 } else { 2 }, "{name}");
        }
    }
}

#[test]
fn a_value_out_of_range_has_no_bits() {
    for (name, _, fields) in TABLE {
        let pattern = named(name);
        let ends: Vec<Vec<i64>> =
            fields.iter().map(|field| vec![field.range().0, 0, 1, field.range().1]).collect();
        for operands in choices(&ends).into_iter().map(|all| all.map(|value| value as u32)) {
            assert!(encode(&pattern.with_operands(operands)).is_some(), "{name} {operands:?}");
            for (place, field) in fields.iter().enumerate() {
                for bad in field.bad_values() {
                    let mut changed = operands;
                    changed[place] = bad;
                    let bits = encode(&pattern.with_operands(changed));
                    assert_eq!(bits, None, "{name} {changed:?}");
                }
            }
        }
    }
}

#[test]
fn nothing_is_given_exactly_if_a_field_is_out_of_its_range() {
    let mut generator = Generator::new(2);
    for (name, _, fields) in TABLE {
        let pattern = named(name);
        for _ in 0..20_000 {
            // Mostly small or nearly full words, so that both answers come often.
            let mut operand = || {
                let (word, shift) = (generator.word(), generator.word() % 32);
                match generator.word() % 3 {
                    0 => word % 18,
                    1 => word >> shift,
                    _ => !(word >> shift),
                }
            };
            let operands = [operand(), operand(), operand()];
            let fits = fields.iter().zip(operands).all(|(field, word)| field.takes(word));
            let bits = encode(&pattern.with_operands(operands));
            assert_eq!(bits.is_some(), fits, "{name} {operands:?}");
        }
    }
}

/// One instruction of each case of the type, written out, so that no operand changes places.
#[test]
fn the_fields_of_the_type_are_those_of_the_guide() {
    let cases = [
        (0x2723, Instr::Alu { op: AluOp::Xor, rd: 2, rb: 3 }),
        (0x5a2b, Instr::Andi { rd: 2, uimm8: 0xab }),
        (0x6a2b, Instr::Addi { rd: 2, simm8: 0xffff_ffab }),
        (0x7a2b, Instr::Movi { rd: 2, simm8: 0xffff_ffab }),
        (0x2e23, Instr::MultShift { op: MultShiftOp::Asr, rd: 2, rb: 3 }),
        (0x0f2e, Instr::MultShiftImmediate { op: MultShiftOp::Mult, rd: 2, uimm4: 14 }),
        (0x3223, Instr::Compare { op: CompareOp::Hs, rd: 2, rb: 3 }),
        (
            0x372e,
            Instr::CompareImmediate { op: CompareImmediateOp::Gt, rd: 2, simm4: u32::MAX - 1 },
        ),
        (0x3d23, Instr::Conditional { tf: true, op: ConditionalOp::Sub, rd: 2, rb: 3 }),
        (0x3a2e, Instr::ConditionalAddImmediate { tf: false, rd: 2, simm4: u32::MAX - 1 }),
        (0xa523, Instr::Load { width: Width::Half, rd: 2, uimm4: 5, rb: 3 }),
        (0xd523, Instr::Store { width: Width::Byte, rd: 2, uimm4: 5, rb: 3 }),
        (0x4a2b, Instr::Ldrpc { rd: 2, uimm8: 0xab }),
        (0x122a, Instr::Mfsfr { rd: 2, sfr: 10 }),
        (0x13a3, Instr::Mtsfr { sfr: 10, rb: 3 }),
        (0x100f, Instr::Swint { code: 15 }),
        (0x1c03, Instr::Jr { rb: 3 }),
        (0x1d03, Instr::Jrl { rb: 3 }),
        (0x1e02, Instr::Jsfr { sfr: 2 }),
        (0xedff, Instr::ShortJump { when: When::True, displacement: 511 }),
    ];
    for (half, instr) in cases {
        assert_eq!(decode(half, 0), Some(instr), "{half:#06x}");
        assert_eq!(encode(&instr), Some(Halves::One(half)), "{instr:?}");
    }
    let jf = Instr::LongJump { when: When::False, displacement: 0x0123_4567 };
    assert_eq!(encode(&jf), Some(Halves::Two(0xe123, 0x4567)));
    assert_eq!(decode(0xfa00, 0x0001), Some(Instr::Jl { displacement: 0xfe00_0001 }));
}

#[test]
fn an_instruction_is_small() {
    assert!(std::mem::size_of::<Instr>() <= 16);
}
