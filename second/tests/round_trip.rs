//! From the side of the bits: what decodes encodes to the same bits, and to no others.

use std::collections::HashMap;

use second::isa::{decode, encode, needs_second, Halves, Instr};

/// Second halves that are tried after every first half.
fn second_halves(first: u16) -> [u16; 9] {
    let mixed = first.wrapping_mul(0x6255).wrapping_add(0x3619);
    [0, 1, 2, 0x7fff, 0x8000, 0xaaaa, 0xfffe, 0xffff, mixed]
}

/// The bits of the instruction that begins with `first`, of which `second` is a part or not.
fn own_bits(instr: &Instr, first: u16, second: u16) -> Halves {
    match instr.size() {
        2 => Halves::One(first),
        _ => Halves::Two(first, second),
    }
}

#[test]
fn what_decodes_encodes_to_the_same_bits() {
    for first in 0..=u16::MAX {
        for second in second_halves(first) {
            if let Some(instr) = decode(first, second) {
                let bits = own_bits(&instr, first, second);
                assert_eq!(encode(&instr), Some(bits), "{first:#06x} {second:#06x} {instr:?}");
            }
        }
    }
}

/// All second halves, at the ends of the first half's ten bits of displacement and of its signs.
#[test]
fn a_long_jump_encodes_to_the_same_bits_with_every_second_half() {
    for top in [0b111000, 0b111010, 0b111100, 0b111110] {
        for low in [0, 1, 0x1ff, 0x200, 0x3fe, 0x3ff] {
            let first = top << 10 | low;
            for second in 0..=u16::MAX {
                let instr = decode(first, second).expect("every second half makes a long jump");
                let bits = Some(Halves::Two(first, second));
                assert_eq!(encode(&instr), bits, "{first:#06x} {second:#06x} {instr:?}");
            }
        }
    }
}

#[test]
fn two_bit_patterns_never_give_the_same_instruction() {
    let mut seen: HashMap<Instr, Halves> = HashMap::new();
    for first in 0..=u16::MAX {
        for second in second_halves(first) {
            if let Some(instr) = decode(first, second) {
                let bits = own_bits(&instr, first, second);
                let earlier = seen.insert(instr, bits).unwrap_or(bits);
                assert_eq!(earlier, bits, "{instr:?}");
            }
        }
    }
}

#[test]
fn the_first_half_alone_decides_size_and_validity() {
    for first in 0..=u16::MAX {
        let size = decode(first, 0).map(|instr| instr.size());
        assert_eq!(needs_second(first), size == Some(4), "{first:#06x}");
        for second in second_halves(first) {
            let instr = decode(first, second);
            assert_eq!(instr.map(|instr| instr.size()), size, "{first:#06x} {second:#06x}");
            if !needs_second(first) {
                assert_eq!(instr, decode(first, 0), "{first:#06x} {second:#06x}");
            }
        }
    }
}

/// The first halves that are no instruction, counted from the documents, by their top byte.
fn halves_of_none(top: u16) -> usize {
    match top {
        0x00..=0x0b => 256,        // not named; 0x08 to 0x0b are udi0 to udi3
        0x0c..=0x0f => 0,          // lsli, lsri, asri, multi
        0x10 => 256 - 16,          // swint with its 4 bits
        0x12 | 0x13 => 5 * 16,     // mfsfr, mtsfr: SFR 11 to 15 with any register
        0x1c | 0x1d => 256 - 16,   // jr, jrl: bits 7:4 not zero
        0x1e => 256 - 4,           // jsfr: bits 7:2 not zero
        0x11 | 0x14..=0x1f => 256, // not named
        0xfc..=0xff => 256,        // 111111
        _ => 0,
    }
}

#[test]
fn bits_that_are_not_named_are_no_instruction() {
    for top in 0..=0xff {
        let none = (0..=0xff).filter(|low| decode(top << 8 | low, 0).is_none()).count();
        assert_eq!(none, halves_of_none(top), "{top:#04x}");
    }
    assert_eq!(decode(0x12fb, 0), None, "mfsfr r15,sfr11");
    assert_eq!(decode(0x13bf, 0), None, "mtsfr sfr11,r15");
    assert_eq!(decode(0x1e04, 0), None, "jsfr sfr4");
    assert_eq!(decode(0x1010, 0), None, "swint 16");
}
