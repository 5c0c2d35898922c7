//! Words against integers of 64 and 128 bits, on corners and on pseudo-random pairs.

mod generator;

use generator::Generator;
use second::word::{self, Width};

const TWO_TO_32: i128 = 1 << 32;

/// The words around 0, 2^31 and 2^32, and around every power of two.
fn corners() -> Vec<u32> {
    let near = |bit: u32| (0..3u32).map(move |k| (1u32 << bit).wrapping_add(k).wrapping_sub(1));
    let mut words: Vec<u32> = (0..32).flat_map(near).collect();
    words.extend((0..70).flat_map(|k: u32| [k, k.wrapping_neg(), 0x8000_0000 + k]));
    words.sort_unstable();
    words.dedup();
    words
}

/// All pairs of corners, then 300,000 pseudo-random pairs.
fn for_each_pair(check: impl Fn(u32, u32)) {
    let corners = corners();
    for &x in &corners {
        corners.iter().for_each(|&y| check(x, y));
    }
    let mut generator = Generator::new(1);
    for _ in 0..300_000 {
        check(generator.word(), generator.word());
    }
}

/// The word as a signed number.
fn signed(x: u32) -> i64 {
    let value = i64::from(x);
    if value < 1 << 31 {
        value
    } else {
        value - (1 << 32)
    }
}

#[test]
fn add_is_the_sum_and_its_carry() {
    for_each_pair(|x, y| {
        for carry in [false, true] {
            let sum = u64::from(x) + u64::from(y) + u64::from(carry);
            assert_eq!(word::add(x, y, carry), (sum as u32, sum >> 32 == 1), "{x} {y} {carry}");
        }
    });
}

#[test]
fn sub_is_the_difference_and_its_borrow() {
    for_each_pair(|x, y| {
        for borrow in [false, true] {
            let difference = i128::from(x) - i128::from(y) - i128::from(borrow);
            let expected = (difference.rem_euclid(TWO_TO_32) as u32, difference < 0);
            assert_eq!(word::sub(x, y, borrow), expected, "{x} {y} {borrow}");
        }
    });
}

#[test]
fn mult_is_the_product_of_unsigned_and_of_signed_numbers() {
    for_each_pair(|x, y| {
        let unsigned = i128::from(x) * i128::from(y);
        let signed = i128::from(signed(x)) * i128::from(signed(y));
        for product in [unsigned, signed] {
            assert_eq!(i128::from(word::mult(x, y)), product.rem_euclid(TWO_TO_32), "{x} {y}");
        }
    });
}

#[test]
fn shifts_are_products_and_floors_of_quotients() {
    for_each_pair(|x, y| {
        let power = 1i128 << (y % 64);
        let left = (i128::from(x) * power).rem_euclid(TWO_TO_32);
        let right = i128::from(x).div_euclid(power);
        let arithmetic = i128::from(signed(x)).div_euclid(power).rem_euclid(TWO_TO_32);
        assert_eq!(i128::from(word::lsl(x, y)), left, "lsl {x} {y}");
        assert_eq!(i128::from(word::lsr(x, y)), right, "lsr {x} {y}");
        assert_eq!(i128::from(word::asr(x, y)), arithmetic, "asr {x} {y}");
    });
}

#[test]
fn shifts_by_every_amount_from_0_to_63() {
    for x in corners() {
        for amount in 0..64 {
            let over = amount > 31;
            let sign_copies = if x >> 31 == 1 { u32::MAX } else { 0 };
            let lsl = if over { 0 } else { x << amount };
            let lsr = if over { 0 } else { x >> amount };
            let asr = if over { sign_copies } else { ((x as i32) >> amount) as u32 };
            for high in [0, 64, 0xffff_ffc0] {
                assert_eq!(word::lsl(x, amount | high), lsl, "lsl {x} {amount}");
                assert_eq!(word::lsr(x, amount | high), lsr, "lsr {x} {amount}");
                assert_eq!(word::asr(x, amount | high), asr, "asr {x} {amount}");
            }
        }
    }
}

#[test]
fn less_compares_signed_numbers() {
    for_each_pair(|x, y| assert_eq!(word::less(x, y), signed(x) < signed(y), "{x} {y}"));
}

#[test]
fn sign_extension_keeps_the_low_bits_and_copies_the_highest() {
    for_each_pair(|x, y| {
        let bits = 1 + y % 32;
        let modulus = 1i128 << bits;
        let low = i128::from(x).rem_euclid(modulus);
        let number = if low < modulus / 2 { low } else { low - modulus };
        let expected = number.rem_euclid(TWO_TO_32);
        assert_eq!(i128::from(word::sign_extend(x, bits)), expected, "{x} from {bits} bits");
    });
}

#[test]
fn alignment_is_the_multiple_below() {
    for_each_pair(|x, _| {
        for width in Width::ALL {
            assert_eq!(word::align(x, width), x / width.bytes() * width.bytes(), "{x} {width:?}");
        }
    });
}

/// Addresses in, at the end of and far outside a memory of `length` bytes.
fn addresses(length: u32) -> Vec<u32> {
    (0..length + 8).chain([0x7fff_ffff, 0x8000_0000]).chain(u32::MAX - 8..=u32::MAX).collect()
}

/// A memory of `length` bytes, no two neighbours alike.
fn memory(length: u32) -> Vec<u8> {
    (0..length).map(|i| (i * 37 + 11) as u8).collect()
}

#[test]
fn loads_are_big_endian_and_inside() {
    for length in 0..20 {
        let memory = memory(length);
        for width in Width::ALL {
            for address in addresses(length) {
                let inside = u64::from(address) + u64::from(width.bytes()) <= u64::from(length);
                let number = |a: u32| {
                    let bytes = (0..width.bytes()).map(|i| memory[(a + i) as usize]);
                    bytes.fold(0u64, |sum, byte| sum * 256 + u64::from(byte)) as u32
                };
                let expected = inside.then(|| number(address));
                assert_eq!(word::load(&memory, address, width), expected, "{address} {width:?}");
            }
        }
    }
}

#[test]
fn stores_change_their_bytes_alone_and_only_inside() {
    let value = 0x89ab_cdef_u32;
    for length in 0..20 {
        for width in Width::ALL {
            for address in addresses(length) {
                let inside = u64::from(address) + u64::from(width.bytes()) <= u64::from(length);
                let mut stored = memory(length);
                assert_eq!(word::store(&mut stored, address, width, value), inside);
                let mut expected = memory(length);
                for i in (0..width.bytes()).filter(|_| inside) {
                    let shift = 8 * (width.bytes() - 1 - i);
                    expected[(address + i) as usize] = (value >> shift) as u8;
                }
                assert_eq!(stored, expected, "{address} {width:?} in {length} bytes");
            }
        }
    }
}
