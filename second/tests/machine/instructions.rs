//! "Instructions": what each one does to values. Everything else stays, which one comparison of the
//! whole machine shows. Expected values are computed with wider integers.

use crate::rig::{access, byte_immediate, half, Rig, BUSY_PSW, LENGTH};

const IP: u32 = 1 << 3;
const BIP: u32 = 1 << 6;
const TF: u32 = 1 << 8;
const CY: u32 = 1 << 9;

const CORNERS: [u32; 20] = [
    0,
    1,
    2,
    15,
    31,
    32,
    33,
    63,
    64,
    0x80,
    0xff,
    0x7fff,
    0x8000,
    0x1_0000,
    0x1234_5678,
    0x7fff_ffff,
    0x8000_0000,
    0x89ab_cdef,
    0xffff_fffe,
    0xffff_ffff,
];

/// The word as a signed number.
fn signed(x: u32) -> i64 {
    i64::from(x as i32)
}

/// A machine with r3 and r5 set, and these flags.
fn machine(halves: &[u16], d: u32, b: u32, flags: u32) -> Rig {
    let mut rig = Rig::busy(halves);
    rig.set(3, d);
    rig.set(5, b);
    rig.state.psw |= flags;
    rig
}

/// Every pair of corners under every setting of TF and CY.
fn for_each_pair(check: impl Fn(u32, u32, u32)) {
    for d in CORNERS {
        for b in CORNERS {
            [0, TF, CY, TF | CY].into_iter().for_each(|flags| check(d, b, flags));
        }
    }
}

/// Two to the power of the low 6 bits.
fn power(amount: u32) -> i128 {
    1 << (amount % 64)
}

/// An instruction's top byte and its result from its two operands.
type RowOf<Operand, Result> = (u16, fn(Operand, Operand) -> Result);

type Row = RowOf<u32, u32>;

/// The instructions on two registers that write Rd and leave PSW alone.
const ON_TWO_REGISTERS: [Row; 12] = [
    (0x24, |_, b| b),                                                    // mov
    (0x25, |d, b| d & b),                                                // and
    (0x26, |d, b| d | b),                                                // or
    (0x27, |d, b| d ^ b),                                                // xor
    (0x28, |_, b| i32::from(b as u8 as i8) as u32),                      // sxb
    (0x29, |_, b| b % 65_536 * 65_536 + b / 65_536),                     // xhw
    (0x2a, |_, b| i32::from(b as u16 as i16) as u32),                    // sxh
    (0x2b, |_, b| b % 65_536),                                           // zxh
    (0x2c, |d, b| (i128::from(d) * power(b)) as u32),                    // lsl
    (0x2d, |d, b| (i128::from(d) / power(b)) as u32),                    // lsr
    (0x2e, |d, b| i128::from(signed(d)).div_euclid(power(b)) as u32),    // asr
    (0x2f, |d, b| (u64::from(d) * u64::from(b) % 4_294_967_296) as u32), // mult
];

#[test]
fn instructions_on_two_registers_write_rd_alone() {
    for (top, result) in ON_TWO_REGISTERS {
        for_each_pair(|d, b, flags| {
            machine(&[half(top, 3, 5)], d, b, flags).assert_step(|after| {
                after.state.pc = 2;
                after.set(3, result(d, b));
            });
        });
        for d in CORNERS {
            machine(&[half(top, 3, 3)], d, 0, 0).assert_step(|after| {
                after.state.pc = 2;
                after.set(3, result(d, d));
            });
        }
    }
}

#[test]
fn every_register_can_be_rd_and_rb() {
    for rd in 0..16 {
        for rb in 0..16 {
            let rig = Rig::busy(&[half(0x27, rd, rb)]); // xor
            let result = rig.value(rd) ^ rig.value(rb);
            rig.assert_step(|after| {
                after.state.pc = 2;
                after.set(rd, result);
            });
        }
    }
}

/// Rd and CY of a sum or difference, which must fit in 33 bits.
fn assert_sum(top: u16, d: u32, b: u32, flags: u32, exact: i64) {
    machine(&[half(top, 3, 5)], d, b, flags).assert_step(|after| {
        after.state.pc = 2;
        after.set(3, exact.rem_euclid(1 << 32) as u32);
        let carry_or_borrow = !(0..1 << 32).contains(&exact);
        after.state.psw = after.state.psw & !CY | if carry_or_borrow { CY } else { 0 };
    });
}

#[test]
fn add_and_addc_set_cy_to_the_carry_out_sub_and_subc_to_the_borrow() {
    for_each_pair(|d, b, flags| {
        let cy = i64::from(flags & CY != 0);
        let (x, y) = (i64::from(d), i64::from(b));
        assert_sum(0x20, d, b, flags, x - y);
        assert_sum(0x21, d, b, flags, x + y);
        assert_sum(0x22, d, b, flags, x - y - cy);
        assert_sum(0x23, d, b, flags, x + y + cy);
    });
}

#[test]
fn andi_addi_and_movi_take_eight_bits_and_leave_psw_alone() {
    let rows: [Row; 3] = [
        (0x5, |d, immediate| d & immediate),
        (0x6, |d, immediate| (i64::from(d) + i64::from(immediate as u8 as i8)) as u32),
        (0x7, |_, immediate| i64::from(immediate as u8 as i8) as u32),
    ];
    for (top, result) in rows {
        for d in CORNERS {
            for immediate in 0..256 {
                for flags in [0, TF | CY] {
                    let halves = [byte_immediate(top, 3, immediate)];
                    machine(&halves, d, 0, flags).assert_step(|after| {
                        after.state.pc = 2;
                        after.set(3, result(d, immediate));
                    });
                }
            }
        }
    }
}

#[test]
fn addi_takes_minus_128_too() {
    machine(&[0x6830], 1000, 0, 0).assert_step(|after| {
        after.state.pc = 2;
        after.set(3, 872);
    });
}

#[test]
fn shifts_and_multiply_with_an_immediate_are_those_with_a_register() {
    for top in 0x0c..=0x0f {
        let with_register = ON_TWO_REGISTERS.iter().find(|row| row.0 == 0x20 + top);
        let (_, result) = with_register.expect("the same number after 0x2");
        for d in CORNERS {
            for immediate in 0..16 {
                let halves = [half(top, 3, immediate)];
                machine(&halves, d, 0, TF | CY).assert_step(|after| {
                    after.state.pc = 2;
                    after.set(3, result(d, immediate as u32));
                });
            }
        }
    }
}

/// "A shift by register uses its low 6 bits. Over 31: lsl, lsr give 0, asr gives 32 copies of the
/// sign."
#[test]
fn shifts_by_every_amount() {
    for amount in 0..=255_u32 {
        for d in [1, 0x8000_0000, 0x7fff_ffff, 0xdead_beef] {
            let six = amount & 0x3f;
            let sign = if d >> 31 == 1 { u32::MAX } else { 0 };
            let over = six > 31;
            let lsl = if over { 0 } else { d << six };
            let lsr = if over { 0 } else { d >> six };
            let asr = if over { sign } else { (d as i32 >> six) as u32 };
            for (top, value) in [(0x2c, lsl), (0x2d, lsr), (0x2e, asr)] {
                for amount in [amount, amount | 0xffff_ff00] {
                    machine(&[half(top, 3, 5)], d, amount, 0).assert_step(|after| {
                        after.state.pc = 2;
                        after.set(3, value);
                    });
                }
            }
        }
    }
}

/// The step changes TF to this and nothing else.
fn assert_tf(rig: &Rig, tf: bool) {
    rig.assert_step(|after| {
        after.state.pc = 2;
        after.state.psw = after.state.psw & !TF | if tf { TF } else { 0 };
    });
}

#[test]
fn compares_set_tf_alone() {
    let rows: [RowOf<u32, bool>; 5] = [
        (0x31, |d, b| d == b),
        (0x32, |d, b| d >= b),
        (0x33, |d, b| d <= b),
        (0x34, |d, b| signed(d) < signed(b)),
        (0x35, |d, b| signed(d) > signed(b)),
    ];
    for (top, result) in rows {
        for_each_pair(|d, b, flags| {
            assert_tf(&machine(&[half(top, 3, 5)], d, b, flags), result(d, b));
        });
    }
}

#[test]
fn compares_with_an_immediate_are_signed() {
    let rows: [RowOf<i64, bool>; 3] =
        [(0x30, |d, i| d == i), (0x36, |d, i| d < i), (0x37, |d, i| d > i)];
    let near_zero = (0..20).map(|k| 10_u32.wrapping_sub(k));
    let values: Vec<u32> = CORNERS.into_iter().chain(near_zero).collect();
    for (top, result) in rows {
        for &d in &values {
            for field in 0..16 {
                let immediate = if field < 8 { field as i64 } else { field as i64 - 16 };
                for flags in [0, TF | CY] {
                    let rig = machine(&[half(top, 3, field)], d, 0, flags);
                    assert_tf(&rig, result(signed(d), immediate));
                }
            }
        }
    }
}

#[test]
fn conditional_instructions_are_done_if_tf_says_so_and_leave_psw_alone() {
    let rows: [RowOf<i64, i64>; 3] = [(0x38, |_, b| b), (0x39, |d, b| d - b), (0x3b, |d, b| d + b)];
    for (top, result) in rows {
        for_each_pair(|d, b, flags| {
            let value = result(i64::from(d), i64::from(b)) as u32;
            for (top, done) in [(top, flags & TF == 0), (top + 4, flags & TF != 0)] {
                machine(&[half(top, 3, 5)], d, b, flags).assert_step(|after| {
                    after.state.pc = 2;
                    after.set(3, if done { value } else { d });
                });
            }
        });
    }
}

#[test]
fn addif_and_addit_take_four_signed_bits() {
    for d in CORNERS {
        for field in 0..16 {
            let immediate = if field < 8 { field as i64 } else { field as i64 - 16 };
            let sum = (i64::from(d) + immediate) as u32;
            for flags in [0, CY, TF, TF | CY] {
                for (top, done) in [(0x3a, flags & TF == 0), (0x3e, flags & TF != 0)] {
                    machine(&[half(top, 3, field)], d, 0, flags).assert_step(|after| {
                        after.state.pc = 2;
                        after.set(3, if done { sum } else { d });
                    });
                }
            }
        }
    }
}

/// "Addresses are aligned down to the access size after the sum; loads of bytes and halves are
/// zero-extended."
#[test]
fn loads_are_big_endian_aligned_after_the_sum_and_zero_extended() {
    for (top, width) in [(0x8, 4), (0xa, 2), (0xc, 1)] {
        for base in 0x10..0x18 {
            for units in 0..16 {
                let rig = machine(&[access(top, units, 3, 5)], 0xffff_ffff, base, TF | CY);
                let address = (base + units * width) / width * width;
                let bytes = (address..address + width).map(|place| rig.memory[place as usize]);
                let value = bytes.fold(0, |sum, byte| sum * 256 + u32::from(byte));
                rig.assert_step(|after| {
                    after.state.pc = 2;
                    after.set(3, value);
                });
            }
        }
    }
}

#[test]
fn stores_are_big_endian_and_aligned_after_the_sum() {
    for (top, width) in [(0x9, 4), (0xb, 2), (0xd, 1)] {
        for base in 0x10..0x18 {
            for units in 0..16 {
                let rig = machine(&[access(top, units, 3, 5)], 0xa1b2_c3d4, base, TF | CY);
                let address = ((base + units * width) / width * width) as usize;
                let bytes = &[0xa1, 0xb2, 0xc3, 0xd4][4 - width as usize..];
                rig.assert_step(|after| {
                    after.state.pc = 2;
                    after.memory[address..address + width as usize].copy_from_slice(bytes);
                });
            }
        }
    }
}

/// The base may lie outside: the sum wraps modulo 2^32.
#[test]
fn the_sum_of_an_address_wraps() {
    for (top, width) in [(0x8, 4), (0xa, 2), (0xc, 1)] {
        let mut rig = machine(&[access(top, 15, 3, 5)], 0, 0_u32.wrapping_sub(width * 7), 0);
        let address = width * 8;
        rig.memory[address as usize..][..4].copy_from_slice(&[0x11, 0x22, 0x33, 0x44]);
        let value = 0x1122_3344 >> (32 - 8 * width);
        rig.assert_step(|after| {
            after.state.pc = 2;
            after.set(3, value);
        });
    }
}

/// "0x4011 at 0x102 loads from 0x104": the base is ldrpc's own address, aligned after the sum.
#[test]
fn ldrpc_loads_beside_its_own_address() {
    for pc in (0..0x20).step_by(2) {
        for words in 0..16 {
            let mut rig = Rig::busy(&[]);
            rig.place(pc, &[byte_immediate(0x4, 3, words)]);
            rig.state.pc = pc;
            let value = rig.word((pc + 4 * words) & !3);
            rig.assert_step(|after| {
                after.state.pc = pc + 2;
                after.set(3, value);
            });
        }
    }
}

#[test]
fn a_store_can_change_the_next_instruction() {
    let mut rig = Rig::with(&[0xb035, 0x7110]); // strh r3 to r5; movi r1,16
    rig.set(3, 0x7211); // movi r1,33
    rig.set(5, 2);
    assert_eq!(rig.run_steps(2), (10, 2));
    assert_eq!(rig.value(1), 33);
}

#[test]
fn mfsfr_reads_each_sfr() {
    for number in 0..=10 {
        let rig = Rig::busy(&[half(0x12, 3, number)]);
        let value = rig.state.sfr(number as u32);
        rig.assert_step(|after| {
            after.state.pc = 2;
            after.set(3, value);
        });
    }
}

/// Whole words, but for PSW, TIMER (its own file) and HWDBG.
#[test]
fn mtsfr_writes_the_whole_word() {
    type Place = fn(&mut Rig) -> &mut u32;
    let places: [(usize, Place); 8] = [
        (1, |rig| &mut rig.state.ra),
        (2, |rig| &mut rig.state.ipc),
        (4, |rig| &mut rig.state.ibase),
        (5, |rig| &mut rig.state.usreg),
        (7, |rig| &mut rig.state.bp0),
        (8, |rig| &mut rig.state.bp1),
        (9, |rig| &mut rig.state.wp0),
        (10, |rig| &mut rig.state.wp1),
    ];
    for (number, place) in places {
        for value in CORNERS {
            machine(&[half(0x13, number, 5)], 0, value, 0).assert_step(|after| {
                after.state.pc = 2;
                *place(after) = value;
            });
        }
    }
}

/// "mtsfr psw may now write bits 14 and 15" (document 02, ticket 5).
#[test]
fn mtsfr_psw_keeps_bits_12_and_26_to_31() {
    let kept = 1 << 12 | 63 << 26;
    for before in [0, BUSY_PSW, !(1 << 12)] {
        for value in [0, u32::MAX, BUSY_PSW, !BUSY_PSW, 0x1234_5678, 1 << 12] {
            let mut rig = machine(&[0x1305], 0, value, 0);
            // TE would let the timer fall.
            (rig.state.psw, rig.state.timer) = (before, 0);
            rig.assert_step(|after| {
                after.state.pc = 2;
                after.state.psw = before & kept | value & !kept;
            });
        }
    }
    for bit in 0..32 {
        let rig = machine(&[0x1305], 0, 1 << bit, 0);
        let after = rig.assert_step(|after| {
            after.state.pc = 2;
            after.state.psw = BUSY_PSW & kept | (1 << bit) & !kept;
        });
        assert!(after.state.in_form());
    }
}

#[test]
fn mtsfr_hwdbg_writes_bits_2_to_5_only() {
    for value in [0, u32::MAX, 0x3c, !0x3c, 0x14, 0x28] {
        for before in [3, 0x1ff, 0x1c3, 0x3f] {
            let mut rig = machine(&[0x1365], 0, value, 0);
            (rig.state.bp0, rig.state.bp1) = (0x20, 0x20);
            rig.state.hwdbg = before;
            rig.assert_step(|after| {
                after.state.pc = 2;
                after.state.hwdbg = before & !0x3c | value & 0x3c;
            });
        }
    }
}

/// "Writes take effect at once": the next step already sees them.
#[test]
fn writes_take_effect_at_once() {
    // mtsfr bp0,r5; mtsfr hwdbg,r3; movi, which the breakpoint is at.
    let mut rig = Rig::with(&[0x1375, 0x1363, 0x7110]);
    rig.set(5, 4);
    rig.set(3, 0b100);
    assert_eq!(rig.run_steps(3), (10, 3));
    assert_eq!((rig.state.pc, rig.state.ipc, rig.value(1)), (4, 4, 0));
    // mtsfr psw,r5 that enables line 0.
    let mut rig = Rig::with(&[0x1305, 0x7110]);
    rig.set(5, 1 << 5 | 1 << 20);
    assert_eq!(rig.run(&[1, 1]), (10, 2));
    assert_eq!((rig.state.pc, rig.state.ipc), (12, 2));
    // mtsfr ra,r5; jsfr ra.
    let mut rig = Rig::with(&[0x1315, 0x1e01]);
    rig.set(5, 0x22);
    assert_eq!(rig.run_steps(2), (10, 2));
    assert_eq!(rig.state.pc, 0x22);
}

#[test]
fn jr_and_jrl_drop_bit_0_and_jrl_sets_ra_to_the_program_counter_plus_4() {
    for pc in [0, 2, LENGTH - 2] {
        for target in CORNERS {
            for (top, links) in [(0x1c, false), (0x1d, true)] {
                let mut rig = machine(&[], 0, target, 0);
                rig.place(pc, &[half(top, 0, 5)]);
                rig.state.pc = pc;
                rig.assert_step(|after| {
                    after.state.pc = target / 2 * 2;
                    if links {
                        after.state.ra = pc + 4;
                    }
                });
            }
        }
    }
}

#[test]
fn jsfr_jumps_to_sfr_0_to_3_and_drops_bit_0() {
    for value in CORNERS {
        let mut rig = Rig::busy(&[0x1e00]);
        rig.state.psw = value & !(1 << 12) & !(1 << 5) & !(1 << 4);
        let target = rig.state.psw / 2 * 2;
        rig.assert_step(|after| after.state.pc = target);
        let mut rig = Rig::busy(&[0x1e01]);
        rig.state.ra = value;
        rig.assert_step(|after| after.state.pc = value / 2 * 2);
        let mut rig = Rig::busy(&[0x1e02]);
        rig.state.ipc = value;
        rig.assert_step(|after| {
            after.state.pc = value / 2 * 2;
            after.state.psw &= !BIP; // IP and BIP are 1 in this state
        });
        let mut rig = Rig::busy(&[0x1e03]);
        rig.state.timer = value;
        rig.assert_step(|after| after.state.pc = value / 2 * 2);
    }
}

/// "BIP goes to IP, and BIP becomes 0" (document 02, ticket 3).
#[test]
fn on_jsfr_of_ipc_bip_goes_to_ip_and_becomes_0() {
    for (before, after) in [(0, 0), (IP, 0), (BIP, IP), (IP | BIP, IP)] {
        let mut rig = Rig::with(&[0x1e02]);
        rig.state.psw = before;
        rig.assert_step(|rig| rig.state.psw = after);
    }
}

/// After a nested swint the line's handler goes on, though the line is high; a second return finds
/// IP 0.
#[test]
fn a_return_from_a_nested_entry_brings_ip_back() {
    let mut rig = Rig::with(&[0x7110]);
    rig.place(4, &[0x1e02]); // the handler of swint: jsfr ipc
    rig.place(12, &[0x1001, 0x7110, 0x1e02]); // the handler of lines: swint 1, movi, jsfr ipc
    rig.state.psw = 1 << 5 | 1 << 20;
    let mut places = Vec::new();
    for _ in 0..6 {
        assert_eq!(rig.run(&[1]), (10, 1));
        places.push(rig.state.pc);
    }
    assert_eq!(places, [12, 4, 14, 16, 14, 12]);
}

/// The displacement counts halfwords from the jump's own address, modulo 2^32.
fn target(pc: u32, displacement: i64) -> u32 {
    (i64::from(pc) + 2 * displacement).rem_euclid(1 << 32) as u32
}

#[test]
fn short_jumps_have_ten_signed_bits() {
    for displacement in -512..512_i64 {
        let field = displacement.rem_euclid(1024) as u16;
        for (top, when_clear, when_set) in
            [(0xe400, true, false), (0xec00, false, true), (0xf400, true, true)]
        {
            for (flags, taken) in [(0, when_clear), (TF, when_set)] {
                let mut rig = machine(&[], 0, 0, flags);
                rig.place(0x20, &[top | field]);
                rig.state.pc = 0x20;
                let target = target(0x20, displacement);
                rig.assert_step(|after| after.state.pc = if taken { target } else { 0x22 });
            }
        }
    }
}

#[test]
fn long_jumps_have_26_signed_bits_and_jl_sets_ra() {
    let ends = [-33_554_432, -33_554_431, -65_536, -65_535, 65_535, 65_536, 33_554_431_i64];
    for displacement in (-70..70).chain(ends) {
        let field = displacement.rem_euclid(1 << 26) as u32;
        for (top, when_clear, when_set) in [
            (0xe000, true, false),
            (0xe800, false, true),
            (0xf000, true, true),
            (0xf800, true, true),
        ] {
            for (flags, taken) in [(0, when_clear), (TF, when_set)] {
                let mut rig = machine(&[], 0, 0, flags);
                rig.place(0x22, &[top | (field >> 16) as u16, field as u16]);
                rig.state.pc = 0x22;
                let target = target(0x22, displacement);
                rig.assert_step(|after| {
                    after.state.pc = if taken { target } else { 0x26 };
                    if top == 0xf800 {
                        after.state.ra = 0x26;
                    }
                });
            }
        }
    }
}

/// "PSW bits for these are stored and do nothing": power down, caches, single step. Those that show
/// a bus error do nothing either.
#[test]
fn psw_bits_of_what_is_not_built_do_nothing() {
    for bit in [7, 10, 11, 13, 14, 15] {
        let mut rig = Rig::with(&[0x7110]);
        rig.state.psw = 1 << bit;
        rig.assert_step_with(63, |after| {
            after.state.pc = 2;
            after.set(1, 16);
        });
        let mut returning = Rig::with(&[0x1e02, 0x7110]); // jsfr ipc, then no single step
        returning.state.psw = 1 << bit;
        returning.state.ipc = 2;
        assert_eq!(returning.run_steps(2), (10, 2));
        assert_eq!((returning.state.pc, returning.value(1)), (4, 16));
    }
}
