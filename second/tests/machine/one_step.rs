//! "One step": interrupts, breakpoints, watchpoints and entries.

use crate::rig::{access, byte_immediate, Rig, BUSY_PSW, DBER, LENGTH};

const SW: u32 = 1 << 0;
const EI: u32 = 1 << 1;
const TI: u32 = 1 << 2;
const IP: u32 = 1 << 3;
const TE: u32 = 1 << 4;
const IE: u32 = 1 << 5;
const BIP: u32 = 1 << 6;

/// movi r1,16.
const MOVI: u16 = 0x7110;

/// The change that movi r1,16 at address 0 makes.
fn moved(after: &mut Rig) {
    after.state.pc = 2;
    after.set(1, 16);
}

/// A busy machine at a movi, IP clear, so that IE permits interrupts; all lines are enabled.
fn permitting() -> Rig {
    let mut rig = Rig::busy(&[MOVI]);
    rig.state.psw = rig.state.psw & !IP | IE;
    rig
}

/// What all entries have in common, from a program counter of 0 and with IP clear.
fn entered(after: &mut Rig, ipc: u32, vector: u32) {
    after.state.ipc = ipc;
    after.state.psw = after.state.psw & !BIP | IP;
    after.state.pc = 0x5a5a_0500 + vector;
}

#[test]
fn an_interrupt_is_entered_only_if_ie_is_1_and_ip_is_0() {
    for pending in [false, true] {
        for (ie, ip) in [(false, false), (false, true), (true, false), (true, true)] {
            let mut rig = permitting();
            rig.state.psw &= !IE & !IP;
            rig.state.psw |= if ie { IE } else { 0 } | if ip { IP } else { 0 } | TE;
            rig.state.timer = 0;
            rig.state.pending = pending;
            let mut after = rig.clone();
            assert_eq!(after.run(&[63]), (10, 1));
            let expected = match (ie && !ip, pending) {
                (false, _) => 2,
                (true, true) => 0x5a5a_0508,
                (true, false) => 0x5a5a_050c,
            };
            assert_eq!(after.state.pc, expected, "IE {ie}, IP {ip}, pending {pending}");
        }
    }
}

#[test]
fn timer_entry_sets_ti_and_clears_pending() {
    let mut rig = permitting();
    rig.state.psw = rig.state.psw & !TI | TE;
    (rig.state.timer, rig.state.pending) = (0, true);
    rig.assert_step(|after| {
        entered(after, 0, 8);
        after.state.psw |= TI;
        after.state.pending = false;
    });
}

/// "The guide ranks the lines; timer first is our board's rule."
#[test]
fn the_timer_goes_before_the_lines() {
    let mut rig = permitting();
    rig.state.psw |= TE;
    (rig.state.timer, rig.state.pending) = (0, true);
    rig.assert_step_with(63, |after| {
        entered(after, 0, 8);
        after.state.psw |= TI;
        after.state.pending = false;
    });
}

#[test]
fn a_pending_timer_without_te_is_not_entered_but_a_line_is() {
    let mut rig = permitting();
    (rig.state.timer, rig.state.pending) = (0, true);
    rig.assert_step_with(0, moved);
    rig.assert_step_with(1, |after| {
        entered(after, 0, 12);
        after.state.psw = after.state.psw & 0x03ff_ffff | 1 << 26 | EI;
    });
}

#[test]
fn the_lowest_line_that_is_high_and_enabled_is_entered() {
    for enables in 0..64 {
        for lines in 0..64 {
            let mut rig = permitting();
            rig.state.psw = rig.state.psw & !(63 << 20) & !EI | enables << 20;
            let line = (0..6).find(|i| lines >> i & 1 == 1 && enables >> i & 1 == 1);
            rig.assert_step_with(lines as u8, |after| match line {
                None => moved(after),
                Some(line) => {
                    entered(after, 0, 12);
                    after.state.psw = after.state.psw & 0x03ff_ffff | 1 << (26 + line) | EI;
                }
            });
        }
    }
}

#[test]
fn external_entry_makes_bits_26_to_31_show_only_the_line_taken() {
    for line in 0..6 {
        let mut rig = permitting();
        rig.state.psw |= 63 << 26;
        let after = rig.assert_step_with(1 << line, |after| {
            entered(after, 0, 12);
            after.state.psw = after.state.psw & 0x03ff_ffff | 1 << (26 + line) | EI;
        });
        assert_eq!(after.state.psw >> 26, 1 << line);
    }
}

#[test]
fn each_step_has_its_own_tape_byte() {
    let mut rig = Rig::with(&[MOVI, MOVI, MOVI, MOVI, MOVI, MOVI]);
    rig.state.psw = IE | 1 << 23;
    rig.state.ibase = 0x40;
    // Line 3 in the third step only; lines 0 to 2 aren't enabled.
    assert_eq!(rig.run(&[7, 7, 8, 0, 0]), (13, 3), "memory holds 0 at the vector");
    assert_eq!((rig.state.ipc, rig.state.pc), (4, 12));
}

#[test]
fn an_interrupt_goes_before_a_breakpoint() {
    let mut rig = permitting();
    rig.state.hwdbg |= 0b1100;
    rig.assert_step_with(1 << 4, |after| {
        entered(after, 0, 12);
        after.state.psw = after.state.psw & 0x03ff_ffff | 1 << 30 | EI;
    });
    rig.assert_step_with(0, |after| {
        entered(after, 0, 4);
        debugged(after, 0b001);
    });
}

/// What debug entry does beside: `hits` are HWDBG bits 6 to 8.
fn debugged(after: &mut Rig, hits: u32) {
    after.state.psw = after.state.psw & !SW | 0xf << 16;
    after.state.hwdbg = after.state.hwdbg & !0x1c0 | hits << 6;
}

#[test]
fn a_breakpoint_that_is_enabled_and_equals_the_program_counter_is_debug_entry() {
    for enables in 0..4_u32 {
        for (bp0, bp1) in [(4, 4), (4, 6), (6, 4), (6, 6), (5, 5), (0x104, 0x8000_0004)] {
            let mut rig = permitting();
            rig.place(4, &[MOVI]);
            rig.state.pc = 4;
            rig.state.hwdbg |= enables << 2;
            (rig.state.bp0, rig.state.bp1) = (bp0, bp1);
            let hit = enables & 1 != 0 && bp0 == 4 || enables & 2 != 0 && bp1 == 4;
            rig.assert_step(|after| {
                if hit {
                    entered(after, 4, 4);
                    debugged(after, 0b001);
                } else {
                    after.state.pc = 6;
                    after.set(1, 16);
                }
            });
        }
    }
}

#[test]
fn both_breakpoints_at_once_set_the_one_bp_bit() {
    let mut rig = Rig::with(&[MOVI]);
    rig.state.hwdbg = 0b1111;
    rig.assert_step(|after| {
        after.state.psw = IP | 0xf << 16;
        after.state.hwdbg = 0b100_1111;
        after.state.pc = 4;
    });
}

/// Neither IE nor IP masks a breakpoint or a watchpoint.
#[test]
fn debug_entry_is_made_whatever_ie_and_ip_are() {
    for psw in [0, IE, IP, IE | IP, IP | BIP, BIP] {
        let mut rig = Rig::with(&[0xc035]); // ldrb r3 from r5
        rig.state.psw = psw;
        rig.state.hwdbg = 0b000111;
        let bip = if psw & IP != 0 { BIP } else { 0 };
        let expected = psw & !BIP | IP | bip | 0xf << 16;
        let after = rig.assert_step(|after| {
            after.state.psw = expected;
            after.state.hwdbg = 0b001_000111;
            after.state.pc = 4;
        });
        assert_eq!(after.state.ipc, 0);
        rig.state.hwdbg = 0b010011;
        rig.assert_step(|after| {
            after.set(3, 0xc0);
            after.state.ipc = 2;
            after.state.psw = expected;
            after.state.hwdbg = 0b010_010011;
            after.state.pc = 4;
        });
    }
}

#[test]
fn a_breakpoint_hits_again_after_a_return_while_still_enabled() {
    let mut rig = Rig::with(&[MOVI, 0xf400]); // movi; sj to itself
    rig.place(4, &[0x1e02]); // the handler: jsfr ipc
    rig.state.hwdbg = 0b111;
    rig.state.bp0 = 2;
    let mut places = Vec::new();
    for _ in 0..7 {
        assert_eq!(rig.run_steps(1), (10, 1));
        places.push(rig.state.pc);
    }
    assert_eq!(places, [2, 4, 2, 4, 2, 4, 2], "entry, return, entry again");
    rig.state.hwdbg &= !0b100;
    assert_eq!(rig.run_steps(1), (10, 1));
    assert_eq!(rig.state.pc, 2, "no longer enabled: the sj itself");
}

#[test]
fn debug_entry_clears_sw_sets_19_16_and_leaves_the_other_bits_alone() {
    for psw in [!(1 << 12), BUSY_PSW, 0, 0xfc00_0000, 0x03f0_0000, 0x000f_0001] {
        let mut rig = Rig::with(&[MOVI]);
        rig.state.psw = psw & !IE;
        rig.state.hwdbg = 0b0111;
        let mut after = rig.clone();
        assert_eq!(after.run(&[63]), (10, 1));
        let changed = SW | IP | BIP | 0xf << 16;
        assert_eq!(after.state.psw & !changed, rig.state.psw & !changed);
        assert_eq!(after.state.psw & (SW | IP | 0xf << 16), IP | 0xf << 16);
        assert_eq!(after.state.psw & BIP != 0, psw & IP != 0);
    }
}

#[test]
fn hwdbg_bits_6_to_8_show_exactly_this_hit() {
    for earlier in 0..8 {
        let mut rig = Rig::with(&[0x8035]); // ldr r3 from r5
        rig.set(5, 0x40);
        let enable = |rig: &Rig, enables: u32, wp1: u32| {
            let mut rig = rig.clone();
            rig.state.hwdbg = 3 | enables << 2 | earlier << 6;
            (rig.state.wp0, rig.state.wp1) = (0x40, wp1);
            assert_eq!(rig.run_steps(1), (10, 1));
            rig.state.hwdbg
        };
        assert_eq!(enable(&rig, 0b0001, 0), 3 | 0b0001 << 2 | 0b001 << 6);
        assert_eq!(enable(&rig, 0b0010, 0), 3 | 0b0010 << 2 | 0b001 << 6);
        assert_eq!(enable(&rig, 0b0100, 0), 3 | 0b0100 << 2 | 0b010 << 6);
        assert_eq!(enable(&rig, 0b1100, 0x40), 3 | 0b1100 << 2 | 0b110 << 6);
        assert_eq!(enable(&rig, 0b1000, 0x40), 3 | 0b1000 << 2 | 0b100 << 6);
        assert_eq!(enable(&rig, 0b0000, 0x40), 3 | earlier << 6, "no hit changes nothing");
        rig.set(5, 0x44);
        assert_eq!(enable(&rig, 0b1100, 0x48), 3 | 0b1100 << 2 | earlier << 6);
    }
}

/// A load or store through r5, with its width in bytes; r3 is the other register.
const ACCESSES: [(u16, u32, bool); 6] = [
    (0x8, 4, false),
    (0x9, 4, true),
    (0xa, 2, false),
    (0xb, 2, true),
    (0xc, 1, false),
    (0xd, 1, true),
];

/// The change that the access makes by itself.
fn accessed(after: &mut Rig, address: u32, width: u32, store: bool) {
    after.state.pc += 2;
    let places = address as usize..(address + width) as usize;
    if store {
        let bytes = after.value(3).to_be_bytes();
        after.memory[places].copy_from_slice(&bytes[4 - width as usize..]);
    } else {
        let value = after.memory[places].iter().fold(0, |sum, &byte| sum * 256 + u32::from(byte));
        after.set(3, value);
    }
}

#[test]
fn a_watchpoint_is_compared_with_the_address_after_alignment() {
    for (top, width, store) in ACCESSES {
        for base in 0x3c..0x48 {
            for watched in 0x3c..0x48 {
                let mut rig = permitting();
                rig.place(0, &[access(top, 1, 3, 5)]);
                rig.set(5, base - width);
                rig.state.hwdbg |= 1 << 4;
                rig.state.wp0 = watched;
                let address = base / width * width;
                rig.assert_step(|after| {
                    accessed(after, address, width, store);
                    if watched == address {
                        entered(after, 2, 4);
                        debugged(after, 0b010);
                    }
                });
            }
        }
    }
}

#[test]
fn both_watchpoints_at_once_set_both_bits() {
    for (top, width, store) in ACCESSES {
        for enables in 0..4_u32 {
            for (wp0, wp1) in [(0x40, 0x40), (0x40, 0x44), (0x44, 0x40), (0x44, 0x44)] {
                let mut rig = permitting();
                rig.place(0, &[access(top, 0, 3, 5)]);
                rig.set(5, 0x40);
                rig.state.hwdbg |= enables << 4;
                (rig.state.wp0, rig.state.wp1) = (wp0, wp1);
                let hits = u32::from(enables & 1 != 0 && wp0 == 0x40) << 1
                    | u32::from(enables & 2 != 0 && wp1 == 0x40) << 2;
                rig.assert_step(|after| {
                    accessed(after, 0x40, width, store);
                    if hits != 0 {
                        entered(after, 2, 4);
                        debugged(after, hits);
                    }
                });
            }
        }
    }
}

#[test]
fn ldrpc_is_watched_too() {
    for pc in [0x20, 0x22] {
        let mut rig = permitting();
        rig.place(pc, &[byte_immediate(0x4, 3, 8)]);
        rig.state.pc = pc;
        rig.state.hwdbg |= 1 << 5;
        let word = rig.word(0x40);
        rig.assert_step(|after| {
            after.set(3, word);
            entered(after, pc + 2, 4);
            debugged(after, 0b100);
        });
        rig.state.wp1 = 0x42; // the sum before alignment, if pc is 0x22
        rig.assert_step(|after| {
            after.set(3, word);
            after.state.pc = pc + 2;
        });
    }
}

/// The instruction and its debug entry are one step, and the entry comes after it.
#[test]
fn a_watchpoint_hits_after_its_instruction_in_the_same_step() {
    let mut rig = Rig::with(&[0x9035, MOVI]); // str r3 to r5
    rig.set(3, 0x0102_0304);
    rig.set(5, 0x40);
    (rig.state.hwdbg, rig.state.wp0) = (0b010011, 0x40);
    assert_eq!(rig.run_steps(1), (10, 1));
    assert_eq!((rig.word(0x40), rig.state.ipc, rig.state.pc), (0x0102_0304, 2, 4));
}

#[test]
fn an_access_outside_memory_hits_no_watchpoint() {
    for (top, ..) in ACCESSES {
        let mut rig = permitting();
        rig.place(0, &[access(top, 0, 3, 5)]);
        rig.set(5, LENGTH);
        rig.state.hwdbg |= 0b11 << 4;
        (rig.state.wp0, rig.state.wp1) = (LENGTH, LENGTH);
        rig.assert_bus_error(DBER, 2);
    }
}

#[test]
fn only_loads_and_stores_are_watched() {
    // mov r3,r5; jr r5; mfsfr r3,wp0; cmpeq r3,r5; all are fetched from the watched address.
    for half in [0x2435, 0x1c05, 0x1239, 0x3135] {
        let mut rig = permitting();
        rig.place(0, &[half]);
        rig.set(5, 0);
        rig.state.hwdbg |= 0b11 << 4;
        (rig.state.wp0, rig.state.wp1) = (0, 0);
        let mut after = rig.clone();
        assert_eq!(after.run_steps(1), (10, 1));
        assert_eq!((after.state.ipc, after.state.hwdbg), (rig.state.ipc, rig.state.hwdbg));
    }
}

#[test]
fn swint_sets_sw_and_puts_its_4_bits_in_19_16() {
    for code in 0..16 {
        for psw in [BUSY_PSW, 0, IE | TE, !(1 << 12)] {
            let mut rig = Rig::busy(&[0x1000 | code]);
            rig.state.psw = psw;
            rig.state.timer = 0;
            let bip = if psw & IP != 0 { BIP } else { 0 };
            rig.assert_step(|after| {
                after.state.ipc = 2;
                after.state.psw = psw & !(0xf << 16) & !BIP | bip | IP | SW;
                after.state.psw |= u32::from(code) << 16;
                after.state.pc = 0x5a5a_0504;
            });
        }
    }
}

#[test]
fn ip_goes_to_bip_and_becomes_1_on_every_entry() {
    // IP can be 1 before swint and debug entry; BIP is overwritten either way.
    for (psw, after) in [(0, IP), (BIP, IP), (IP, IP | BIP), (IP | BIP, IP | BIP)] {
        let mut rig = Rig::with(&[0x1000]);
        rig.state.psw = psw;
        assert_eq!(rig.run_steps(1), (10, 1));
        assert_eq!(rig.state.psw & (IP | BIP), after);
    }
}

#[test]
fn the_program_counter_becomes_ibase_with_its_low_8_bits_replaced() {
    for ibase in [0, 1, 0xff, 0x100, 0x1ff, 0xffff_ff00, u32::MAX, 0x1234_5678] {
        let base = ibase / 256 * 256;
        let pc_after = |change: fn(&mut Rig), lines: u8| {
            let mut rig = Rig::with(&[0x1000]);
            rig.state.ibase = ibase;
            change(&mut rig);
            assert_eq!(rig.run(&[lines]), (10, 1));
            assert_eq!(rig.state.ibase, ibase);
            rig.state.pc
        };
        assert_eq!(pc_after(|_| (), 0), base + 4, "swint");
        assert_eq!(pc_after(|rig| rig.state.hwdbg = 0b111, 0), base + 4, "debug");
        let timer = |rig: &mut Rig| (rig.state.psw, rig.state.pending) = (IE | TE, true);
        assert_eq!(pc_after(timer, 0), base + 8, "timer");
        assert_eq!(pc_after(|rig| rig.state.psw = IE | 1 << 25, 32), base + 12, "external");
    }
}

/// An entry sets its own flag and leaves those of the others.
#[test]
fn entries_leave_the_flags_of_other_entries() {
    let mut rig = Rig::with(&[0x1007, MOVI]);
    rig.state.psw = TI | EI | 1 << 28;
    rig.assert_step(|after| {
        after.state.ipc = 2;
        after.state.psw = TI | EI | 1 << 28 | SW | IP | 7 << 16;
        after.state.pc = 4;
    });
    rig.state.psw = SW | EI | IE | TE | 5 << 16 | 1 << 31;
    rig.state.pending = true;
    rig.assert_step(|after| {
        after.state.psw = SW | EI | IE | TE | 5 << 16 | 1 << 31 | TI | IP;
        after.state.pending = false;
        after.state.pc = 8;
    });
}
