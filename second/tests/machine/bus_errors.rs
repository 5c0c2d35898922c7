//! Bus errors (document 02, ticket 5).

use second::step::{step, Access, Entry, Step};

use crate::rig::{access, Rig, DBER, IBER, LENGTH};

const IP: u32 = 1 << 3;
const TE: u32 = 1 << 4;
const IE: u32 = 1 << 5;
const BIP: u32 = 1 << 6;

/// movi r1,16.
const MOVI: u16 = 0x7110;

/// jsfr ipc.
const RETURN: u16 = 0x1e02;

/// The first digits of the loads and stores.
const ACCESSES: [u16; 6] = [0x8, 0x9, 0xa, 0xb, 0xc, 0xd];

/// The long jumps.
const LONG_JUMPS: [u16; 4] = [0xe000, 0xe800, 0xf000, 0xf800];

/// Bases that lead outside, with the units.
const OUTSIDE: [(u32, u32); 6] = [
    (LENGTH, 0),
    (LENGTH + 3, 0),
    (LENGTH - 1, 4),
    (0x1_0000, 15),
    (0x8000_0000, 0),
    (u32::MAX - 64, 1),
];

/// Every kind of bus error, with its bit and the address that it saves: a first half outside, a
/// second half outside, each load and store, and ldrpc.
fn every_kind() -> Vec<(Rig, u32, u32)> {
    let mut kinds = Vec::new();
    for pc in [LENGTH, LENGTH + 2, 0x1_0000, 0x8000_0000, 0xffff_fffe] {
        let mut rig = Rig::busy(&[]);
        rig.state.pc = pc;
        kinds.push((rig, IBER, pc));
    }
    for jump in LONG_JUMPS {
        let mut rig = Rig::busy(&[]);
        rig.place(LENGTH - 2, &[jump]);
        rig.state.pc = LENGTH - 2;
        kinds.push((rig, IBER, LENGTH - 2));
    }
    for top in ACCESSES {
        for (base, units) in OUTSIDE {
            let mut rig = Rig::busy(&[access(top, units, 3, 5)]);
            rig.set(5, base);
            kinds.push((rig, DBER, 2));
        }
    }
    kinds.push((Rig::busy(&[0x4230]), DBER, 2)); // ldrpc r3, 32 words ahead
    kinds
}

#[test]
fn every_kind_makes_its_entry_and_changes_nothing_besides() {
    for (rig, bit, ipc) in every_kind() {
        rig.assert_bus_error(bit, ipc);
    }
}

#[test]
fn ip_goes_to_bip_and_becomes_1_and_nothing_masks_it() {
    for (rig, bit, ipc) in every_kind() {
        for psw in [0, IP, BIP, IP | BIP, IE | IP, IE, IE | BIP | 63 << 20, !(1 << 12) & !TE & !IE]
        {
            let mut rig = rig.clone();
            rig.state.psw = psw;
            rig.assert_bus_error(bit, ipc);
        }
    }
}

/// Each sets its own bit; the other one stays as it is.
#[test]
fn the_other_bit_stays() {
    for (rig, bit, ipc) in every_kind() {
        for before in [0, 1 << DBER, 1 << IBER, 1 << DBER | 1 << IBER] {
            let mut rig = rig.clone();
            rig.state.psw = before;
            let after = rig.assert_bus_error(bit, ipc);
            assert_eq!(after.state.psw & (1 << DBER | 1 << IBER), before | 1 << bit);
        }
    }
}

#[test]
fn the_program_counter_becomes_ibase_with_low_byte_16() {
    for (rig, bit, ipc) in every_kind() {
        for (ibase, pc) in [(0, 16), (0xff, 16), (0x1ff, 0x110), (u32::MAX, 0xffff_ff10)] {
            let mut rig = rig.clone();
            rig.state.ibase = ibase;
            assert_eq!(rig.assert_bus_error(bit, ipc).state.pc, pc);
        }
    }
}

/// Marks neither hinder a bus error nor change by it: those of the stored register, of Rd, of the
/// flags and of memory.
#[test]
fn marks_stay() {
    for (mut rig, bit, ipc) in every_kind() {
        rig.mark(3);
        (rig.state.tf_marked, rig.state.cy_marked) = (true, true);
        rig.mark_bytes(4..LENGTH as usize - 2);
        rig.assert_bus_error(bit, ipc);
    }
}

/// What the step shows that this machine makes next.
fn shown(rig: &Rig) -> Step {
    let Rig { mut state, mut memory, mut marks } = rig.clone();
    step(&mut state, &mut memory, &mut marks, 0).expect("no stop")
}

#[test]
fn a_bus_error_shows_what_it_was_for_and_where_its_data_is() {
    for (rig, bit, _) in every_kind() {
        let access = if bit == IBER { Access::Fetch } else { Access::Data };
        let Step { pc, entry, address } = shown(&rig);
        assert_eq!((pc, entry), (rig.state.pc, Some(Entry::BusError(access))));
        assert_eq!(address.is_some(), access == Access::Data);
    }
}

/// "no register, byte or watchpoint hit changes", though both watchpoints equal the address.
#[test]
fn no_watchpoint_hits() {
    for (mut rig, bit, ipc) in every_kind() {
        let watched = shown(&rig).address.unwrap_or(rig.state.pc);
        (rig.state.wp0, rig.state.wp1) = (watched, watched);
        for hits in 0..8 {
            rig.state.hwdbg = 0b11_0011 | hits << 6;
            rig.assert_bus_error(bit, ipc);
        }
    }
}

/// An interrupt or a breakpoint is chosen before the instruction is looked at.
#[test]
fn the_other_entries_go_first() {
    for (rig, ..) in every_kind() {
        let mut lined = rig.clone();
        lined.state.psw = IE | 1 << 20;
        assert_eq!(lined.run(&[1]), (10, 1));
        assert_eq!((lined.state.pc & 0xff, lined.state.ipc), (12, rig.state.pc));
        let mut timed = rig.clone();
        (timed.state.psw, timed.state.timer, timed.state.pending) = (IE | TE, 0, true);
        assert_eq!(timed.run(&[0]), (10, 1));
        assert_eq!((timed.state.pc & 0xff, timed.state.ipc), (8, rig.state.pc));
        let mut broken = rig.clone();
        (broken.state.hwdbg, broken.state.bp1) = (0b1011, rig.state.pc);
        assert_eq!(broken.run(&[0]), (10, 1));
        assert_eq!((broken.state.pc & 0xff, broken.state.ipc), (4, rig.state.pc));
    }
}

/// "such a step counts as completed", so TIMER falls in it as in any, by its cost.
#[test]
fn timer_falls_in_a_bus_error() {
    for (rig, ..) in every_kind() {
        for (timer, after) in [(0, (0, false)), (1, (0, true)), (4, (0, true)), (9, (5, false))] {
            let mut rig = rig.clone();
            (rig.state.psw, rig.state.timer) = (TE, timer);
            assert_eq!(rig.run_steps(1), (10, 1));
            assert_eq!((rig.state.timer, rig.state.pending), after);
        }
    }
}

/// "The order of the tests stays, so a marked base still stops first."
#[test]
fn the_stops_before_it_still_come_first() {
    for top in ACCESSES {
        let mut rig = Rig::busy(&[access(top, 0, 3, 5)]);
        rig.set(5, LENGTH);
        rig.mark(5);
        rig.assert_stops(14);
        let mut rig = Rig::busy(&[access(top, 0, 3, 5)]);
        rig.set(5, LENGTH);
        rig.mark_byte(1);
        rig.assert_stops(12);
    }
    for jump in LONG_JUMPS {
        let mut rig = Rig::busy(&[]);
        rig.place(LENGTH - 2, &[jump]);
        rig.state.pc = LENGTH - 2;
        rig.mark_byte(LENGTH as usize - 1);
        rig.assert_stops(12);
    }
    let mut rig = Rig::busy(&[]);
    rig.place(LENGTH - 2, &[0xfc00]);
    rig.state.pc = LENGTH - 2;
    rig.assert_stops(13);
}

/// Data: the handler's return leads behind the load or store. A fetch: to the same address again.
#[test]
fn a_return_goes_behind_data_and_back_to_a_fetch() {
    for (mut rig, bit, ipc) in every_kind() {
        rig.place(16, &[MOVI, RETURN]);
        rig.state.ibase = 0;
        for psw in [0, IP] {
            let mut rig = rig.clone();
            rig.state.psw = psw;
            assert_eq!(rig.run_steps(3), (10, 3));
            assert_eq!((rig.state.pc, rig.value(1)), (ipc, 16));
            assert_eq!(rig.state.psw, psw | 1 << bit, "BIP goes to IP");
            if bit == IBER {
                rig.assert_bus_error(IBER, ipc);
            }
        }
    }
}

/// The handler clears the bits by mtsfr, which may write them now.
#[test]
fn a_handler_clears_the_bits() {
    let mut rig = Rig::with(&[0x8035]); // ldr r3 from r5
    rig.place(16, &[0x1240, 0x2546, 0x1304, RETURN]); // mfsfr r4,psw; and r4,r6; mtsfr psw,r4
    rig.set(5, LENGTH);
    rig.set(6, !(1 << DBER | 1 << IBER));
    rig.state.psw = 1 << IBER;
    assert_eq!(rig.run_steps(5), (10, 5));
    assert_eq!((rig.state.pc, rig.state.psw), (2, 0));
}

#[test]
fn with_ibase_outside_memory_every_step_is_a_bus_error_until_the_budget_is_used_up() {
    for (mut rig, bit, _) in every_kind() {
        rig.state.ibase = 0x1_0000;
        rig.state.psw = 0;
        for steps in 2..9 {
            let mut after = rig.clone();
            assert_eq!(after.run_steps(steps), (10, steps as u64));
            assert_eq!((after.state.pc, after.state.ipc), (0x1_0010, 0x1_0010));
            assert_eq!(after.state.psw, IP | BIP | 1 << bit | 1 << IBER);
        }
    }
}

/// The handler begins just behind 16 bytes, and at the last word of 20.
#[test]
fn a_short_memory_has_no_handler() {
    for (length, pc) in [(4, 16), (8, 16), (12, 16), (16, 16), (20, 18)] {
        let mut rig = Rig::with(&[]);
        rig.remember(MOVI.to_be_bytes().repeat(length as usize / 2));
        rig.state.pc = length;
        assert_eq!(rig.run_steps(2), (10, 2));
        assert_eq!(rig.state.pc, pc, "{length} bytes");
    }
}

/// Of a bus error in a handler the outer IPC is lost, and BIP tells that there was one.
#[test]
fn a_bus_error_in_a_handler() {
    let mut rig = Rig::with(&[0x1007]); // swint 7
    rig.place(4, &[0x9035, RETURN]); // str r3 to r5
    rig.place(16, &[RETURN]);
    rig.set(5, LENGTH);
    let mut seen = Vec::new();
    for _ in 0..4 {
        assert_eq!(rig.run_steps(1), (10, 1));
        seen.push((rig.state.pc, rig.state.ipc, rig.state.psw & (IP | BIP)));
    }
    assert_eq!(seen, [(4, 2, IP), (16, 6, IP | BIP), (6, 6, IP), (6, 6, 0)]);
}
