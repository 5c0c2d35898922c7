//! "Edges" and "Easy slips".

use crate::rig::{Rig, DBER, IBER, LENGTH};

#[test]
fn a_halfword_at_the_last_two_bytes_of_memory_loads() {
    let mut rig = Rig::busy(&[0xa035]); // ldrh r3 from r5
    rig.set(5, LENGTH - 2);
    let last = &rig.memory[LENGTH as usize - 2..];
    let value = u32::from(last[0]) * 256 + u32::from(last[1]);
    rig.assert_step(|after| {
        after.state.pc = 2;
        after.set(3, value);
    });
}

/// What was 15 is a bus error since ticket 5, and so is what was 11.
#[test]
fn a_word_at_the_address_equal_to_the_length_gives_a_bus_error() {
    for (half, last) in [(0x8035, LENGTH - 4), (0x9035, LENGTH - 4)] {
        let mut rig = Rig::busy(&[half]);
        rig.set(5, LENGTH);
        rig.assert_bus_error(DBER, 2);
        rig.set(5, last);
        assert_eq!(rig.run_steps(1), (10, 1), "the last word is inside");
    }
}

#[test]
fn every_access_beyond_the_last_byte_gives_a_bus_error() {
    for half in [0x8035, 0x9035, 0xa035, 0xb035, 0xc035, 0xd035] {
        for base in [LENGTH, LENGTH + 1, LENGTH + 4, 0x1_0000, 0x8000_0000, u32::MAX] {
            let mut rig = Rig::busy(&[half]);
            rig.set(5, base);
            rig.assert_bus_error(DBER, 2);
        }
        // Alignment brings the last addresses back inside.
        for base in LENGTH - 4..LENGTH {
            let mut rig = Rig::busy(&[half]);
            rig.set(5, base);
            assert_eq!(rig.run_steps(1), (10, 1), "{half:#06x} at {base}");
            assert_eq!(rig.state.pc, 2, "{half:#06x} at {base}");
        }
    }
}

/// ldrpc reaches 1,020 bytes beyond its own address.
#[test]
fn ldrpc_beyond_the_last_word_gives_a_bus_error() {
    let mut rig = Rig::busy(&[0x4130, 0x413f, 0x4230]); // 16, 31 and 32 words ahead
    for pc in [0, 2] {
        rig.state.pc = pc;
        assert_eq!(rig.run_steps(1), (10, 1), "at {pc}");
        assert_eq!(rig.state.pc, pc + 2);
    }
    rig.state.pc = 4;
    rig.assert_bus_error(DBER, 6);
}

#[test]
fn a_movi_at_the_end_completes_and_the_next_step_gives_a_bus_error() {
    let mut rig = Rig::busy(&[]);
    rig.place(LENGTH - 2, &[0x7110]);
    rig.state.pc = LENGTH - 2;
    let after = rig.assert_step(|after| {
        after.state.pc = LENGTH;
        after.set(1, 16);
    });
    after.assert_bus_error(IBER, LENGTH);
}

/// "... if nothing is entered".
#[test]
fn a_movi_at_the_end_completes_and_the_next_step_may_be_an_entry() {
    let mut rig = Rig::with(&[]);
    rig.place(LENGTH - 2, &[0x7110]);
    rig.state.pc = LENGTH - 2;
    rig.state.psw = 1 << 5 | 1 << 20;
    assert_eq!(rig.run(&[0, 1]), (10, 2));
    assert_eq!((rig.state.pc, rig.state.ipc), (12, LENGTH));
}

/// The same edges in the shortest and the longest memory.
#[test]
fn the_edges_are_where_the_memory_ends() {
    for length in [4, 8, 65_532, 65_536_u32] {
        let mut rig = Rig::with(&[]);
        rig.remember(vec![0x11; length as usize]);
        rig.place(length - 2, &[0xa035]); // ldrh r3 from r5, its own last two bytes
        rig.state.pc = length - 2;
        rig.set(5, length - 1);
        let after = rig.assert_step(|after| {
            after.state.pc = length;
            after.set(3, 0xa035);
        });
        after.assert_bus_error(IBER, length);
        rig.place(length - 2, &[0x8035]); // ldr r3 from r5
        rig.assert_step(|after| {
            after.state.pc = length;
            after.set(3, 0x1111_8035);
        });
        rig.set(5, length);
        rig.assert_bus_error(DBER, length);
    }
}

#[test]
fn a_jump_below_address_0_wraps_and_the_next_step_gives_a_bus_error() {
    let rig = Rig::busy(&[0xf7ff]); // sj, -2
    let after = rig.assert_step(|after| after.state.pc = 0xffff_fffe);
    after.assert_bus_error(IBER, 0xffff_fffe);
}

#[test]
fn line_5_alone_high_with_bit_25_clear_is_not_taken() {
    let mut rig = Rig::with(&[0x7110]);
    rig.state.psw = 1 << 5 | 0x1f << 20 | 63 << 26;
    rig.assert_step_with(1 << 5, |after| {
        after.state.pc = 2;
        after.set(1, 16);
    });
    rig.state.psw |= 1 << 25;
    assert_eq!(rig.run(&[1 << 5]), (10, 1));
    assert_eq!((rig.state.pc, rig.state.psw >> 26), (12, 1 << 5));
}

#[test]
fn slip_comparing_a_watchpoint_with_the_address_before_alignment() {
    let mut rig = Rig::busy(&[0x8035]); // ldr r3 from r5
    rig.set(5, 0x43);
    rig.state.hwdbg |= 1 << 4;
    rig.state.wp0 = 0x43;
    let mut missed = rig.clone();
    assert_eq!(missed.run_steps(1), (10, 1));
    assert_eq!(missed.state.pc, 2);
    rig.state.wp0 = 0x40;
    assert_eq!(rig.run_steps(1), (10, 1));
    assert_eq!(rig.state.pc, 0x5a5a_0504);
}

#[test]
fn slip_adding_a_halfword_displacement_as_bytes() {
    for (halves, target) in [(&[0xf405][..], 10), (&[0xf000, 5], 10), (&[0xf800, 5], 10)] {
        let mut rig = Rig::with(halves);
        assert_eq!(rig.run_steps(1), (10, 1));
        assert_eq!(rig.state.pc, target);
    }
}

#[test]
fn slip_taking_a_compares_sign_bit_without_its_overflow() {
    // cmplt r3,r5 and cmpgt r3,r5; the difference of the first pair overflows.
    for (d, b, less, greater) in [
        (0x8000_0000, 0x7fff_ffff, true, false),
        (0x7fff_ffff, 0x8000_0000, false, true),
        (0x8000_0000, 1, true, false),
        (0x7fff_ffff, u32::MAX, false, true),
        (u32::MAX, 0, true, false),
        (5, 5, false, false),
    ] {
        for (half, expected) in [(0x3435, less), (0x3535, greater)] {
            let mut rig = Rig::with(&[half]);
            rig.set(3, d);
            rig.set(5, b);
            assert_eq!(rig.run_steps(1), (10, 1));
            assert_eq!(rig.state.tf(), expected, "{half:#06x} of {d:#x}, {b:#x}");
        }
    }
    // cmplti r3,1 and cmpgti r3,-1.
    for (half, d) in [(0x3631, 0x8000_0000), (0x373f, 0x7fff_ffff)] {
        let mut rig = Rig::with(&[half]);
        rig.set(3, d);
        assert_eq!(rig.run_steps(1), (10, 1));
        assert!(rig.state.tf(), "{half:#06x} of {d:#x}");
    }
}

#[test]
fn slip_testing_the_data_address_before_the_bases_mark() {
    let mut rig = Rig::busy(&[0x8035]);
    rig.set(5, 0xffff_0000);
    rig.mark(5);
    rig.assert_stops(14);
}

#[test]
fn slip_letting_a_not_taken_conditional_drop_rds_mark() {
    // movt, movf, addt, addf, subt, subf r3,r5, then addit, addif r3,5.
    for (half, done_if) in [
        (0x3c35, true),
        (0x3835, false),
        (0x3f35, true),
        (0x3b35, false),
        (0x3d35, true),
        (0x3935, false),
        (0x3e35, true),
        (0x3a35, false),
    ] {
        let mut rig = Rig::busy(&[half]);
        rig.mark(3);
        rig.state.psw |= u32::from(!done_if) << 8;
        rig.assert_step(|after| after.state.pc = 2);
    }
}

#[test]
fn slip_clearing_all_of_psw_31_26_on_a_debug_entry() {
    let mut rig = Rig::with(&[0x7110]);
    rig.state.psw = 63 << 26;
    rig.state.hwdbg = 0b111;
    assert_eq!(rig.run(&[63]), (10, 1));
    assert_eq!(rig.state.psw, 63 << 26 | 0xf << 16 | 1 << 3);
}
