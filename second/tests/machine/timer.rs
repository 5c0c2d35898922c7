//! "Timer", of "One step".

use crate::rig::{half, Rig};

const TI: u32 = 1 << 2;
const IP: u32 = 1 << 3;
const TE: u32 = 1 << 4;
const IE: u32 = 1 << 5;

/// movi r1,16.
const MOVI: u16 = 0x7110;

/// mtsfr timer,r2.
const WRITE_TIMER: u16 = 0x1332;

/// A machine with TE set and this TIMER.
fn running(halves: &[u16], timer: u32) -> Rig {
    let mut rig = Rig::with(halves);
    rig.state.psw = TE;
    rig.state.timer = timer;
    rig
}

/// TIMER and pending after one step with these lines.
#[track_caller]
fn after_step(mut rig: Rig, lines: u8) -> (u32, bool) {
    assert_eq!(rig.run(&[lines]), (10, 1));
    (rig.state.timer, rig.state.pending)
}

/// A kind of step: its name, what makes a machine come to it with which lines, and its cost.
type Kind = (&'static str, fn(&mut Rig), u8, u32);

/// Steps of every cost.
const KINDS: [Kind; 10] = [
    ("an instruction", |_| (), 0, 1),
    ("swint", |rig| rig.place(0, &[0x1003]), 0, 2),
    ("a jump", |rig| rig.place(0, &[0xf400]), 0, 2),
    ("a jump not taken", |rig| rig.place(0, &[0xec04]), 0, 3),
    ("a shift by 9", |rig| rig.place(0, &[0x0c39]), 0, 3),
    ("an external entry", |rig| rig.state.psw |= IE | 1 << 20, 1, 4),
    ("a breakpoint", |rig| rig.state.hwdbg = 0b111, 0, 4),
    ("a bus error", |rig| rig.state.pc = 0x1_0000, 0, 4),
    (
        "a shift by 24",
        |rig| {
            rig.place(0, &[0x2c35]);
            rig.set(5, 24);
        },
        0,
        5,
    ),
    (
        "a load with its watchpoint",
        |rig| {
            rig.place(0, &[0x8035]);
            rig.state.hwdbg = 0b010011;
        },
        0,
        6,
    ),
];

/// "TIMER falls by the step's cost, to no less than 0" (document 02, ticket 6).
#[test]
fn timer_falls_by_the_cost_of_each_completed_step() {
    for (name, change, lines, cost) in KINDS {
        for timer in (0..10).chain([1_000, u32::MAX]) {
            let mut rig = running(&[MOVI], timer);
            change(&mut rig);
            let reaches_0 = timer > 0 && timer <= cost;
            let expected = (timer.saturating_sub(cost), reaches_0);
            assert_eq!(after_step(rig, lines), expected, "{name}, TIMER {timer}");
        }
    }
}

#[test]
fn timer_falls_only_with_te_and_whatever_the_other_bits_are() {
    for bit in (0..32).filter(|&bit| bit != 12) {
        let mut rig = running(&[MOVI], 7);
        rig.state.psw = 1 << bit;
        assert_eq!(after_step(rig, 0).0, if bit == 4 { 6 } else { 7 }, "bit {bit}");
        let mut rig = running(&[MOVI], 7);
        rig.state.psw |= 1 << bit;
        assert_eq!(after_step(rig, 0).0, 6, "bit {bit} and TE");
    }
}

#[test]
fn te_counts_as_it_was_at_the_start_of_the_step() {
    // mtsfr psw,r2 that sets TE, and one that clears it.
    let mut rig = Rig::with(&[0x1302]);
    rig.state.timer = 7;
    rig.set(2, TE);
    rig.assert_step(|after| {
        after.state.pc = 2;
        after.state.psw = TE;
    });
    let mut rig = running(&[0x1302], 7);
    rig.set(2, 0);
    rig.assert_step(|after| {
        after.state.pc = 2;
        after.state.psw = 0;
        after.state.timer = 6;
    });
}

#[test]
fn reaching_0_sets_pending_and_zero_stays_zero() {
    assert_eq!(after_step(running(&[MOVI], 2), 0), (1, false));
    assert_eq!(after_step(running(&[MOVI], 1), 0), (0, true));
    assert_eq!(after_step(running(&[MOVI], 0), 0), (0, false));
    assert_eq!(after_step(running(&[MOVI], u32::MAX), 0), (u32::MAX - 1, false));
    let mut pending = running(&[MOVI], 0);
    pending.state.pending = true;
    assert_eq!(after_step(pending, 0), (0, true), "IE is 0, so it stays pending");
}

/// TIMER 3: three steps complete with a fall each, and the fourth is the timer's entry.
#[test]
fn the_timer_is_entered_in_the_step_after_it_reached_0() {
    let mut rig = running(&[MOVI, MOVI, MOVI, MOVI, MOVI], 3);
    rig.state.psw |= IE;
    let mut seen = Vec::new();
    for _ in 0..5 {
        assert_eq!(rig.run_steps(1), (10, 1));
        seen.push((rig.state.pc, rig.state.timer, rig.state.pending));
    }
    let expected = [(2, 2, false), (4, 1, false), (6, 0, true), (8, 0, false), (10, 0, false)];
    assert_eq!(seen, expected);
    assert_eq!((rig.state.ipc, rig.state.psw), (6, IE | TE | IP | TI));
}

/// The fall of an external entry reaches 0; the timer waits until IP is 0 again.
#[test]
fn a_timer_that_becomes_pending_during_an_interrupt_waits() {
    let mut rig = running(&[MOVI], 1);
    rig.state.psw |= IE | 1 << 20;
    rig.place(12, &[MOVI, 0x1e02]); // movi; jsfr ipc
    let mut places = Vec::new();
    for lines in [1, 1, 1, 1] {
        assert_eq!(rig.run(&[lines]), (10, 1));
        places.push((rig.state.pc, rig.state.pending));
    }
    assert_eq!(places, [(12, true), (14, true), (0, true), (8, false)]);
}

#[test]
fn writing_timer_is_ignored_if_ip_is_1_and_ti_is_0() {
    for timer in [0, 1, 7] {
        for te in [0, TE] {
            let mut rig = Rig::busy(&[WRITE_TIMER]);
            rig.set(2, 99);
            rig.state.psw = rig.state.psw & !TI | IP | te;
            rig.state.timer = timer;
            rig.state.pending = timer == 0;
            rig.assert_step(|after| {
                after.state.pc = 2;
                if te != 0 && timer != 0 {
                    after.state.timer -= 1;
                    after.state.pending = timer == 1;
                }
            });
        }
    }
}

#[test]
fn an_accepted_write_clears_pending_and_takes_the_place_of_the_fall() {
    for flags in [0, TI, IP | TI] {
        for (timer, pending) in [(0, true), (0, false), (1, false), (7, false)] {
            for te in [0, TE] {
                for value in [0, 1, 2, 99, u32::MAX] {
                    let mut rig = Rig::busy(&[WRITE_TIMER]);
                    rig.set(2, value);
                    rig.state.psw = rig.state.psw & !TI & !IP | flags | te;
                    (rig.state.timer, rig.state.pending) = (timer, pending);
                    rig.assert_step(|after| {
                        after.state.pc = 2;
                        (after.state.timer, after.state.pending) = (value, false);
                    });
                }
            }
        }
    }
}

#[test]
fn only_a_write_of_timer_clears_pending() {
    for number in (0..=10).filter(|&number| number != 3) {
        let mut rig = Rig::with(&[half(0x13, number, 2)]);
        rig.state.pending = true;
        assert_eq!(after_step(rig, 0), (0, true), "mtsfr sfr{number},r2");
    }
}

#[test]
fn mfsfr_and_jsfr_read_timer_before_the_fall() {
    for timer in [0, 1, 2, 7, u32::MAX] {
        let rig = running(&[0x1213], timer); // mfsfr r1,timer
        rig.assert_step(|after| {
            after.state.pc = 2;
            after.set(1, timer);
            after.state.timer = timer.saturating_sub(1);
            after.state.pending = timer == 1;
        });
        let rig = running(&[0x1e03], timer); // jsfr timer, a taken jump
        rig.assert_step(|after| {
            after.state.pc = timer & !1;
            after.state.timer = timer.saturating_sub(2);
            after.state.pending = timer == 1 || timer == 2;
        });
    }
}

/// A pending timer waits for TE and IE, which one mtsfr psw can set.
#[test]
fn a_pending_timer_is_entered_in_the_step_after_psw_permits_it() {
    let mut rig = Rig::with(&[0x1302, MOVI]); // mtsfr psw,r2
    rig.set(2, IE | TE);
    rig.state.pending = true;
    assert_eq!(rig.run_steps(1), (10, 1));
    assert_eq!((rig.state.pc, rig.state.pending), (2, true));
    assert_eq!(rig.run_steps(1), (10, 1));
    assert_eq!((rig.state.pc, rig.state.ipc, rig.state.pending), (8, 2, false));
}

/// In the timer's own handler IP and TI are 1, so it can set the timer again.
#[test]
fn the_timer_handler_sets_the_timer_again() {
    let mut rig = running(&[MOVI], 0);
    rig.state.psw |= IE;
    rig.state.pending = true;
    rig.set(2, 50);
    rig.place(8, &[WRITE_TIMER, MOVI]);
    assert_eq!(rig.run_steps(3), (10, 3));
    assert_eq!((rig.state.pc, rig.state.timer), (12, 49));
}
