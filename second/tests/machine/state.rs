//! "What the model has": the fresh state, and the state in form.

use second::state::{Register, State};

#[test]
fn fresh_is_all_zero_and_unmarked_with_hwdbg_3() {
    let fresh = State::fresh();
    assert_eq!(fresh.registers, [Register { value: 0, marked: false }; 16]);
    let sfr: Vec<u32> = (0..=10).map(|number| fresh.sfr(number)).collect();
    assert_eq!(sfr, [0, 0, 0, 0, 0, 0, 3, 0, 0, 0, 0]);
    assert_eq!((fresh.pc, fresh.psw), (0, 0));
    assert_eq!((fresh.tf_marked, fresh.cy_marked, fresh.pending), (false, false, false));
    assert!(fresh.in_form());
}

#[test]
fn each_sfr_has_its_number() {
    let state = State {
        psw: 100,
        ra: 101,
        ipc: 102,
        timer: 103,
        ibase: 104,
        usreg: 105,
        hwdbg: 106,
        bp0: 107,
        bp1: 108,
        wp0: 109,
        wp1: 110,
        ..State::fresh()
    };
    for number in 0..=10 {
        assert_eq!(state.sfr(number), 100 + number);
    }
}

#[test]
fn tf_is_bit_8_and_cy_is_bit_9() {
    for (psw, flags) in
        [(0, (false, false)), (1 << 8, (true, false)), (1 << 9, (false, true)), (!0, (true, true))]
    {
        let state = State { psw, ..State::fresh() };
        assert_eq!((state.tf(), state.cy()), flags, "{psw:#x}");
    }
}

fn in_form(change: impl FnOnce(&mut State)) -> bool {
    let mut state = State::fresh();
    change(&mut state);
    state.in_form()
}

#[test]
fn an_odd_program_counter_is_out_of_form() {
    for pc in [0, 2, 0x100, 0xffff_fffe] {
        assert!(in_form(|state| state.pc = pc));
        assert!(!in_form(|state| state.pc = pc + 1));
    }
}

#[test]
fn psw_bit_12_set_is_out_of_form_and_no_other_is() {
    for bit in 0..32 {
        assert_eq!(in_form(|state| state.psw = 1 << bit), bit != 12, "bit {bit}");
    }
    assert!(in_form(|state| state.psw = !(1 << 12)));
}

#[test]
fn hwdbg_bits_0_and_1_must_be_set_and_9_to_31_clear() {
    for low in 0..3 {
        assert!(!in_form(|state| state.hwdbg = low));
        assert!(!in_form(|state| state.hwdbg = 0x1fc | low));
    }
    for bit in 2..32 {
        assert_eq!(in_form(|state| state.hwdbg = 3 | 1 << bit), bit <= 8, "bit {bit}");
    }
    assert!(in_form(|state| state.hwdbg = 0x1ff));
}

#[test]
fn timer_pending_with_timer_not_0_is_out_of_form() {
    for timer in [0, 1, 0x8000_0000, u32::MAX] {
        assert!(in_form(|state| state.timer = timer));
        let form = in_form(|state| (state.timer, state.pending) = (timer, true));
        assert_eq!(form, timer == 0, "{timer}");
    }
}

/// "RA, IPC, TIMER, IBASE, USREG, ... BP0, BP1, WP0, WP1" and the registers may hold anything.
#[test]
fn everything_else_is_in_form_with_any_value() {
    let register = Register { value: u32::MAX, marked: true };
    let state = State {
        registers: [register; 16],
        tf_marked: true,
        cy_marked: true,
        ra: u32::MAX,
        ipc: u32::MAX,
        timer: u32::MAX,
        ibase: u32::MAX,
        usreg: u32::MAX,
        bp0: u32::MAX,
        bp1: u32::MAX,
        wp0: u32::MAX,
        wp1: u32::MAX,
        ..State::fresh()
    };
    assert!(state.in_form());
}
