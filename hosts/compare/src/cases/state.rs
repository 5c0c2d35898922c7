//! States in form.

use second::state::{hwdbg, psw, Register, State};

use super::code::{BASES, DATA, LOOP, LOOP_BASE, SUBROUTINE, SUBROUTINE_BASE};
use crate::random::Random;

/// A state for a memory of this length with any code.
pub fn any(random: &mut Random, length: u32) -> State {
    let mut state = State::fresh();
    let often = random.pick(&[2, 4, 8, u32::MAX, u32::MAX]);
    state.registers = std::array::from_fn(|n| Register {
        value: if n < 8 && random.once_in(2) { corner(random) } else { value(random, length) },
        marked: random.once_in(often),
    });
    state.pc = match random.below(20) {
        0 => value(random, length) & !1,
        1 => length - random.pick(&[0, 2, 4]),
        _ => random.below(length.min(256) / 2 + 1) & !1,
    };
    state.psw = psw_bits(random);
    (state.tf_marked, state.cy_marked) = (random.once_in(often), random.once_in(often));
    (state.ra, state.ipc) = (odd_or_even(random, length), odd_or_even(random, length));
    timer(random, &mut state);
    state.ibase = match random.below(12) {
        0 => random.word(),
        1 => length,
        2 => length - 1,
        _ => random.below(length),
    };
    state.usreg = random.word();
    let (any, nearly_over) = (random.word(), u32::MAX - random.below(60));
    state.cycles = random.pick(&[0, any, nearly_over]);
    debug(random, &mut state, length);
    state
}

/// The state at the beginning of a firmware's loop, interrupts mostly permitted.
pub fn firmware(random: &mut Random, length: u32) -> State {
    let mut state = any(random, length);
    let often = random.pick(&[8, 30, u32::MAX]);
    for register in &mut state.registers {
        register.marked = random.once_in(often);
    }
    (state.tf_marked, state.cy_marked) = (random.once_in(often), random.once_in(often));
    for register in &mut state.registers[BASES] {
        let address = DATA as u32 + random.below(length - DATA as u32 - 60);
        *register = Register { value: address, marked: false };
    }
    if random.once_in(4) {
        let base = random.pick(&[BASES.start, BASES.start + 1]);
        state.registers[base].value = length - random.pick(&[0, 4, 16, 40]);
    }
    state.registers[SUBROUTINE_BASE] = Register { value: SUBROUTINE, marked: false };
    state.registers[LOOP_BASE] = Register { value: LOOP | random.below(2), marked: false };
    state.pc = LOOP;
    state.ra = LOOP;
    state.ibase = random.below(256);
    if !random.once_in(6) {
        state.psw = state.psw & !psw::IP | psw::IE;
    }
    watch(random, &mut state);
    if !random.once_in(4) {
        state.hwdbg &= !(hwdbg::BP0 | hwdbg::BP1);
    }
    state
}

/// Mostly about to fall to 0, or pending.
fn timer(random: &mut Random, state: &mut State) {
    state.timer = random.pick(&[0, 0, 1, 1, 2, 3, 4, 5, 6, 20, u32::MAX]);
    state.pending = state.timer == 0 && random.once_in(2);
}

/// Break- and watchpoints, often where code and data are.
fn debug(random: &mut Random, state: &mut State, length: u32) {
    state.hwdbg = 3 | random.below(8) << 6 | random.pick(&[0, 0, 0x10, 0x20, 0x30]);
    if random.once_in(2) {
        state.hwdbg |= random.below(16) << 2;
    }
    let near = [state.pc, state.pc.wrapping_add(2), state.pc.wrapping_add(6), 10];
    for place in [&mut state.bp0, &mut state.bp1] {
        *place = if random.once_in(2) { random.pick(&near) } else { value(random, length) };
        // Seldom at 4: a breakpoint at its own handler hits for ever.
        if *place == 4 && !random.once_in(8) {
            *place = 6;
        }
    }
    watch(random, state);
}

/// Watchpoints at addresses that registers hold, mostly aligned.
fn watch(random: &mut Random, state: &mut State) {
    for place in [&mut state.wp0, &mut state.wp1] {
        let base =
            if random.once_in(6) { state.pc } else { random.pick(&state.registers[8..]).value };
        let offset = random.pick(&[0, 0, 0, 1, 2, 4, 8, 12]);
        *place = base.wrapping_add(offset) & !random.pick(&[3, 3, 3, 1, 0]);
    }
}

/// Often with interrupts permitted; bit 12 is clear.
fn psw_bits(random: &mut Random) -> u32 {
    let bits = random.word() & !psw::TR;
    match random.below(4) {
        0 => bits | psw::IE | psw::IP,
        1 => bits & !psw::IP | psw::IE | psw::TE,
        2 => bits & !psw::IE,
        _ => bits,
    }
}

/// An address that a register jump takes, often with bit 0 set, which the jump drops.
fn odd_or_even(random: &mut Random, length: u32) -> u32 {
    value(random, length) | random.below(2)
}

/// Any word, or one at which arithmetic has its edges.
pub fn corner(random: &mut Random) -> u32 {
    let any = random.word();
    random.pick(&[any, any, any, 0, 1, 31, 32, 0x7fff_ffff, 0x8000_0000, u32::MAX - 1, u32::MAX])
}

/// Mostly an address in memory, often an even or aligned one; else any word or a corner.
pub fn value(random: &mut Random, length: u32) -> u32 {
    let end = length;
    match random.below(12) {
        0 | 1 => corner(random),
        2 => random.pick(&[end, end - 1, end - 2, end - 3, end - 4, end + 4]),
        3..8 => random.below(length) & !3,
        _ => random.below(length),
    }
}
