//! What the next step would show, entry by entry; the board runner's tests lay whole traces beside the second program's.

use manik::{marks, show, Entry, Line, Register, State};

const MEMORY: usize = 64;
const IE: u32 = 1 << 5;
const TE: u32 = 1 << 4;

fn memory(code: &[u8]) -> Vec<u8> {
    let mut memory = code.to_vec();
    memory.resize(MEMORY, 0);
    memory
}

/// The line of the first step of this code, with these lines high and nothing marked.
fn first(state: &State, code: &[u8], lines: u8) -> Option<Line> {
    show(state, &memory(code), &[0; MEMORY / 8], lines).expect("a line of this library")
}

fn line(pc: u32, entry: Option<Entry>, address: Option<u32>) -> Option<Line> {
    Some(Line { pc, entry, address })
}

const MOVI: &[u8] = &[0x71, 0x10];
const LDR_AT_4: &[u8] = &[0x81, 0x10];

#[test]
fn an_instruction_shows_where_it_stands_and_what_it_reaches() {
    let state = State::fresh();
    assert_eq!(first(&state, MOVI, 0), line(0, None, None));
    assert_eq!(first(&state, LDR_AT_4, 0), line(0, None, Some(4)));
}

#[test]
fn an_entry_shows_its_kind_and_number() {
    let mut state = State::fresh();
    assert_eq!(first(&state, &[0x10, 0x07], 0), line(0, Some(Entry::Swint(7)), None));
    state.psw = IE | 1 << 22;
    assert_eq!(first(&state, MOVI, 0b100), line(0, Some(Entry::External(2)), None));
    assert_eq!(first(&state, MOVI, 0b10), line(0, None, None));
    state.psw = IE | TE;
    state.pending = true;
    assert_eq!(first(&state, MOVI, 0), line(0, Some(Entry::Timer), None));
}

#[test]
fn a_debug_entry_shows_its_hits() {
    let mut state = State { hwdbg: 0b111, ..State::fresh() };
    assert_eq!(first(&state, LDR_AT_4, 0), line(0, Some(Entry::Debug(1)), None));
    state = State { hwdbg: 0b110011, wp0: 4, wp1: 4, ..State::fresh() };
    assert_eq!(first(&state, LDR_AT_4, 0), line(0, Some(Entry::Debug(6)), Some(4)));
}

#[test]
fn the_two_bus_errors_are_told_apart() {
    let mut state = State { pc: MEMORY as u32, ..State::fresh() };
    assert_eq!(first(&state, MOVI, 0), line(64, Some(Entry::FetchError), None));
    state = State::fresh();
    state.registers[0] = Register { value: MEMORY as u32, marked: false };
    assert_eq!(first(&state, LDR_AT_4, 0), line(0, Some(Entry::DataError), Some(68)));
}

#[test]
fn a_stop_and_a_refusal_show_nothing() {
    let mut state = State::fresh();
    // No instruction; a marked base; a marked fetch.
    assert_eq!(first(&state, &[0xfc, 0x00], 0), None);
    state.registers[0].marked = true;
    assert_eq!(first(&state, LDR_AT_4, 0), None);
    let mut bits = vec![0; marks::room(MEMORY)];
    marks::mark(&mut bits, 1..2);
    assert_eq!(show(&State::fresh(), &memory(MOVI), &bits, 0), Ok(None));
    // An odd program counter, a byte above 63 for the lines, and marks of another length.
    assert_eq!(first(&State { pc: 1, ..State::fresh() }, MOVI, 0), None);
    assert_eq!(first(&State::fresh(), MOVI, 64), None);
    assert_eq!(show(&State::fresh(), &memory(MOVI), &[0; MEMORY], 0), Ok(None));
}
