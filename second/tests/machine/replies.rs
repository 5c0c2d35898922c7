//! "Replies of a run".

use second::reply::Reply;
use second::run::run;
use second::step::{step, Entry};

use crate::rig::{Rig, DBER, IBER, LENGTH};

/// movi r1,16, which always completes.
const MOVI: u16 = 0x7110;

/// Bits that are no instruction.
const NOTHING: u16 = 0xfc00;

/// An input of a run, with a budget of its own.
struct Input {
    rig: Rig,
    tape: Vec<u8>,
    budget: u64,
}

impl Input {
    /// Three steps that complete, with lines that nothing enables.
    fn good() -> Input {
        Input { rig: Rig::with(&[MOVI, MOVI, MOVI]), tape: vec![63; 3], budget: 3 }
    }

    /// The reply's number and the steps; a refusal must leave all as given.
    #[track_caller]
    fn run(&self) -> (u32, u64) {
        let mut rig = self.rig.clone();
        let outcome = run(&mut rig.state, &mut rig.memory, &mut rig.marks, &self.tape, self.budget);
        if outcome.reply.is_refusal() {
            assert_eq!(rig, self.rig, "a refusal leaves state, memory and marks as given");
        }
        (outcome.reply.number(), outcome.steps)
    }

    /// The answer after a change.
    #[track_caller]
    fn changed(change: impl FnOnce(&mut Input)) -> (u32, u64) {
        let mut input = Input::good();
        change(&mut input);
        input.run()
    }
}

#[test]
fn the_numbers_are_those_of_the_table() {
    let table = [
        (1, Reply::MemoryLength),
        (2, Reply::MarkLength),
        (3, Reply::MarkPastEnd),
        (4, Reply::StateForm),
        (5, Reply::TapeLength),
        (6, Reply::TapeByte),
        (10, Reply::BudgetUsed),
        (12, Reply::FetchMarked),
        (13, Reply::NoInstruction),
        (14, Reply::OperandMarked),
    ];
    for (number, reply) in table {
        assert_eq!(reply.number(), number);
        assert_eq!(reply.is_refusal(), number <= 6);
    }
}

#[test]
fn reply_1_memory_length_0_above_65_536_or_no_multiple_of_4() {
    let with_length = |length| {
        Input::changed(|input| {
            input.rig.memory.resize(length, 0);
            input.rig.marks.resize(length.div_ceil(8), 0);
        })
    };
    for length in [0, 1, 2, 3, 5, 6, 7, 65_533, 65_534, 65_535, 65_537, 65_540, 131_072] {
        assert_eq!(with_length(length), (1, 0), "{length}");
    }
    for length in [8, 12, 65_532, 65_536] {
        assert_eq!(with_length(length), (10, 3), "{length}");
    }
}

#[test]
fn reply_2_mark_slice_of_another_length() {
    for length in [0, 1, 15, 17, 128, 256] {
        assert_eq!(Input::changed(|input| input.rig.marks.resize(length, 0)), (2, 0), "{length}");
    }
}

/// Of 124 bytes' 16 mark bytes the last has four bits past the end, of 128 bytes' none has any.
#[test]
fn reply_3_a_set_bit_past_the_memorys_end() {
    let marked = |length, byte| {
        Input::changed(|input| {
            input.rig.memory.truncate(length);
            input.rig.marks[15] = byte;
        })
    };
    for byte in [0x10, 0x1f, 0x20, 0x40, 0x80, 0xf0, 0xff] {
        assert_eq!(marked(124, byte), (3, 0), "{byte:#x}");
        assert_eq!(marked(128, byte), (10, 3), "{byte:#x}");
    }
    for byte in [0, 1, 8, 0xf] {
        assert_eq!(marked(124, byte), (10, 3), "{byte:#x}");
    }
}

#[test]
fn reply_4_state_out_of_form() {
    assert_eq!(Input::changed(|input| input.rig.state.pc = 1), (4, 0));
    assert_eq!(Input::changed(|input| input.rig.state.psw = 1 << 12), (4, 0));
    assert_eq!(Input::changed(|input| input.rig.state.hwdbg = 2), (4, 0));
    assert_eq!(Input::changed(|input| input.rig.state.hwdbg = 1 << 9 | 3), (4, 0));
    let pending = |input: &mut Input| (input.rig.state.timer, input.rig.state.pending) = (1, true);
    assert_eq!(Input::changed(pending), (4, 0));
}

#[test]
fn reply_5_tape_shorter_than_the_budget() {
    for budget in [4, 1 << 32, u64::MAX] {
        assert_eq!(Input::changed(|input| input.budget = budget), (5, 0));
    }
    assert_eq!(Input::changed(|input| input.tape.clear()), (5, 0));
    assert_eq!(Input::changed(|input| input.tape.resize(100, 0)), (10, 3));
}

#[test]
fn reply_6_a_byte_above_63_among_the_first_budget_tape_bytes() {
    for place in 0..3 {
        for byte in [64, 65, 128, 255] {
            assert_eq!(Input::changed(|input| input.tape[place] = byte), (6, 0));
        }
    }
    let beyond = |input: &mut Input| input.tape.push(255);
    assert_eq!(Input::changed(beyond), (10, 3));
    let all_beyond = |input: &mut Input| (input.tape, input.budget) = (vec![255; 3], 0);
    assert_eq!(Input::changed(all_beyond), (10, 0));
}

#[test]
fn refusals_1_to_6_are_checked_in_this_order() {
    let facts: [fn(&mut Input); 6] = [
        |input| input.rig.memory.truncate(122),
        |input| input.rig.marks.push(0),
        |input| input.rig.marks[15] = 0x10,
        |input| input.rig.state.pc = 1,
        |input| input.budget = 4,
        |input| input.tape[1] = 64,
    ];
    for subset in 1_u32..64 {
        let reply = Input::changed(|input| {
            input.rig.memory.truncate(124);
            let chosen = (0..6).filter(|fact| subset >> fact & 1 == 1);
            chosen.for_each(|fact| facts[fact](input));
        });
        assert_eq!(reply, (subset.trailing_zeros() + 1, 0), "facts {subset:#08b}");
    }
}

#[test]
fn budget_0_on_good_input_is_reply_10_and_steps_0() {
    let mut rig = Rig::busy(&[NOTHING]);
    let before = rig.clone();
    assert_eq!(rig.run(&[]), (10, 0));
    assert_eq!(rig, before);
}

#[test]
fn reply_10_comes_before_each_step() {
    for budget in 0..4 {
        let mut rig = Rig::with(&[MOVI, MOVI, MOVI, NOTHING]);
        assert_eq!(rig.run_steps(budget), (10, budget as u64));
        assert_eq!(rig.state.pc, 2 * budget as u32);
    }
}

/// Two steps that complete, and then a third that stops. All of the first two stays.
fn assert_third_step_stops(reply: u32, change: impl FnOnce(&mut Rig)) {
    let mut rig = Rig::busy(&[MOVI, 0x7121]); // movi r1,16; movi r2,17
    change(&mut rig);
    let mut two = rig.clone();
    assert_eq!(two.run_steps(2), (10, 2));
    assert_eq!((two.value(1), two.value(2)), (16, 17));
    assert_eq!(rig.run_steps(9), (reply, 2));
    assert_eq!(rig, two, "the stopping step changes nothing");
}

#[test]
fn replies_12_to_14_return_the_completed_steps_and_what_they_made() {
    assert_third_step_stops(12, |rig| rig.mark_byte(4));
    assert_third_step_stops(13, |rig| rig.place(4, &[NOTHING]));
    assert_third_step_stops(14, |rig| {
        rig.place(4, &[0x1c05]); // jr r5
        rig.mark(5);
    });
}

/// A machine at this half, the last of its memory.
fn at_the_end(half: u16) -> Rig {
    let mut rig = Rig::busy(&[]);
    rig.place(LENGTH - 2, &[half]);
    rig.state.pc = LENGTH - 2;
    rig
}

#[test]
fn reply_12_fetch_from_a_marked_byte() {
    for place in [0, 1] {
        let mut rig = Rig::busy(&[MOVI]);
        rig.mark_byte(place);
        rig.assert_stops(12);
    }
    for top in [0xe000, 0xe800, 0xf000, 0xf800] {
        for place in 0..4 {
            let mut rig = Rig::busy(&[top, 0]);
            rig.mark_byte(place);
            rig.assert_stops(12);
        }
    }
    // The half behind an instruction of two bytes isn't fetched.
    let mut rig = Rig::busy(&[MOVI]);
    rig.mark_bytes(2..LENGTH as usize);
    rig.assert_step(|after| {
        after.state.pc = 2;
        after.set(1, 16);
    });
}

#[test]
fn reply_13_bits_that_are_no_instruction() {
    let halves = [
        0x0000, 0x0800, 0x0b00, 0x1010, 0x10ff, 0x1100, 0x120b, 0x13b0, 0x1c10, 0x1d10, 0x1e04,
        0x1f00, 0xfc00, 0xffff,
    ];
    for half in halves {
        Rig::busy(&[half]).assert_stops(13);
    }
}

/// "first half outside, first half marked, not an instruction, second half outside, ..." Bus errors
/// stand where stops 11 and 15 stood: "The order of the tests stays" (document 02, ticket 5).
#[test]
fn inside_one_instruction_the_tests_of_the_first_half_come_first() {
    // First half marked before not an instruction.
    let mut rig = Rig::busy(&[NOTHING]);
    rig.mark_byte(1);
    rig.assert_stops(12);
    // First half marked before second half outside.
    let mut rig = at_the_end(0xf800);
    rig.mark_byte(LENGTH as usize - 1);
    rig.assert_stops(12);
    // Not an instruction, though the half behind it is outside or marked.
    at_the_end(NOTHING).assert_stops(13);
    let mut rig = Rig::busy(&[NOTHING]);
    rig.mark_byte(2);
    rig.assert_stops(13);
}

/// "... second half outside, second half marked, operand marked, data outside"
#[test]
fn inside_one_instruction_the_tests_of_operands_and_data_come_last() {
    for jump in [0xe000, 0xe800] {
        let mut outside = at_the_end(jump);
        outside.state.tf_marked = true;
        outside.assert_bus_error(IBER, LENGTH - 2);
        let mut marked = Rig::busy(&[jump, 0]);
        marked.mark_byte(3);
        marked.state.tf_marked = true;
        marked.assert_stops(12);
    }
    for access in [0x8035, 0x9035, 0xa035, 0xb035, 0xc035, 0xd035] {
        let mut rig = Rig::busy(&[access]);
        rig.set(5, LENGTH);
        rig.assert_bus_error(DBER, 2);
        rig.mark(5);
        rig.assert_stops(14);
    }
}

/// No run comes to an odd program counter, so this is shown of the step.
#[test]
fn a_program_counter_found_odd_answers_13_before_all_these() {
    for pc in [1, 3, LENGTH + 1, u32::MAX] {
        let mut rig = Rig::busy(&[MOVI, MOVI]);
        rig.state.pc = pc;
        rig.mark_bytes(0..LENGTH as usize);
        let before = rig.clone();
        let stop = step(&mut rig.state, &mut rig.memory, &mut rig.marks, 0);
        assert_eq!(stop, Err(Reply::NoInstruction));
        assert_eq!(rig, before);
    }
}

/// "these" are the stops inside an instruction: an entry comes before it.
#[test]
fn an_odd_program_counter_is_found_only_by_an_instruction() {
    let mut rig = Rig::with(&[]);
    rig.state.pc = 3;
    rig.state.psw = 1 << 5 | 1 << 20;
    let entered = step(&mut rig.state, &mut rig.memory, &mut rig.marks, 1).expect("line 0");
    assert_eq!((entered.entry, rig.state.ipc), (Some(Entry::External(0)), 3));
    let mut rig = Rig::with(&[]);
    rig.state.pc = 3;
    (rig.state.hwdbg, rig.state.bp0) = (7, 3);
    let entered = step(&mut rig.state, &mut rig.memory, &mut rig.marks, 0).expect("BP0");
    assert_eq!((entered.entry, rig.state.ipc), (Some(Entry::Debug(1 << 6)), 3));
}

#[test]
fn a_stopping_step_does_not_let_the_timer_fall() {
    type Change = fn(&mut Rig);
    let stops: [(u32, Change); 3] = [
        (12, |rig| rig.mark_byte(0)),
        (13, |rig| rig.place(0, &[NOTHING])),
        (14, |rig| {
            rig.place(0, &[0x9035]);
            rig.mark(5);
        }),
    ];
    for (reply, change) in stops {
        let mut rig = Rig::busy(&[MOVI]);
        rig.state.psw |= 1 << 4;
        rig.state.timer = 1;
        change(&mut rig);
        rig.assert_stops(reply);
    }
}

/// An entry fetches nothing, so it meets neither a bus error nor stop 12 nor stop 13.
#[test]
fn an_entry_is_made_where_no_instruction_could_be_fetched() {
    let places: [fn(&mut Rig); 3] =
        [|rig| rig.state.pc = LENGTH, |rig| rig.mark_bytes(0..2), |rig| rig.place(0, &[NOTHING])];
    for place in places {
        let mut rig = Rig::with(&[MOVI]);
        place(&mut rig);
        let mut lined = rig.clone();
        lined.state.psw = 1 << 5 | 1 << 22;
        assert_eq!(lined.run(&[1 << 2]), (10, 1));
        assert_eq!(lined.state.pc, 12);
        let mut broken = rig.clone();
        (broken.state.hwdbg, broken.state.bp1) = (0b1011, rig.state.pc);
        assert_eq!(broken.run(&[0]), (10, 1));
        assert_eq!(broken.state.pc, 4);
    }
}
