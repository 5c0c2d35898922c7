//! Runs through the static library: document 01's example, every reply, and records out of shape.

use manik::{marks, run, run_record, Error, Outcome, Register, Reply, State, RECORD_LENGTH};

/// The bytes of document 01's example: movi r1,16; add r1,r1; a jump to itself.
const EXAMPLE: [u8; 6] = [0x71, 0x10, 0x21, 0x11, 0xf4, 0x00];

/// A machine to set up and run.
#[derive(Clone, Debug, PartialEq)]
struct Rig {
    state: State,
    memory: Vec<u8>,
    marks: Vec<u8>,
    tape: Vec<u8>,
    budget: u64,
}

impl Rig {
    /// Fresh, with 16 bytes of memory that begin with these, and a budget of 3.
    fn with(bytes: &[u8]) -> Rig {
        let mut memory = vec![0; 16];
        memory[..bytes.len()].copy_from_slice(bytes);
        let marks = vec![0; marks::room(16)];
        Rig { state: State::fresh(), memory, marks, tape: vec![0; 3], budget: 3 }
    }

    fn run(&mut self) -> (Reply, u64) {
        let Rig { state, memory, marks, tape, budget } = self;
        let Outcome { reply, steps, cycles } =
            run(state, memory, marks, tape, *budget).expect("the state has a record");
        assert_eq!(cycles, state.cycles, "the result repeats the count");
        (reply, steps)
    }
}

/// A refusal returns steps 0 and leaves everything as given.
fn refuses(change: impl FnOnce(&mut Rig), reply: Reply) {
    let mut rig = Rig::with(&EXAMPLE);
    change(&mut rig);
    let before = rig.clone();
    assert_eq!(rig.run(), (reply, 0));
    assert_eq!(rig, before);
}

/// A stop after so many steps.
fn stops(bytes: &[u8], change: impl FnOnce(&mut Rig), reply: Reply, steps: u64) {
    let mut rig = Rig::with(bytes);
    change(&mut rig);
    assert_eq!(rig.run(), (reply, steps));
}

#[test]
fn the_example_of_document_01() {
    let mut rig = Rig::with(&EXAMPLE);
    let mut after = rig.clone();
    assert_eq!(rig.run(), (Reply::BudgetUsed, 3));
    after.state.pc = 4;
    after.state.registers[1] = Register { value: 0x20, marked: false };
    after.state.cycles = 4;
    assert_eq!(rig, after);
}

#[test]
fn refusal_1_memory_length() {
    for length in [0, 1, 2, 3, 5, 14, 65_537, 65_540] {
        refuses(|rig| rig.memory = vec![0; length], Reply::MemoryLength);
    }
}

#[test]
fn refusal_2_mark_length() {
    for length in [0, 1, 3, 8_192] {
        refuses(|rig| rig.marks = vec![0; length], Reply::MarkLength);
    }
    // A byte for each mark, as before document 02's ticket 7; and rounded down.
    refuses(|rig| rig.marks = vec![0; 16], Reply::MarkLength);
    refuses(|rig| (rig.memory, rig.marks) = (vec![0; 20], vec![0; 2]), Reply::MarkLength);
}

#[test]
fn refusal_3_mark_past_end() {
    for (length, byte) in [(4, 0x10), (12, 0x80), (12, 0x1c), (20, 0xff), (65_532, 0x10)] {
        let damage = |rig: &mut Rig| {
            rig.memory.resize(length, 0);
            rig.marks = vec![0; marks::room(length)];
            rig.marks[length / 8] = byte;
        };
        refuses(damage, Reply::MarkPastEnd);
    }
    // The last four bytes of 12 are marked, and the last eight of 16.
    let last = |length, marks: [u8; 2]| {
        move |rig: &mut Rig| {
            rig.memory.truncate(length);
            rig.marks = marks.to_vec();
        }
    };
    stops(&EXAMPLE, last(12, [0, 0x0f]), Reply::BudgetUsed, 3);
    stops(&EXAMPLE, last(16, [0, 0xff]), Reply::BudgetUsed, 3);
}

#[test]
fn refusal_4_state_form() {
    refuses(|rig| rig.state.pc = 1, Reply::StateForm);
    refuses(|rig| rig.state.psw = 1 << 12, Reply::StateForm);
    for hwdbg in [0, 1, 2, 3 | 1 << 9, 3 | 1 << 31] {
        refuses(|rig| rig.state.hwdbg = hwdbg, Reply::StateForm);
    }
    refuses(|rig| (rig.state.pending, rig.state.timer) = (true, 1), Reply::StateForm);
    refuses(|rig| (rig.state.pc, rig.state.cycles) = (1, 99), Reply::StateForm);
}

#[test]
fn refusal_5_tape_length() {
    for budget in [4, 1 << 32, u64::MAX] {
        refuses(|rig| rig.budget = budget, Reply::TapeLength);
    }
    refuses(|rig| rig.tape.clear(), Reply::TapeLength);
}

#[test]
fn refusal_6_tape_byte() {
    for (place, byte) in [(0, 64), (2, 255)] {
        refuses(|rig| rig.tape[place] = byte, Reply::TapeByte);
    }
    stops(&EXAMPLE, |rig| rig.tape.push(255), Reply::BudgetUsed, 3);
}

#[test]
fn the_first_refusal_is_given() {
    let damage = |rig: &mut Rig| {
        rig.state.pc = 1;
        rig.memory.truncate(12);
        rig.marks[1] = 0x10;
        rig.budget = 9;
    };
    refuses(damage, Reply::MarkPastEnd);
    refuses(|rig| (rig.memory, rig.marks) = (Vec::new(), Vec::new()), Reply::MemoryLength);
}

#[test]
fn no_step_is_made_with_budget_0() {
    stops(&EXAMPLE, |rig| (rig.budget, rig.tape) = (0, Vec::new()), Reply::BudgetUsed, 0);
}

#[test]
fn stops_12_to_14() {
    stops(&EXAMPLE, |rig| marks::mark(&mut rig.marks, 3..4), Reply::FetchMarked, 1);
    stops(&EXAMPLE, |rig| marks::mark(&mut rig.marks, 6..16), Reply::BudgetUsed, 3);
    stops(&[0x71, 0x10, 0xfc, 0x00], |_| (), Reply::NoInstruction, 1);
    // jr r1 with r1 marked.
    stops(&[0x1c, 0x01], |rig| rig.state.registers[1].marked = true, Reply::OperandMarked, 0);
}

/// Document 02: an access outside memory is an entry at IBASE with low byte 16.
#[test]
fn bus_errors() {
    let entered = |change: fn(&mut Rig), psw, ipc| {
        // ldr r1 from r2 + 0.
        let mut rig = Rig::with(&[0x80, 0x12]);
        rig.state.registers[1] = Register { value: 7, marked: true };
        change(&mut rig);
        (rig.tape, rig.budget) = (vec![0], 1);
        let mut after = rig.clone();
        (after.state.pc, after.state.psw, after.state.ipc, after.state.cycles) = (16, psw, ipc, 4);
        assert_eq!(rig.run(), (Reply::BudgetUsed, 1));
        assert_eq!(rig, after);
    };
    entered(|rig| rig.state.pc = 16, 1 << 3 | 1 << 15, 16);
    entered(|rig| rig.state.registers[2].value = 16, 1 << 3 | 1 << 14, 2);
    // The handler is outside too.
    stops(&EXAMPLE, |rig| rig.state.pc = 16, Reply::BudgetUsed, 3);
}

/// Document 02: a shift costs by its amount, TIMER falls by that, and the count is modulo 2^32.
#[test]
fn cycles() {
    for (amount, cost) in [(7, 2), (8, 3), (16, 4), (24, 5), (64, 2)] {
        // lsl r1 by r2.
        let mut rig = Rig::with(&[0x2c, 0x12]);
        rig.state.registers[2].value = amount;
        (rig.state.psw, rig.state.timer, rig.state.cycles) = (1 << 4, 10, u32::MAX);
        (rig.tape, rig.budget) = (vec![0], 1);
        assert_eq!(rig.run(), (Reply::BudgetUsed, 1));
        assert_eq!((rig.state.cycles, rig.state.timer), (cost - 1, 10 - cost));
    }
    // The amount is marked.
    stops(&[0x2c, 0x12], |rig| rig.state.registers[2].marked = true, Reply::OperandMarked, 0);
}

#[test]
fn a_store_changes_memory_and_marks() {
    // str r1 to r2 + 4.
    let mut rig = Rig::with(&[0x91, 0x12]);
    rig.state.registers[1] = Register { value: 0x0102_0304, marked: true };
    rig.state.registers[2].value = 8;
    (rig.tape, rig.budget) = (vec![0], 1);
    assert_eq!(rig.run(), (Reply::BudgetUsed, 1));
    assert_eq!(rig.memory[12..], [1, 2, 3, 4]);
    assert_eq!(rig.marks, [0, 0xf0]);
}

/// A store at each place of a mark byte leaves the marks beside its own.
#[test]
fn a_store_leaves_the_marks_of_its_neighbours() {
    for place in 0..8 {
        for (marked, before) in [(true, 0), (false, 0xff), (true, 0x55), (false, 0xaa)] {
            // strb r1 to r2 + 0.
            let mut rig = Rig::with(&[0xd0, 0x12]);
            rig.state.registers[1].marked = marked;
            rig.state.registers[2].value = 8 + place;
            rig.marks[1] = before;
            (rig.tape, rig.budget) = (vec![0], 1);
            assert_eq!(rig.run(), (Reply::BudgetUsed, 1));
            let own = 1 << place;
            let after = if marked { before | own } else { before & !own };
            assert_eq!(rig.marks, [0, after], "byte {place} over {before:#x}");
        }
    }
}

/// A state in which every place holds something else.
fn busy_state() -> State {
    let mut state = State::fresh();
    for (n, register) in (1..).zip(&mut state.registers) {
        *register = Register { value: 0x0123_4567_u32.wrapping_mul(n), marked: n % 3 == 0 };
    }
    (state.pc, state.psw) = (0x5a5a_0000, 0xabfa_eccf);
    (state.tf_marked, state.cy_marked, state.pending) = (true, false, true);
    (state.ra, state.ipc, state.timer, state.ibase) = (0x5a5a_0001, 0x5a5a_0002, 0, 0x5a5a_0004);
    (state.usreg, state.hwdbg) = (0x5a5a_0005, 0x1c3);
    (state.bp0, state.bp1, state.wp0, state.wp1) = (7, 0x5a5a_0008, 0x5a5a_0009, 0x5a5a_000a);
    state.cycles = 0x5a5a_000b;
    state
}

#[test]
fn a_record_read_back_is_the_state() {
    for state in [State::fresh(), busy_state()] {
        let record = state.to_record();
        assert_eq!(State::from_record(&record), Some(state));
    }
}

/// The library reads and writes every place: a run of no steps gives the record back.
#[test]
fn the_library_gives_a_record_back() {
    let (mut record, mut memory, mut marks) = (busy_state().to_record(), [0; 4], [0; 1]);
    let outcome = run_record(&mut record, &mut memory, &mut marks, &[], 0);
    assert_eq!(outcome, Ok(Outcome { reply: Reply::BudgetUsed, steps: 0, cycles: 0x5a5a_000b }));
    assert_eq!(record, busy_state().to_record());
}

#[test]
fn records_out_of_shape_change_nothing() {
    let good = busy_state().to_record();
    let mut damaged: Vec<Vec<u8>> =
        vec![Vec::new(), good[..159].to_vec(), [&good[..], &[0]].concat()];
    let places = (64..80).chain(88..92).chain(136..RECORD_LENGTH);
    damaged.extend(places.map(|place| {
        let mut record = good.to_vec();
        record[place] = 2;
        record
    }));
    for record in damaged {
        let (mut after, mut memory, mut marks) = (record.clone(), EXAMPLE, [0; 1]);
        let outcome = run_record(&mut after, &mut memory, &mut marks, &[0; 3], 3);
        assert_eq!(outcome, Err(Error::RecordOutOfShape));
        assert_eq!((&after, memory, marks), (&record, EXAMPLE, [0; 1]));
        assert_eq!(State::from_record(&record), None);
    }
}

#[test]
fn a_reply_has_its_number() {
    for number in (0..32).chain([u32::MAX]) {
        let known = matches!(number, 1..=6 | 10 | 12..=14);
        assert_eq!(Reply::from_number(number).map(Reply::number), known.then_some(number));
    }
}
