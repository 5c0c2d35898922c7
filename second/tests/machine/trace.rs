//! What a run shows of its completed steps: the program counter before the step, the entry, and
//! the aligned data address (demand 3 and ticket 9); and the lines of `docs/CORPUS.md` for it.

use second::corpus::trace_line;
use second::run::{run_observed, Outcome};
use second::step::{step, Step};

use crate::rig::{Rig, LENGTH};

const TE: u32 = 1 << 4;
const IE: u32 = 1 << 5;

/// movi r1,16.
const MOVI: u16 = 0x7110;

/// ldr r3 from r5.
const LDR: u16 = 0x8035;

/// The outcome and the steps shown, with the whole tape as budget.
fn observe(rig: &mut Rig, tape: &[u8]) -> (Outcome, Vec<Step>) {
    let mut steps = Vec::new();
    let budget = tape.len() as u64;
    let (state, memory, marks) = (&mut rig.state, &mut rig.memory, &mut rig.marks);
    let outcome = run_observed(state, memory, marks, tape, budget, |step| steps.push(step));
    (outcome, steps)
}

/// A line's five parts as text, each byte by its place: program counter, code, what the entry
/// shows, whether data was reached, address.
fn text(step: &Step) -> String {
    let line = trace_line(*step);
    let hex = |bytes: &[u8]| bytes.iter().map(|byte| format!("{byte:02x}")).collect::<String>();
    let [code, shown, reached] = [line[4], line[5], line[6]];
    format!("{} {} {shown} {reached} {}", hex(&line[..4]), code as char, hex(&line[7..]))
}

/// A run with this tape has these lines, one for each completed step, and this reply.
#[track_caller]
fn assert_lines(mut rig: Rig, tape: &[u8], reply: u32, expected: &[&str]) {
    let (outcome, steps) = observe(&mut rig, tape);
    let lines: Vec<String> = steps.iter().map(text).collect();
    assert_eq!(lines, expected);
    assert_eq!((outcome.reply.number(), outcome.steps), (reply, expected.len() as u64));
}

/// One step with these lines completes and has this line of the trace.
#[track_caller]
fn assert_line(rig: Rig, lines: u8, expected: &str) {
    assert_lines(rig, &[lines], 10, &[expected]);
}

/// A machine with ldr r3 at 0, and with this base, HWDBG and these watchpoints.
fn watched(base: u32, hwdbg: u32, wp0: u32, wp1: u32) -> Rig {
    let mut rig = Rig::with(&[LDR]);
    rig.set(5, base);
    (rig.state.hwdbg, rig.state.wp0, rig.state.wp1) = (hwdbg, wp0, wp1);
    rig
}

#[test]
fn a_line_has_eleven_bytes_numbers_big_endian() {
    let plain = Step { pc: 0x0123_4568, entry: None, address: None };
    assert_eq!(trace_line(plain), [1, 0x23, 0x45, 0x68, b'-', 0, 0, 0, 0, 0, 0]);
    let data = Step { address: Some(0x89ab_cdef), ..plain };
    assert_eq!(trace_line(data), [1, 0x23, 0x45, 0x68, b'-', 0, 1, 0x89, 0xab, 0xcd, 0xef]);
    // An address of 0 is one.
    let data = Step { address: Some(0), ..plain };
    assert_eq!(trace_line(data), [1, 0x23, 0x45, 0x68, b'-', 0, 1, 0, 0, 0, 0]);
}

#[test]
fn an_instruction_without_data_shows_its_program_counter_alone() {
    // movi r1,16; sj +2 bytes; mfsfr r1,psw; jl +4 bytes over two halves; movi at 10.
    let rig = Rig::with(&[MOVI, 0xf401, 0x1210, 0xf800, 0x0002, MOVI]);
    let expected = [
        "00000000 - 0 0 00000000",
        "00000002 - 0 0 00000000",
        "00000004 - 0 0 00000000",
        "00000006 - 0 0 00000000",
        "0000000a - 0 0 00000000",
    ];
    assert_lines(rig, &[0; 5], 10, &expected);
}

/// "swint ... puts its 4 bits in PSW 19:16."
#[test]
fn swint_shows_its_four_bits() {
    assert_line(Rig::with(&[0x1003]), 0, "00000000 s 3 0 00000000");
    for code in 0..16 {
        assert_line(Rig::with(&[0x1000 | code]), 0, &format!("00000000 s {code} 0 00000000"));
    }
}

/// HWDBG bit 6, so 1, whichever of the two it is; what was hit before isn't shown.
#[test]
fn a_breakpoint_shows_bp() {
    let broken = |enables: u32, bp0, bp1| {
        let mut rig = Rig::with(&[MOVI, MOVI]);
        rig.state.hwdbg = 0b1_1000_0011 | enables << 2;
        (rig.state.pc, rig.state.bp0, rig.state.bp1) = (2, bp0, bp1);
        rig
    };
    assert_line(broken(0b01, 2, 0), 0, "00000002 d 1 0 00000000");
    assert_line(broken(0b10, 0, 2), 0, "00000002 d 1 0 00000000");
    assert_line(broken(0b11, 2, 2), 0, "00000002 d 1 0 00000000");
    assert_line(broken(0b00, 2, 2), 0, "00000002 - 0 0 00000000");
}

/// HWDBG bits 7 and 8, so 2 and 4; the load was done, so its address is shown too.
#[test]
fn watchpoints_show_which_of_them_are_hit() {
    assert_line(watched(0x40, 0b01_0011, 0x40, 0x40), 0, "00000000 d 2 1 00000040");
    assert_line(watched(0x40, 0b10_0011, 0x40, 0x40), 0, "00000000 d 4 1 00000040");
    assert_line(watched(0x40, 0b11_0011, 0x40, 0x40), 0, "00000000 d 6 1 00000040");
    assert_line(watched(0x40, 0b11_0011, 0x40, 0x44), 0, "00000000 d 2 1 00000040");
    assert_line(watched(0x40, 0b11_0011, 0x44, 0x40), 0, "00000000 d 4 1 00000040");
    assert_line(watched(0x40, 0b00_0011, 0x40, 0x40), 0, "00000000 - 0 1 00000040");
    // What was hit before isn't shown.
    assert_line(watched(0x40, 0b1_0101_0011, 0x40, 0x40), 0, "00000000 d 2 1 00000040");
}

/// "comparing a watchpoint with the address before alignment" is an easy slip.
#[test]
fn a_watched_access_shows_the_address_after_alignment() {
    assert_line(watched(0x43, 0b11_0011, 0x40, 0x43), 0, "00000000 d 2 1 00000040");
    let mut stored = watched(0x43, 0b10_0011, 0, 0x42);
    stored.place(0, &[0xb035]); // strh r3 to r5
    assert_line(stored, 0, "00000000 d 4 1 00000042");
    let mut relative = watched(0, 0b01_0011, 0x48, 0);
    relative.place(2, &[0x4132]); // ldrpc r2 from 2 + 4 * 18
    relative.state.pc = 2;
    assert_line(relative, 0, "00000002 d 2 1 00000048");
}

#[test]
fn the_timer_shows_nothing_besides() {
    let mut rig = Rig::with(&[LDR]);
    rig.state.psw = IE | TE | 63 << 20;
    rig.state.pending = true;
    assert_line(rig, 63, "00000000 t 0 0 00000000");
}

/// "the lowest line i that is high and has enable bit 20+i set"
#[test]
fn an_external_interrupt_shows_its_line() {
    let permitting = |enables: u32| {
        let mut rig = Rig::with(&[LDR]);
        rig.state.psw = IE | enables << 20 | 63 << 26;
        rig
    };
    assert_line(permitting(0b101000), 0b111100, "00000000 e 3 0 00000000");
    for line in 0..6 {
        let expected = format!("00000000 e {line} 0 00000000");
        assert_line(permitting(63), 1 << line, &expected);
        assert_line(permitting(63), 64 - (1 << line), &expected);
    }
}

#[test]
fn loads_and_stores_show_the_aligned_address() {
    // movi r5,0x47; ldr r3 from r5; strh r3 to r5; ldrb r3 from r5+1; ldrpc r3 from 8 + 4 * 16; and
    // bits that are no instruction.
    let rig = Rig::with(&[0x7457, LDR, 0xb035, 0xc135, 0x4130, 0xfc00]);
    let expected = [
        "00000000 - 0 0 00000000",
        "00000002 - 0 1 00000044",
        "00000004 - 0 1 00000046",
        "00000006 - 0 1 00000048",
        "00000008 - 0 1 00000048",
    ];
    assert_lines(rig, &[0; 9], 13, &expected);
    // str r0 to r0: data at address 0 was reached.
    assert_line(Rig::with(&[0x9000]), 0, "00000000 - 0 1 00000000");
}

/// Line 16 of document 01: "0x4011 at 0x102 loads from 0x104".
#[test]
fn ldrpc_shows_the_aligned_address_of_the_sixteenth_line() {
    let mut rig = Rig::with(&[]);
    rig.remember(vec![0; 0x108]);
    rig.place(0x102, &[0x4011]);
    rig.state.pc = 0x102;
    assert_line(rig, 0, "00000102 - 0 1 00000104");
}

#[test]
fn a_stopping_step_has_no_line() {
    let moved = ["00000000 - 0 0 00000000"];
    // Bits that are no instruction; a jump through a marked register.
    assert_lines(Rig::with(&[MOVI, 0xfc00]), &[0; 3], 13, &moved);
    let mut marked = Rig::with(&[MOVI, 0x1c05]);
    marked.mark(5);
    assert_lines(marked, &[0; 3], 14, &moved);
    // A marked half.
    let mut marked = Rig::with(&[MOVI, MOVI]);
    marked.mark_byte(3);
    assert_lines(marked, &[0; 3], 12, &moved);
}

/// "the aligned data address, a data bus error's too" (document 02, ticket 9); a fetch has none.
#[test]
fn a_bus_error_shows_the_data_address_if_it_has_one() {
    let mut data = Rig::with(&[MOVI, LDR]);
    data.set(5, LENGTH + 3);
    data.place(16, &[0xfc00]);
    assert_lines(data, &[0; 3], 13, &["00000000 - 0 0 00000000", "00000002 b 0 1 00000080"]);
    let mut fetch = Rig::with(&[]);
    fetch.place(LENGTH - 2, &[MOVI]);
    fetch.place(16, &[0xfc00]);
    fetch.state.pc = LENGTH - 2;
    assert_lines(fetch, &[0; 3], 13, &["0000007e - 0 0 00000000", "00000080 b 0 0 00000000"]);
    // The second half of a long jump, and ldrpc.
    let mut second = Rig::with(&[]);
    second.place(LENGTH - 2, &[0xf000]);
    second.state.pc = LENGTH - 2;
    assert_line(second, 0, "0000007e b 0 0 00000000");
    assert_line(Rig::with(&[0x4230]), 0, "00000000 b 0 1 00000080");
}

#[test]
fn a_refused_run_and_a_run_without_steps_have_no_lines() {
    let mut refused = Rig::with(&[MOVI]);
    refused.state.pc = 1;
    assert_lines(refused, &[0; 3], 4, &[]);
    assert_lines(Rig::with(&[MOVI]), &[0, 64], 6, &[]);
    assert_lines(Rig::with(&[MOVI]), &[], 10, &[]);
    assert_lines(Rig::with(&[0xfc00]), &[0], 13, &[]);
}

/// A machine and a tape for a run that makes every entry. All handlers return at once; line 2 is
/// high in the sixth step, and the timer has fallen to 0 after the seventh.
fn eventful() -> (Rig, [u8; 12]) {
    let mut rig = Rig::with(&[0xf408]); // sj to 16
    for vector in [4, 8, 12] {
        rig.place(vector, &[0x1e02]); // jsfr ipc
    }
    rig.place(16, &[0x100b, LDR, MOVI, MOVI]); // swint 11 first
    rig.set(5, 0x43);
    (rig.state.hwdbg, rig.state.wp1, rig.state.bp0) = (0b10_0111, 0x40, 0x16);
    // The seven steps cost 2, 2, 2, 6, 2, 4 and 2.
    (rig.state.psw, rig.state.timer) = (IE | TE | 1 << 22, 20);
    (rig, [0, 0, 0, 0, 0, 1 << 2, 0, 0, 0, 0, 0, 0])
}

#[test]
fn a_run_with_every_entry() {
    let (rig, tape) = eventful();
    let expected = [
        "00000000 - 0 0 00000000",
        "00000010 s 11 0 00000000",
        "00000004 - 0 0 00000000",
        "00000012 d 4 1 00000040",
        "00000004 - 0 0 00000000",
        "00000014 e 2 0 00000000",
        "0000000c - 0 0 00000000",
        "00000014 t 0 0 00000000",
        "00000008 - 0 0 00000000",
        "00000014 - 0 0 00000000",
        "00000016 d 1 0 00000000",
        "00000004 - 0 0 00000000",
    ];
    assert_lines(rig, &tape, 10, &expected);
}

#[test]
fn the_nth_line_has_the_program_counter_after_n_minus_1_steps() {
    let (rig, tape) = eventful();
    let (outcome, steps) = observe(&mut rig.clone(), &tape);
    assert_eq!(steps.len() as u64, outcome.steps);
    for (before, step) in steps.into_iter().enumerate() {
        let mut after = rig.clone();
        assert_eq!(after.run(&tape[..before]), (10, before as u64));
        assert_eq!(trace_line(step)[..4], after.state.pc.to_be_bytes(), "after {before} steps");
    }
}

#[test]
fn a_run_is_made_of_steps() {
    // The swint's handler, at 4, is no instruction.
    let mut whole = Rig::busy(&[MOVI, MOVI, 0xfc00]);
    whole.place(0x20, &[0x7457, LDR, 0x1003]);
    (whole.state.pc, whole.state.ibase) = (0x20, 0);
    let mut stepped = whole.clone();
    let (outcome, shown) = observe(&mut whole, &[0; 9]);
    let mut steps = Vec::new();
    let reply = loop {
        match step(&mut stepped.state, &mut stepped.memory, &mut stepped.marks, 0) {
            Ok(step) => steps.push(step),
            Err(reply) => break reply,
        }
    };
    assert_eq!((outcome.reply, outcome.steps), (reply, 3));
    assert_eq!((shown, whole), (steps, stepped));
}
