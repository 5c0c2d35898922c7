//! How states and replies are written: marked contents never show, and the words are document 01's.

use manik::{Outcome, Register, Reply, State};

const TF: u32 = 1 << 8;
const CY: u32 = 1 << 9;

/// A state with some contents; r1, r2 and TF are marked.
fn state() -> State {
    let mut state = State::fresh();
    state.registers[1] = Register { value: 0xdead_beef, marked: true };
    state.registers[2] = Register { value: 0, marked: true };
    state.registers[15].value = 0x20;
    (state.pc, state.psw, state.tf_marked) = (0x1234, 0x0040_0020 | TF | CY, true);
    (state.ibase, state.timer) = (0x100, 7);
    state
}

/// The same state with other contents wherever it is marked.
fn other_secrets() -> State {
    let mut state = state();
    (state.registers[1].value, state.registers[2].value) = (0, 0x5ec4_e700);
    state.psw &= !TF;
    state
}

#[test]
fn the_lines_of_a_state() {
    assert_eq!(State::fresh().to_string(), "pc\t00000000\nhwdbg\t00000003");
    let lines = [
        "pc\t00001234",
        "r1\t********",
        "r2\t********",
        "r15\t00000020",
        "tf\t********",
        "cy\t1",
        "psw\t00400020",
        "timer\t00000007",
        "ibase\t00000100",
        "hwdbg\t00000003",
    ];
    assert_eq!(state().to_string(), lines.join("\n"));
}

#[test]
fn every_content_has_a_line() {
    let mut state = State::fresh();
    state.registers.fill(Register { value: 1, marked: false });
    (state.psw, state.pending, state.ra, state.ipc) = (1 | TF | CY, true, 2, 3);
    (state.timer, state.ibase, state.usreg, state.hwdbg) = (4, 5, 6, 7);
    (state.bp0, state.bp1, state.wp0, state.wp1, state.cycles) = (8, 9, 10, 11, 0xfedc_ba98);
    let text = state.to_string();
    let registers: String = (0..16).map(|n| format!("r{n}\t00000001\n")).collect();
    assert!(text.starts_with(&format!("pc\t00000000\n{registers}tf\t1\ncy\t1\npsw\t00000001\n")));
    let names = ["ra", "ipc", "timer", "ibase", "usreg", "hwdbg", "bp0", "bp1", "wp0", "wp1"];
    let special: String =
        (2..).zip(names).map(|(value, name)| format!("{name}\t{value:08x}\n")).collect();
    assert!(text.ends_with(&format!("{special}pending\t1\ncycles\tfedcba98")), "{text}");
}

#[test]
fn marked_contents_never_show() {
    let (one, other) = (state(), other_secrets());
    assert_ne!(one, other);
    assert_eq!(one.to_string(), other.to_string());
    assert_eq!(format!("{one:?}"), format!("{other:?}"));
    assert_eq!(format!("{one:#?}"), format!("{other:#?}"));
    assert_eq!(format!("{one:x?}"), format!("{other:x?}"));
    assert_eq!(format!("{:?}", one.registers), format!("{:?}", other.registers));
    let mut cy_marked = State { cy_marked: true, ..state() };
    let text = format!("{cy_marked:?}");
    cy_marked.psw ^= CY;
    assert_eq!(format!("{cy_marked:?}"), text);
}

/// Two states that look the same in `Debug` differ in marked contents alone.
#[test]
fn unmarked_contents_show_in_debug() {
    let text = format!("{:?}", state());
    let changes: [fn(&mut State); 9] = [
        |state| state.pc += 2,
        |state| state.registers[0].value = 1,
        |state| state.registers[1].marked = false,
        |state| state.registers[0].marked = true,
        |state| state.psw ^= CY,
        |state| state.psw ^= 1,
        |state| state.wp1 = 1,
        |state| state.pending = true,
        |state| state.cycles = 1,
    ];
    for (number, change) in changes.into_iter().enumerate() {
        let mut other = state();
        change(&mut other);
        assert_ne!(format!("{other:?}"), text, "change {number}");
    }
}

#[test]
fn the_debug_text() {
    let text = format!("{:?}", state());
    let start = "State { pc: 00001234, r0: 00000000, r1: ********, r2: ********, r3: 00000000, ";
    assert!(text.starts_with(start), "{text}");
    let end = "r15: 00000020, tf: ********, cy: 1, psw: 00400020, ra: 00000000, ipc: 00000000, \
               timer: 00000007, ibase: 00000100, usreg: 00000000, hwdbg: 00000003, bp0: 00000000, \
               bp1: 00000000, wp0: 00000000, wp1: 00000000, pending: 0, \
               cycles: 00000000 }";
    assert!(text.ends_with(end), "{text}");
    let register = Register { value: 0x20, marked: false };
    assert_eq!(format!("{register:?}"), "Register { value: 00000020, marked: false }");
    let register = Register { value: 0x20, marked: true };
    assert_eq!(format!("{register:?}"), "Register { value: ********, marked: true }");
}

/// The words of `include/manik.h`, behind each number.
#[test]
fn replies_have_the_words_of_the_header() {
    let header = include_str!("../../../include/manik.h");
    let header = header.split_whitespace().collect::<Vec<_>>().join(" ");
    for reply in (0..32).filter_map(Reply::from_number) {
        let number = reply.number();
        let line = [format!(" = {number}, /* {reply} */"), format!(" = {number} /* {reply} */")];
        assert!(line.iter().any(|line| header.contains(line)), "{number}: {reply}");
    }
}

#[test]
fn an_outcome_in_words() {
    let outcome = Outcome { reply: Reply::OperandMarked, steps: 138, cycles: 7 };
    assert_eq!(outcome.to_string(), "reply 14, steps 138: a marked operand where none may be");
}
