//! The comparer itself: its cases are the same each time, and it finds wrong models.

mod assembly;
mod listing;
mod many;
mod marks;

use second::corpus::{assemble, Line};
use second::record;
use second::state::{hwdbg, psw, State};

use crate::cases::Cases;
use crate::check::check;
use crate::machine::{blotted, by_library, by_second, scrambled, End, Input};
use crate::random::Random;
use crate::report;

/// The case with this number, and the numbers that are left for scrambling.
fn case(cases: &Cases, index: u64) -> (Input, Random) {
    let mut random = Random::new(7, index);
    (cases.case(&mut random), random)
}

#[test]
fn a_case_depends_on_its_seed_and_its_number_alone() {
    let (cases, others) = (Cases::new(), Cases::new());
    for index in [0, 1, 99, 12_345, u64::MAX] {
        let (input, _) = case(&cases, index);
        assert_eq!(case(&others, index).0, input);
        assert_ne!(case(&cases, index ^ 1).0, input);
        assert_ne!(cases.case(&mut Random::new(8, index)), input);
    }
}

#[test]
fn only_marked_contents_are_scrambled() {
    let cases = Cases::new();
    let mut changed = 0;
    for index in 0..1_000 {
        let (input, mut random) = case(&cases, index);
        let other = scrambled(&input, &mut random);
        let end = |Input { record, memory, marks, .. }: Input| {
            blotted(End { reply: 10, steps: 0, record, memory, marks })
        };
        changed += u32::from(other != input);
        assert_eq!((&other.tape, other.budget), (&input.tape, input.budget));
        assert_eq!(end(other), end(input));
    }
    assert!(changed > 500, "only {changed} of 1000 cases have marked contents");
}

/// Whether some early case tells this model from the second program.
fn is_found(model: impl Fn(&Input) -> End) -> bool {
    let cases = Cases::new();
    (0..1_000).any(|index| {
        let (input, mut random) = case(&cases, index);
        check(&input, &scrambled(&input, &mut random), &model).is_err()
    })
}

/// The end in which nothing happened.
fn untouched(input: &Input, reply: u32, steps: u64) -> End {
    let Input { record, memory, marks, .. } = input.clone();
    End { reply, steps, record, memory, marks }
}

#[test]
fn the_library_is_not_found_wrong() {
    assert!(!is_found(by_library));
}

/// The wrong models of document 01, "Holding the statements to the machine".
#[test]
fn wrong_models_are_found() {
    assert!(is_found(|input| untouched(input, 1, 0)), "refuses at once");
    assert!(is_found(|input| untouched(input, 13, 0)), "stops at once");
    assert!(is_found(|input| End { reply: 10, ..by_library(input) }), "constant reply");
    assert!(is_found(|input| {
        let End { reply, steps, .. } = by_library(input);
        untouched(input, reply, steps)
    }));
    assert!(is_found(|input| {
        let first = by_library(&Input { budget: input.budget.min(1), ..input.clone() });
        End { steps: by_library(input).steps, ..first }
    }));
    assert!(is_found(|input| {
        let end = by_library(input);
        End { steps: end.steps + u64::from(end.reply > 10), ..end }
    }));
}

/// Each makes one kind of small mistake, seldom.
#[test]
fn small_mistakes_are_found() {
    assert!(is_found(|input| {
        let mut end = by_library(input);
        if end.steps > 20 {
            end.marks.last_mut().into_iter().for_each(|mark| *mark ^= 1);
        }
        end
    }));
    assert!(is_found(|input| {
        let mut end = by_library(input);
        if end.reply == 3 {
            end.memory[0] ^= 1;
        }
        end
    }));
    assert!(is_found(|input| {
        let mut end = by_library(input);
        if end.reply == 0 {
            end.steps = 1;
        }
        end
    }));
    // A cycle too many after many steps.
    assert!(is_found(|input| {
        let mut end = by_library(input);
        if end.steps > 100 {
            end.record[135] ^= 1;
        }
        end
    }));
    // The mark of CY after a stop.
    assert!(is_found(|input| {
        let mut end = by_library(input);
        if end.reply == 14 {
            end.record[89] ^= 1;
        }
        end
    }));
}

/// A model that lets a marked register out, whatever the second program says of it.
#[test]
fn a_leak_shows_in_two_runs() {
    let cases = Cases::new();
    let leak = |input: &Input| {
        let mut end = by_second(input).end;
        if let Some(mut state) = record::read(&end.record) {
            state.usreg ^= state.registers[3].value & u32::from(state.registers[3].marked);
            end.record = record::write(&state).to_vec();
        }
        end
    };
    let found = (0..1_000).any(|index| {
        let (input, mut random) = case(&cases, index);
        let other = scrambled(&input, &mut random);
        blotted(leak(&input)) != blotted(leak(&other))
    });
    assert!(found);
}

/// An input with this code at 0 in 32 bytes, and so many steps with all lines low.
fn input(code: &[Line], state: &State, budget: usize) -> Input {
    let mut memory = assemble(code);
    memory.resize(32, 0);
    let (marks, tape) = (vec![0; 4], vec![0; budget]);
    Input { record: record::write(state).to_vec(), memory, marks, tape, budget: budget as u64 }
}

/// The lines on steps in what is written of a run.
fn step_lines(input: &Input) -> Vec<String> {
    let text = report::case(input, input);
    text.lines().filter(|line| line.starts_with("step")).map(String::from).collect()
}

#[test]
fn steps_count_from_1_and_the_stopping_one_is_shown() {
    let code: &[Line] = &[("movi", &[1, 16]), ("sjt", &[2])];
    let state = State { tf_marked: true, ..State::fresh() };
    let lines = step_lines(&input(code, &state, 9));
    let [first, stop] = &lines[..] else { panic!("{lines:?}") };
    let line = " 00000000\t7110\tmovi\tr1\t16";
    assert!(first.starts_with("step 1: ") && first.ends_with(line), "{first}");
    let words = "step 2 stops with 14 (a marked operand where none may be): pc 2 ";
    assert_eq!(*stop, words.to_string() + "00000002\tec02\tsjt\t6");
}

#[test]
fn a_stop_shows_bits_that_are_no_instruction() {
    let no_instruction = step_lines(&input(&[], &State { pc: 2, ..State::fresh() }, 1));
    let words = "step 1 stops with 13 (bits that are no instruction): pc 2 ";
    assert_eq!(no_instruction, [words.to_string() + "00000002\t0000\thalf\t0x0000"]);
}

#[test]
fn a_bus_error_shows_what_brought_it() {
    let outside = step_lines(&input(&[], &State { pc: 32, ..State::fresh() }, 1));
    let step = "step 1: Step { pc: 20, entry: Some(BusError(Fetch)), address: None } ";
    assert_eq!(outside, [step.to_string() + "outside memory"]);
    let mut cut = input(&[], &State { pc: 30, ..State::fresh() }, 1);
    cut.memory[30] = 0xf0;
    let step = "step 1: Step { pc: 1e, entry: Some(BusError(Fetch)), address: None } ";
    assert_eq!(step_lines(&cut), [step.to_string() + "0000001e\tf000\thalf\t0xf000"]);
    let mut state = State::fresh();
    state.registers[2].value = 33;
    let load = step_lines(&input(&[("ldr", &[1, 0, 2])], &state, 1));
    let step = "step 1: Step { pc: 0, entry: Some(BusError(Data)), address: Some(20) } ";
    assert_eq!(load, [step.to_string() + "00000000\t8012\tldr\tr1\t0\tr2"]);
}

/// An interrupt and a breakpoint take an instruction's place; a watchpoint comes after one.
#[test]
fn an_instruction_is_shown_only_if_it_was_done() {
    let code: &[Line] = &[("ldr", &[1, 0, 2])];
    let interrupt = State { psw: psw::IE | 1 << psw::ENABLE_SHIFT, ..State::fresh() };
    let mut external = input(code, &interrupt, 1);
    external.tape[0] = 1;
    let lines = step_lines(&external);
    assert_eq!(lines, ["step 1: Step { pc: 0, entry: Some(External(0)), address: None }"]);
    let breakpoint = State { hwdbg: hwdbg::AVAILABLE | hwdbg::BP0, ..State::fresh() };
    let lines = step_lines(&input(code, &breakpoint, 1));
    assert_eq!(lines, ["step 1: Step { pc: 0, entry: Some(Debug(40)), address: None }"]);
    let watchpoint = State { hwdbg: hwdbg::AVAILABLE | hwdbg::WP0, ..State::fresh() };
    let lines = step_lines(&input(code, &watchpoint, 1));
    let step = "step 1: Step { pc: 0, entry: Some(Debug(80)), address: Some(0) } ";
    assert_eq!(lines, [step.to_string() + "00000000\t8012\tldr\tr1\t0\tr2"]);
}

#[test]
fn a_long_run_shows_its_first_and_its_last_steps() {
    let lines = step_lines(&input(&[("sj", &[0])], &State::fresh(), 1_000));
    assert_eq!(lines.len(), 201);
    assert!(lines[99].starts_with("step 100: "));
    assert_eq!(lines[100], "steps 101 to 900 are left out");
    assert!(lines[101].starts_with("step 901: ") && lines[200].starts_with("step 1000: "));
}

#[test]
fn a_refused_run_shows_no_step() {
    assert_eq!(step_lines(&input(&[], &State { pc: 1, ..State::fresh() }, 1)), [""; 0]);
}

#[test]
fn the_scrambled_run_is_shown() {
    let mut state = State::fresh();
    state.registers[1].marked = true;
    let one = input(&[("sj", &[0])], &state, 1);
    state.registers[1].value = 0x5ca3b1ed;
    let other = input(&[("sj", &[0])], &state, 1);
    let text = report::case(&one, &other);
    let (first, scrambled) = text.split_once("\nScrambled run\n").expect("both runs");
    assert!(first.contains("r1 0* ") && !first.contains("5ca3b1ed"));
    assert_eq!(scrambled.matches("r1 5ca3b1ed* ").count(), 3, "{scrambled}");
    assert!(
        report::case(&one, &one).ends_with("Scrambled run\nthe same: no content was changed\n\n")
    );
}
