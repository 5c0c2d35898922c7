//! The corpus of whole runs: the stored files are what this program computes, the edges do what
//! their names say, and together the cases come everywhere.

use std::collections::HashSet;
use std::fs;
use std::path::PathBuf;

use second::corpus::{
    answers_file, cases, cases_file, coverage, digest, edges, random, trace_line, Case, Promise,
    TraceLine, LONGEST_MEMORY, LONGEST_TAPE,
};
use second::record;
use second::run::{run_observed, Outcome};
use second::state::State;
use second::step::Access;

/// The bytes of a stored file; if it is missing, the message tells how to write it.
fn stored(name: &str, subcommand: &str) -> Vec<u8> {
    let path = PathBuf::from(env!("CARGO_MANIFEST_DIR")).join("../crates/vectors").join(name);
    fs::read(&path).unwrap_or_else(|error| {
        let path = path.display();
        panic!("{path}: {error}; write it with `cargo run --release -- {subcommand} > {path}`")
    })
}

/// The number and the name of the first case that the file doesn't hold; none if all agree.
fn first_differing_case(file: &[u8], cases: &[Case]) -> Option<String> {
    let mut rest = file;
    for (number, case) in (1..).zip(cases) {
        match rest.strip_prefix(&case.bytes()[..]) {
            Some(behind) => rest = behind,
            None => return Some(format!("case {number}, `{}`", case.name)),
        }
    }
    (!rest.is_empty()).then(|| format!("{} bytes behind the last case", rest.len()))
}

/// The number of the first line that differs, its case, and the line on both sides.
fn first_differing_line(file: &str, cases: &[Case]) -> Option<String> {
    let mut lines = file.split_inclusive('\n');
    for (number, case) in (1..).zip(cases) {
        let (line, answer) = (lines.next(), case.answer());
        if line != Some(&answer) {
            let name = &case.name;
            return Some(format!("line {number}, `{name}`: file {line:?}, computed {answer:?}"));
        }
    }
    lines.next().map(|line| format!("a line behind the last answer: {line:?}"))
}

#[test]
fn the_stored_cases_are_what_is_computed() {
    let file = stored("stdin", "corpus-cases");
    if let Some(difference) = first_differing_case(&file, &cases()) {
        panic!("crates/vectors/stdin differs from `corpus-cases` at {difference}");
    }
    assert_eq!(file, cases_file());
}

#[test]
fn the_stored_answers_are_what_is_computed() {
    let file = String::from_utf8(stored("stdout", "corpus-answers")).expect("plain text");
    if let Some(difference) = first_differing_line(&file, &cases()) {
        panic!("crates/vectors/stdout differs from `corpus-answers` at {difference}");
    }
    assert_eq!(file, answers_file());
}

#[test]
fn a_difference_is_named_by_its_case() {
    let cases = random(1, 3);
    let mut bytes: Vec<u8> = cases.iter().flat_map(Case::bytes).collect();
    let mut lines: String = cases.iter().map(Case::answer).collect();
    assert_eq!(first_differing_case(&bytes, &cases), None);
    assert_eq!(first_differing_line(&lines, &cases), None);
    bytes[cases[0].bytes().len() + 5] ^= 1;
    let case = first_differing_case(&bytes, &cases).expect("the second case differs");
    assert_eq!(case, "case 2, `generated 1`");
    lines.pop();
    let line = first_differing_line(&lines, &cases).expect("the last line has no newline");
    assert!(line.starts_with("line 3, `generated 2`: file Some("), "{line}");
    assert!(first_differing_line(&(lines + "\n0\n"), &cases).is_some());
}

/// Takes this many bytes away from the front.
fn take<'b>(bytes: &mut &'b [u8], count: usize) -> &'b [u8] {
    let (front, behind) = bytes.split_at(count);
    *bytes = behind;
    front
}

fn take_number(bytes: &mut &[u8]) -> u32 {
    u32::from_be_bytes(take(bytes, 4).try_into().expect("four bytes"))
}

/// The next case of a file, by `docs/CORPUS.md`.
fn read_case(bytes: &mut &[u8]) -> Case {
    let state = record::read(take(bytes, record::LENGTH)).expect("the record is good");
    let [memory, marks, tape] = [(); 3].map(|()| take_number(bytes) as usize);
    let budget = take_number(bytes);
    let [memory, marks, tape] = [memory, marks, tape].map(|length| take(bytes, length).to_vec());
    Case { name: String::new(), state, memory, marks, tape, budget, promise: None }
}

#[test]
fn the_stored_cases_read_back_give_the_stored_answers() {
    let (file, mut answers) = (stored("stdin", "corpus-cases"), String::new());
    let mut rest = &file[..];
    while !rest.is_empty() {
        let case = read_case(&mut rest);
        assert!(case.memory.len() <= LONGEST_MEMORY && case.marks.len() <= LONGEST_MEMORY);
        assert!(case.tape.len() <= LONGEST_TAPE);
        answers += &case.answer();
    }
    assert!(stored("stdout", "corpus-answers") == answers.as_bytes());
}

/// The bus error that a line of a trace shows.
fn bus_error(line: &TraceLine) -> Option<Access> {
    match (line[4], line[6]) {
        (b'b', 0) => Some(Access::Fetch),
        (b'b', _) => Some(Access::Data),
        _ => None,
    }
}

#[test]
fn the_edges_do_what_their_names_say() {
    for edge in edges() {
        let (outcome, after) = edge.run();
        let (reply, steps) = (outcome.reply.number(), outcome.steps);
        let bus_error = edge.trace(steps).last().and_then(bus_error);
        let cycles = after.state.cycles.wrapping_sub(edge.state.cycles);
        let answer = |said: Promise| {
            let cycles = said.cycles.map(|_| cycles);
            let mark_byte = said.mark_byte.map(|(place, _)| (place, after.marks[place]));
            Promise { reply, steps, bus_error, cycles, mark_byte }
        };
        assert_eq!(edge.promise, edge.promise.map(answer), "{}", edge.name);
        if outcome.steps == 0 {
            assert_eq!(after.bytes(), edge.bytes(), "{}", edge.name);
        }
    }
}

/// The outcome of a case, and the lines of what its run shows.
fn observe(case: &Case) -> (Outcome, Vec<TraceLine>) {
    let Case { mut state, mut memory, mut marks, tape, budget, .. } = case.clone();
    let mut lines = Vec::new();
    let show = |step| lines.push(trace_line(step));
    let outcome = run_observed(&mut state, &mut memory, &mut marks, &tape, budget.into(), show);
    (outcome, lines)
}

/// The digest of the trace as the answer has it.
fn trace_digest(case: &Case) -> u64 {
    let answer = case.answer();
    let fields: Vec<&str> = answer.trim_end().split('\t').collect();
    assert_eq!(fields.len(), 6, "{answer}");
    fields[5].parse().expect("a decimal")
}

/// The digests are those of the eleven bytes 0 0 0 0 's' 3 0 0 0 0 0, and of these and
/// 0 0 0 4 '-' 0 1 0 0 0 8, by `docs/CORPUS.md`.
#[test]
fn the_last_field_of_an_answer_is_the_digest_of_the_trace() {
    let mut memory = vec![0; 16];
    memory[..2].copy_from_slice(&[0x10, 0x03]); // swint 3
    memory[4..6].copy_from_slice(&[0x40, 0x11]); // ldrpc r1 from 4 + 4 * 1
    let (marks, tape, state) = (vec![0; 2], vec![0; 2], State::fresh());
    let name = "swint and ldrpc".to_string();
    let mut case = Case { name, state, memory, marks, tape, budget: 2, promise: None };
    assert_eq!(trace_digest(&case), 2_634_015_401);
    case.budget = 1;
    assert_eq!(trace_digest(&case), 2_988_234_681);
    case.budget = 0;
    assert_eq!(trace_digest(&case), 1, "no steps");
    case.budget = 3;
    assert_eq!(trace_digest(&case), 1, "refused: the tape is shorter than the budget");
}

#[test]
fn a_trace_has_a_line_for_each_step_that_the_run_completes() {
    for case in cases() {
        let (outcome, lines) = observe(&case);
        assert_eq!(lines.len() as u64, outcome.steps, "{}", case.name);
        assert_eq!(lines, case.trace(outcome.steps), "{}", case.name);
        assert_eq!(trace_digest(&case), digest(lines.as_flattened()), "{}", case.name);
    }
}

/// The n-th line has the program counter after a run of n - 1 steps.
#[test]
fn each_line_has_the_program_counter_that_the_steps_before_it_left() {
    for case in cases() {
        let (_, lines) = observe(&case);
        for (steps, line) in (0..).zip(&lines) {
            let (_, after) = Case { budget: steps, ..case.clone() }.run();
            assert_eq!(line[..4], after.state.pc.to_be_bytes(), "{}, {steps} steps", case.name);
        }
    }
}

/// A program that shows less than this, or more, has another digest somewhere.
#[test]
fn the_traces_have_every_entry_with_all_that_it_can_show() {
    let lines = cases().into_iter().flat_map(|case| observe(&case).1);
    let shown: HashSet<(char, u8)> = lines.map(|line| (line[4].into(), line[5])).collect();
    let swint = (0..16).map(|bits| ('s', bits));
    let external = (0..6).map(|line| ('e', line));
    let others = [('-', 0), ('d', 1), ('d', 2), ('d', 4), ('d', 6), ('t', 0), ('b', 0)];
    assert_eq!(shown, swint.chain(external).chain(others).collect());
}

#[test]
fn every_case_has_its_own_name() {
    let cases = cases();
    let mut names = HashSet::new();
    for case in &cases {
        assert!(names.insert(&case.name), "two cases are called `{}`", case.name);
    }
    let distinct: HashSet<Vec<u8>> = cases.iter().map(Case::bytes).collect();
    assert!(distinct.len() * 100 >= cases.len() * 95, "only {} differ", distinct.len());
}

#[test]
fn no_line_of_the_coverage_is_zero() {
    let coverage = coverage(&cases());
    for (kind, name, count) in &coverage.lines {
        assert!(*count > 0, "no {kind} {name}");
    }
    let of = |kind| coverage.lines.iter().filter(|line| line.0 == kind).count();
    assert_eq!((of("step"), of("reply"), of("entry"), of("marks")), (59, 10, 7, 11));
}

#[test]
fn the_file_of_cases_stays_small() {
    let length = cases_file().len();
    assert!(length < 1_600_000, "{length} bytes");
}

/// By hand: 1, then 1 * 1000003 + 5, then that * 1000003 + 255 less 232 times 4294967291.
#[test]
fn a_digest_starts_at_1_and_folds_each_byte() {
    assert_eq!(digest(&[]), 1);
    assert_eq!(digest(&[5]), 1_000_008);
    assert_eq!(digest(&[5, 255]), (1_000_008 * 1_000_003 + 255) - 232 * 4_294_967_291);
}
