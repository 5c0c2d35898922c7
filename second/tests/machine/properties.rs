//! What holds of every run, tried on pseudo-random inputs.

use std::collections::HashSet;

use second::isa::{decode, mnemonics, Instr};
use second::reply::Reply;
use second::run::{run, run_observed, Outcome};
use second::step::{Access, Entry, Step};

use crate::cases::Case;
use crate::generator::Generator;
use crate::rig::Rig;

const CASES: u32 = 20_000;

/// TF and CY of PSW.
const FLAGS: [u32; 2] = [1 << 8, 1 << 9];

fn rig(case: &Case) -> Rig {
    Rig { state: case.state.clone(), memory: case.memory.clone(), marks: case.marks.clone() }
}

fn for_each_case(seed: u64, mut check: impl FnMut(Case, &mut Generator)) {
    let mut generator = Generator::new(seed);
    for _ in 0..CASES {
        let case = generator.case();
        check(case, &mut generator);
    }
}

/// Runs with the whole tape as budget and gives the outcome, the machine after it and its steps.
fn observe(mut rig: Rig, tape: &[u8]) -> (Outcome, Rig, Vec<Step>) {
    let mut steps = Vec::new();
    let (state, memory, marks) = (&mut rig.state, &mut rig.memory, &mut rig.marks);
    let budget = tape.len() as u64;
    let outcome = run_observed(state, memory, marks, tape, budget, |step| steps.push(step));
    (outcome, rig, steps)
}

/// The machine with all marks taken away.
fn unmarked(mut rig: Rig) -> Rig {
    rig.state.registers.iter_mut().for_each(|register| register.marked = false);
    (rig.state.tf_marked, rig.state.cy_marked) = (false, false);
    rig.marks.fill(0);
    rig
}

/// The instruction at the program counter, of which the first half alone decides over mnemonic
/// and size.
fn instruction(rig: &Rig) -> Option<Instr> {
    let first = rig.memory.get(rig.state.pc as usize..)?.first_chunk().copied()?;
    decode(u16::from_be_bytes(first), 0)
}

/// Every entry with all that it can show. The bits of a hit are BP, WP0, WP1 and both of these.
fn every_entry() -> impl Iterator<Item = Entry> {
    let hits = [0b001, 0b010, 0b100, 0b110].map(|hits| Entry::Debug(hits << 6));
    let lines = (0..6).map(Entry::External);
    let bus_errors = [Access::Fetch, Access::Data].map(Entry::BusError);
    (0..16).map(Entry::Swint).chain(hits).chain([Entry::Timer]).chain(lines).chain(bus_errors)
}

/// The cases are no good if they don't come everywhere.
#[test]
fn the_cases_reach_every_stop_every_entry_and_every_mnemonic() {
    let (mut replies, mut entries, mut done) = (HashSet::new(), HashSet::new(), HashSet::new());
    let (mut steps, mut watched) = (0, 0);
    let is_hit = |entry| matches!(entry, Some(Entry::Debug(_)));
    for_each_case(1, |case, _| {
        let mut machine = rig(&case);
        for &lines in &case.tape {
            let instr = instruction(&machine);
            let (outcome, after, shown) = observe(machine, &[lines]);
            machine = after;
            replies.insert(outcome.reply);
            let [step] = shown[..] else { break };
            steps += 1;
            entries.insert(step.entry);
            watched += u32::from(is_hit(step.entry) && step.address.is_some());
            if step.entry.is_none() {
                done.insert(instr.expect("it was done").mnemonic());
            }
        }
    });
    assert_eq!(replies.len(), 4, "{replies:?}");
    assert_eq!(entries, every_entry().map(Some).chain([None]).collect());
    assert_eq!(done.len(), mnemonics().len() - 1, "all but swint, which is an entry");
    assert!(watched > 500, "{watched} watchpoints hit");
    assert!(steps > 7 * CASES, "only {steps} steps");
}

/// The data address of a load or store, "aligned down to the access size after the sum"; the base
/// of ldrpc is its own address.
fn data_address(rig: &Rig) -> Option<u32> {
    let (base, units, size) = match instruction(rig)? {
        Instr::Load { width, uimm4, rb, .. } | Instr::Store { width, uimm4, rb, .. } => {
            (rig.value(rb as usize), uimm4, width.bytes())
        }
        Instr::Ldrpc { uimm8, .. } => (rig.state.pc, uimm8, 4),
        _ => return None,
    };
    Some(base.wrapping_add(units * size) / size * size)
}

/// The entry that the state after it shows by PSW or HWDBG, and its vector.
fn shown_after(entry: Entry, rig: &Rig) -> (Entry, u32) {
    let (psw, hwdbg) = (rig.state.psw, rig.state.hwdbg);
    match entry {
        Entry::Swint(_) => (Entry::Swint(psw >> 16 & 0xf), 4),
        Entry::Debug(_) => (Entry::Debug(hwdbg & 0b1_1100_0000), 4),
        Entry::Timer => (Entry::Timer, 8),
        Entry::External(_) => {
            let line = (0..6).find(|line| psw >> 26 == 1 << line);
            (Entry::External(line.expect("one line is shown")), 12)
        }
        Entry::BusError(access) => {
            let bit = if access == Access::Fetch { 15 } else { 14 };
            assert_eq!(psw >> bit & 1, 1, "{access:?}");
            (entry, 16)
        }
    }
}

/// A step shows the program counter and the data address that the state before it has, and of its
/// entry what the state after it shows.
#[test]
fn each_step_shows_what_the_states_around_it_show() {
    for_each_case(10, |case, _| {
        let mut machine = rig(&case);
        for &lines in &case.tape {
            let before = machine.clone();
            let (_, after, shown) = observe(machine, &[lines]);
            machine = after;
            let [Step { pc, entry, address }] = shown[..] else { break };
            assert_eq!(pc, before.state.pc);
            if let Some(entry) = entry {
                let vector = machine.state.pc & 0xff;
                assert_eq!((entry, vector), shown_after(entry, &machine));
            }
            // These take the place of an instruction.
            let instead = matches!(entry, Some(Entry::Timer | Entry::External(_)))
                || entry == Some(Entry::Debug(1 << 6));
            assert_eq!(address, if instead { None } else { data_address(&before) });
        }
    });
}

#[test]
fn no_good_input_is_refused_and_a_state_in_form_stays_in_form() {
    for_each_case(2, |case, _| {
        let (outcome, after, shown) = observe(rig(&case), &case.tape);
        assert!(!outcome.reply.is_refusal(), "{case:x?}");
        assert!(after.state.in_form(), "{case:x?}");
        assert!(!past_end(&after.memory, &after.marks), "{case:x?}");
        assert_eq!(shown.len() as u64, outcome.steps);
        let used_up = outcome.steps == case.tape.len() as u64;
        assert_eq!(used_up, outcome.reply == Reply::BudgetUsed);
    });
}

#[test]
fn an_observed_run_is_the_run() {
    for_each_case(3, |case, _| {
        let (outcome, after, _) = observe(rig(&case), &case.tape);
        let mut plain = rig(&case);
        let answer = plain.run(&case.tape);
        assert_eq!((outcome.reply.number(), outcome.steps), answer);
        assert_eq!(plain, after);
    });
}

#[test]
fn a_run_of_n_and_m_steps_is_a_run_of_n_and_then_one_of_m() {
    for_each_case(4, |case, generator| {
        let (whole, after_whole, trace) = observe(rig(&case), &case.tape);
        let n = generator.below(case.tape.len() as u32 + 1) as usize;
        let (first, between, mut shown) = observe(rig(&case), &case.tape[..n]);
        if first.reply != Reply::BudgetUsed {
            assert_eq!((first, &between, &shown), (whole, &after_whole, &trace));
            return;
        }
        let (second, after, more) = observe(between, &case.tape[n..]);
        shown.extend(more);
        assert_eq!((second.reply, first.steps + second.steps), (whole.reply, whole.steps));
        assert_eq!((after, shown), (after_whole, trace));
    });
}

#[test]
fn the_stopping_step_changes_nothing() {
    for_each_case(5, |case, _| {
        let (outcome, after, _) = observe(rig(&case), &case.tape);
        let (completed, again, _) = observe(rig(&case), &case.tape[..outcome.steps as usize]);
        assert_eq!((completed.reply, completed.steps), (Reply::BudgetUsed, outcome.steps));
        assert_eq!(again, after);
    });
}

#[test]
fn with_nothing_marked_stops_12_and_14_never_come() {
    for_each_case(6, |case, _| {
        let (outcome, after, _) = observe(unmarked(rig(&case)), &case.tape);
        assert!(!matches!(outcome.reply, Reply::FetchMarked | Reply::OperandMarked), "{case:x?}");
        assert_eq!(after, unmarked(after.clone()), "no mark comes up");
    });
}

/// Marks decide over stops 12 and 14 and over marks, and over nothing else.
#[test]
fn marks_never_change_what_the_steps_make() {
    for_each_case(7, |case, _| {
        let (marked, after, trace) = observe(rig(&case), &case.tape);
        let (plain, plain_after, mut plain_trace) = observe(unmarked(rig(&case)), &case.tape);
        if matches!(marked.reply, Reply::FetchMarked | Reply::OperandMarked) {
            assert!(marked.steps <= plain.steps);
            plain_trace.truncate(trace.len());
            assert_eq!(trace, plain_trace);
        } else {
            assert_eq!((marked, unmarked(after), trace), (plain, plain_after, plain_trace));
        }
    });
}

fn marked_places(rig: &Rig) -> Vec<usize> {
    (0..rig.memory.len()).filter(|&place| rig.is_marked(place)).collect()
}

/// Other contents wherever there is a mark.
fn scramble(mut rig: Rig, generator: &mut Generator) -> Rig {
    for register in rig.state.registers.iter_mut().filter(|register| register.marked) {
        register.value = generator.word();
    }
    for (flag, marked) in FLAGS.into_iter().zip([rig.state.tf_marked, rig.state.cy_marked]) {
        if marked && generator.once_in(2) {
            rig.state.psw ^= flag;
        }
    }
    for place in marked_places(&rig) {
        rig.memory[place] = generator.word() as u8;
    }
    rig
}

/// The machine with all marked contents blotted out.
fn public(mut rig: Rig) -> Rig {
    for register in rig.state.registers.iter_mut().filter(|register| register.marked) {
        register.value = 0;
    }
    for (flag, marked) in FLAGS.into_iter().zip([rig.state.tf_marked, rig.state.cy_marked]) {
        if marked {
            rig.state.psw &= !flag;
        }
    }
    for place in marked_places(&rig) {
        rig.memory[place] = 0;
    }
    rig
}

/// Demand 3.
#[test]
fn two_runs_that_differ_only_in_marked_contents_agree() {
    let mut told_apart = 0;
    for_each_case(8, |case, generator| {
        let (first, second) = (rig(&case), scramble(rig(&case), generator));
        let (outcome, after, trace) = observe(first, &case.tape);
        let (other_outcome, other_after, other_trace) = observe(second, &case.tape);
        assert_eq!(outcome, other_outcome, "answer and step count");
        assert_eq!(trace, other_trace, "program counters and addresses");
        told_apart += u32::from(after != other_after && outcome.steps > 2);
        assert_eq!(public(after), public(other_after), "marks and unmarked contents");
    });
    assert!(told_apart > CASES / 10, "only {told_apart} pairs still differed at the end");
}

/// Whether any bit from the memory's length on is set.
fn past_end(memory: &[u8], marks: &[u8]) -> bool {
    (memory.len()..8 * marks.len()).any(|place| marks[place / 8] & 1 << (place % 8) != 0)
}

/// The refusal that document 01's table and ticket 7 give, fact by fact.
fn refusal(case: &Case, budget: u64) -> Option<u32> {
    let (state, length) = (&case.state, case.memory.len());
    let facts = [
        !(4..=65_536).contains(&length) || length % 4 > 0,
        case.marks.len() != length.div_ceil(8),
        past_end(&case.memory, &case.marks),
        state.pc % 2 == 1
            || state.psw >> 12 & 1 == 1
            || state.hwdbg % 4 != 3
            || state.hwdbg >= 512
            || state.pending && state.timer > 0,
        (case.tape.len() as u64) < budget,
        case.tape.iter().take(budget as usize).any(|&lines| lines >= 64),
    ];
    (1..).zip(facts).find_map(|(number, fact)| fact.then_some(number))
}

/// Damages some part of a case, mostly so that it must be refused.
fn damage(case: &mut Case, budget: &mut u64, generator: &mut Generator) {
    let place = generator.below(case.memory.len() as u32) as usize;
    let last = case.marks.len() - 1;
    match generator.below(8) {
        0 => case.memory.truncate(place),
        1 => case.marks.resize(place, 0),
        2 => {
            case.memory.truncate(case.memory.len().saturating_sub(4));
            case.marks[last] = generator.word() as u8;
        }
        3 => case.state.pc = generator.word(),
        4 => case.state.psw |= generator.word() & 1 << 12,
        5 => case.state.hwdbg ^= 1 << generator.below(32),
        6 => case.state.pending = true,
        _ => {
            *budget = u64::from(generator.below(160));
            case.tape.iter_mut().for_each(|lines| {
                *lines ^= if generator.once_in(50) { 64 } else { 0 };
            });
        }
    }
}

#[test]
fn damaged_inputs_get_the_first_refusal_that_fits_and_nothing_changes() {
    let mut seen = HashSet::new();
    for_each_case(9, |mut case, generator| {
        let mut budget = case.tape.len() as u64;
        for _ in 0..1 + generator.below(3) {
            if !case.memory.is_empty() && !case.marks.is_empty() {
                damage(&mut case, &mut budget, generator);
            }
        }
        let mut machine = rig(&case);
        let (state, memory, marks) = (&mut machine.state, &mut machine.memory, &mut machine.marks);
        let outcome = run(state, memory, marks, &case.tape, budget);
        let refused = outcome.reply.is_refusal().then_some(outcome.reply.number());
        assert_eq!(refused, refusal(&case, budget), "{case:x?}");
        if refused.is_some() {
            assert_eq!((outcome.steps, machine), (0, rig(&case)));
        }
        seen.insert(refused);
    });
    assert_eq!(seen.len(), 7, "{seen:?}");
}
