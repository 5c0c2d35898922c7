//! The generated cases of the corpus come to bus errors of every kind, in machines of every kind.

use std::collections::BTreeMap;

use second::corpus::{cases, Case};
use second::isa::{decode, Instr};
use second::run::Outcome;
use second::state::{hwdbg, psw};
use second::step::{step, Access, Entry};

/// The instruction that a machine comes to, by its first half; none if that is outside.
fn instruction(case: &Case) -> Option<Instr> {
    let first = case.memory.get(case.state.pc as usize..)?.first_chunk().copied()?;
    decode(u16::from_be_bytes(first), 0)
}

/// Of which access a bus error is.
fn kind(case: &Case, access: Access) -> String {
    match (access, instruction(case)) {
        (Access::Fetch, None) => "the first half".into(),
        (Access::Fetch, Some(_)) => "the second half".into(),
        (Access::Data, instr) => instr.expect("a load or store").mnemonic().into(),
    }
}

/// How the machine stands before a bus error, in which data would be at this address.
fn circumstances(case: &Case, address: Option<u32>) -> Vec<&'static str> {
    let state = &case.state;
    let is = |bit| state.psw & bit != 0;
    let watched =
        |bit, place| state.hwdbg & bit != 0 && address.is_some_and(|address| address == place);
    let rd = instruction(case).and_then(|instr| instr.operands()[0]).unwrap_or(0);
    let facts = [
        (is(psw::IP), "IP is 1"),
        (!is(psw::IP), "IP is 0"),
        (is(psw::BIP), "BIP is 1"),
        (!is(psw::IE), "IE is 0"),
        (is(psw::DBER), "DBER is 1"),
        (is(psw::IBER), "IBER is 1"),
        (is(psw::TE) && (1..=4).contains(&state.timer), "TIMER comes to 0"),
        (is(psw::TE) && state.timer > 4, "TIMER falls"),
        (state.ibase & !0xff | 16 >= case.memory.len() as u32, "the handler is outside"),
        (address.is_some() && state.registers[rd as usize].marked, "Rd is marked"),
        (watched(hwdbg::WP0, state.wp0), "WP0 is there"),
        (watched(hwdbg::WP1, state.wp1), "WP1 is there"),
    ];
    facts.into_iter().filter(|(holds, _)| *holds).map(|(_, fact)| fact).collect()
}

/// Counts what is true of the bus errors of a case.
fn count(mut case: Case, counts: &mut BTreeMap<String, u32>) {
    let (Outcome { steps, .. }, _) = case.run();
    let tape = case.tape.clone();
    for &lines in &tape[..steps as usize] {
        let before = case.clone();
        let shown = step(&mut case.state, &mut case.memory, &mut case.marks, lines);
        let shown = shown.expect("it was completed");
        if let Some(Entry::BusError(access)) = shown.entry {
            *counts.entry(kind(&before, access)).or_default() += 1;
            for fact in circumstances(&before, shown.address) {
                *counts.entry(format!("{access:?}: {fact}")).or_default() += 1;
            }
        }
    }
}

#[test]
fn the_generated_cases_come_to_every_kind_of_bus_error() {
    let mut counts = BTreeMap::new();
    let generated = cases().into_iter().filter(|case| case.name.starts_with("generated"));
    generated.for_each(|case| count(case, &mut counts));
    // Two kinds of fetch, seven of data; nine circumstances of a fetch, and three more of data.
    assert_eq!(counts.len(), 2 + 7 + 9 + 12, "{counts:#?}");
    assert!(counts.values().all(|&count| count >= 20), "{counts:#?}");
}
