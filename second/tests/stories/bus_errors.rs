//! Bus errors and their handler: the files of `examples/` that `docs/EXAMPLES.md` walks through.

use second::listing::line_at;
use second::script::answer;
use second::state::{psw, State};
use second::step::{step, Access, Entry, Step};

use crate::files::{example, file, image, listing, memory, values};

const INPUTS: [&str; 2] = ["buserror", "buserror_lost"];

fn page() -> String {
    file("docs/EXAMPLES.md")
}

fn input(name: &str) -> String {
    example(&format!("{name}.txt"))
}

/// Every step of a run, with the state after it.
fn steps(name: &str) -> Vec<(Step, State)> {
    let (mut state, mut memory) = (State::fresh(), memory(&input(name)));
    let mut marks = vec![0; memory.len().div_ceil(8)];
    let mut seen = || {
        let step = step(&mut state, &mut memory, &mut marks, 0).expect("no stop");
        (step, state.clone())
    };
    (0..100).map(|_| seen()).collect()
}

/// The bus errors with their numbers, from 1.
fn bus_errors(name: &str) -> Vec<(usize, Access, Step, State)> {
    let numbered = (1..).zip(steps(name));
    let errors = numbered.filter_map(|(number, (step, state))| match step.entry {
        Some(Entry::BusError(access)) => Some((number, access, step, state)),
        _ => None,
    });
    errors.collect()
}

/// The page's table of the bus errors.
#[test]
fn every_bus_error_stands_on_the_page() {
    let memory = memory(&input("buserror"));
    let mut table = String::new();
    for (number, access, step, state) in bus_errors("buserror") {
        let (what, outside) = match access {
            Access::Fetch => ("the fetch".to_string(), step.pc),
            Access::Data => {
                let (line, _) = line_at(&memory, step.pc as usize, memory.len());
                let mnemonic = line.as_str().split('\t').nth(2).expect("a mnemonic").to_string();
                (format!("`{mnemonic}`"), step.address.expect("data"))
            }
        };
        let bit = |bit| u8::from(state.psw & bit != 0);
        let bits = format!("{} | {}", bit(psw::DBER), bit(psw::IBER));
        let (from, ipc) = (step.pc, state.ipc);
        table +=
            &format!("| {number} | {from:04x} | {what} | {outside:04x} | {ipc:04x} | {bits} |\n");
    }
    assert_eq!(table.lines().count(), 4);
    assert!(page().contains(&table), "{table}");
}

#[test]
fn the_handler_counts_them_and_finds_the_size() {
    let counted = values(&input("buserror"), ["end", "r0", "r2", "r3", "r5"]);
    assert_eq!(counted, ["10\t100", "00000050", "00000003", "00000001", "00000090"]);
    let memory = memory(&input("buserror"));
    assert_eq!((memory.len(), memory[0x40]), (0x50, 0x90));
    // It leaves PSW as it was, but for the two bits.
    let (_, last) = steps("buserror").pop().expect("a step");
    assert_eq!(last.psw & (psw::DBER | psw::IBER | psw::IP | psw::BIP), 0);
}

#[test]
fn with_ibase_outside_every_step_is_a_bus_error() {
    let errors = bus_errors("buserror_lost");
    let first = errors[0].0;
    assert!(page().contains(&format!("Step {first} is the first bus error")), "{first}");
    let numbers: Vec<usize> = errors.iter().map(|error| error.0).collect();
    assert_eq!(numbers, (first..=100).collect::<Vec<_>>());
    let (_, access, _, state) = errors.last().expect("a bus error");
    assert_eq!((*access, state.pc, state.ipc), (Access::Fetch, 0xffff_ff10, 0xffff_ff10));
    assert_eq!(errors[0].3.ipc, 0x38, "the way back, as long as it lasts");
}

#[test]
fn the_page_has_the_answers() {
    for name in INPUTS {
        let answer = answer(input(name).as_bytes());
        let shown = format!("    $ tools/manik examples/{name}.txt\n\n```\n{answer}```\n");
        assert!(page().contains(&shown), "{name}:\n{answer}");
    }
}

#[test]
fn the_page_has_the_listings() {
    for (name, range) in [("buserror", 0x10..0x2a), ("buserror", 0x30..0x4a)] {
        let memory = image(&format!("{name}.image"));
        let call =
            format!("tools/manik-list examples/{name}.image {:#x} {:#x}", range.start, range.end);
        let block = format!("    $ {call}\n\n```\n{}```\n", listing(&memory, range));
        assert!(page().contains(&block), "{block}");
    }
}

/// The two inputs differ in one instruction, the value of IBASE.
#[test]
fn only_ibase_differs() {
    let [good, lost] = INPUTS.map(|name| memory(&input(name)));
    let places: Vec<usize> = (0..good.len()).filter(|&place| good[place] != lost[place]).collect();
    assert_eq!(places, [0x30, 0x31]);
    assert!(listing(&lost, 0x30..0x32).ends_with("\tmovi\tr1\t-1\n"));
    assert!(page().contains("`movi r1,-1`"));
}
