//! Returns from nested entries: the files of `examples/` that `docs/EXAMPLES.md` walks through.

use second::script::answer;
use second::state::{psw, State};
use second::step::{step, Entry};

use crate::files::{example, file, image, listing, memory, values};

const INPUTS: [&str; 3] = ["nested.txt", "nested_lost.txt", "nested_saved.txt"];

/// The budget of all three.
const BUDGET: usize = 216;

fn page() -> String {
    file("docs/EXAMPLES.md")
}

/// One step: what it entered, where it began, and PSW after it.
struct Seen {
    entry: Option<Entry>,
    pc: u32,
    psw: u32,
}

impl Seen {
    /// IP and BIP.
    fn bits(&self) -> (bool, bool) {
        (self.psw & psw::IP != 0, self.psw & psw::BIP != 0)
    }
}

fn steps(name: &str) -> Vec<Seen> {
    let (mut state, mut memory) = (State::fresh(), memory(&example(name)));
    let mut marks = vec![0; memory.len().div_ceil(8)];
    let mut seen = || {
        let step = step(&mut state, &mut memory, &mut marks, 0).expect("no stop");
        Seen { entry: step.entry, pc: step.pc, psw: state.psw }
    };
    (0..BUDGET).map(|_| seen()).collect()
}

/// The handler's `jsfr`.
const HANDLER_END: u32 = 0x36;

/// The number of timer entries that find a timer handler at work.
fn interrupted(name: &str) -> usize {
    let (mut working, mut count) = (false, 0);
    for step in steps(name) {
        match step.entry {
            Some(Entry::Timer) => {
                count += usize::from(working);
                working = true;
            }
            _ => working &= step.pc != HANDLER_END,
        }
    }
    count
}

#[test]
fn the_handler_is_left_alone_until_it_returns() {
    assert_eq!(INPUTS.map(interrupted), [0, 7, 0]);
}

/// The bits of IP and BIP after each entry and return of the first tick, as the page's tables have
/// them.
#[test]
fn the_bits_move_as_the_page_says() {
    for name in INPUTS {
        let steps = steps(name);
        let first = steps.iter().position(|step| step.entry.is_some()).expect("an entry");
        let turns = steps[first..].iter().enumerate().filter_map(|(i, step)| {
            let what = match step.entry {
                Some(Entry::Timer) => "timer entry".into(),
                Some(Entry::Swint(n)) => format!("`swint` {n}"),
                _ if memory(&example(name))[step.pc as usize..][..2] == [0x1e, 2] => {
                    "`jsfr` of IPC".into()
                }
                _ => return None,
            };
            let (ip, bip) = step.bits();
            let pc = format!("{:04x}", step.pc);
            Some(format!("| {} | {pc} | {what} | {} | {} |\n", first + i + 1, ip as u8, bip as u8))
        });
        let table = turns.take(if name == "nested.txt" { 4 } else { 6 }).collect::<String>();
        assert!(page().contains(&table), "{name}:\n{table}");
    }
}

#[test]
fn a_tick_is_due_inside_the_handler() {
    let names = ["end", "r1", "r2", "r6", "r7"];
    let [nested, lost, saved] = INPUTS.map(|name| values(&example(name), names));
    let end = format!("10\t{BUDGET}");
    assert_eq!(nested, [&end, "00000008", "00000008", "00000000", "00000001"]);
    assert_eq!(lost, [&end, "00000008", "00000010", "00000008", "0000000f"]);
    assert_eq!(saved, [&end, "00000005", "0000000a", "00000000", "00000001"]);
}

#[test]
fn the_page_has_the_answers() {
    for name in INPUTS {
        let answer = answer(example(name).as_bytes());
        let shown = format!("    $ tools/manik examples/{name}\n\n```\n{answer}```\n");
        assert!(page().contains(&shown), "{name}:\n{answer}");
    }
}

#[test]
fn the_page_has_the_listings() {
    let shown = [
        ("nested", 0x10..0x1e),
        ("nested", 0x20..0x38),
        ("nested", 0x40..0x44),
        ("nested_lost", 0x40..0x52),
        ("nested_saved", 0x40..0x56),
    ];
    for (name, range) in shown {
        let memory = image(&format!("{name}.image"));
        assert_eq!(memory, self::memory(&example(&format!("{name}.txt"))));
        let call =
            format!("tools/manik-list examples/{name}.image {:#x} {:#x}", range.start, range.end);
        let block = format!("    $ {call}\n\n```\n{}```\n", listing(&memory, range));
        assert!(page().contains(&block), "{block}");
    }
}

/// All three inputs have the same vectors, main loop and timer handler.
#[test]
fn only_the_handler_of_swint_differs() {
    let [nested, lost, saved] = INPUTS.map(|name| memory(&example(name))[..0x40].to_vec());
    assert!(nested == lost && lost == saved);
}
