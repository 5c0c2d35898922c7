//! Shifts by constant and by secret amounts: the files of `examples/` that `docs/EXAMPLES.md` walks
//! through, and what they cost.

use second::run::{run, Outcome};
use second::script::answer;
use second::state::State;

use crate::files::{example, file, image, listing, memory, values};

/// Where the key lies, and the two keys.
const KEY: usize = 0x28;
const ONE: &[u8; 16] = b"NOTARY KEY STATE";
const OTHER: &[u8; 16] = b"KEY9KEY9KEY9KEY9";

fn page() -> String {
    file("docs/EXAMPLES.md")
}

fn input(name: &str) -> String {
    example(&format!("{name}.txt"))
}

/// The run of an input with this key, marked or not: the outcome and the state after it.
fn outcome(name: &str, key: &[u8; 16], marked: bool) -> (Outcome, State) {
    let (mut state, mut memory) = (State::fresh(), memory(&input(name)));
    memory[KEY..KEY + 16].copy_from_slice(key);
    let mut marks = vec![0; memory.len().div_ceil(8)];
    marks[KEY / 8..KEY / 8 + 2].fill(if marked { 0xff } else { 0 });
    let outcome = run(&mut state, &mut memory, &mut marks, &[0; 100], 100);
    (outcome, state)
}

/// Keys of many kinds, the two of the page first.
fn keys() -> Vec<[u8; 16]> {
    let filled = (0..=255).map(|byte| [byte; 16]);
    let counted = (0..16).map(|first| std::array::from_fn(|place| first * 16 + place as u8));
    [*ONE, *OTHER].into_iter().chain(filled).chain(counted).collect()
}

#[test]
fn constant_amounts_cost_the_same_for_every_key() {
    let (first, _) = outcome("shifts", ONE, true);
    assert_eq!((first.reply.number(), first.steps), (10, 100));
    for key in keys() {
        for marked in [false, true] {
            let (other, state) = outcome("shifts", &key, marked);
            assert_eq!((other, state.cycles), (first, first.cycles), "{key:x?}");
        }
    }
}

/// The stop comes before the shift, so the key shows neither in the cycles nor anywhere else.
#[test]
fn secret_amounts_stop_for_every_key() {
    let (first, _) = outcome("shifts_secret", ONE, true);
    assert_eq!((first.reply.number(), first.steps), (14, 9));
    for key in keys() {
        assert_eq!(outcome("shifts_secret", &key, true).0, first, "{key:x?}");
    }
}

/// Without marks the run goes on, and its cycles tell keys apart.
#[test]
fn unmarked_secret_amounts_show() {
    let cycles = |key| outcome("shifts_secret", key, false).1.registers[9].value;
    let (one, other) = (cycles(ONE), cycles(OTHER));
    assert_ne!(one, other);
    for value in [one, other] {
        assert!(page().contains(&format!("```\nr9\t{value:08x}\n```\n")), "{value:08x}");
    }
}

/// The page's table of cycles.
#[test]
fn the_page_has_the_cycles() {
    let rows = [
        ("shifts", "shifts", ONE),
        ("shifts_other", "shifts", OTHER),
        ("shifts_secret", "shifts_secret", ONE),
    ];
    for (name, code, key) in rows {
        let (Outcome { reply, steps, cycles }, _) = outcome(code, key, true);
        assert_eq!(memory(&input(name))[KEY..KEY + 16], *key);
        let row = format!("| `{name}.txt` | {} | {steps} | {cycles} |\n", reply.number());
        assert!(page().contains(&row), "{row}");
    }
}

#[test]
fn the_page_has_the_answers() {
    for name in ["shifts", "shifts_secret"] {
        let answer = answer(input(name).as_bytes());
        let shown = format!("    $ tools/manik examples/{name}.txt\n\n```\n{answer}```\n");
        assert!(page().contains(&shown), "{name}:\n{answer}");
    }
    assert_eq!(answer(input("shifts").as_bytes()), answer(input("shifts_other").as_bytes()));
    let watch = values(&input("shifts"), ["r8", "r9"]);
    assert_eq!(watch, ["ffffffca", "00000035"]);
}

#[test]
fn the_page_has_the_listing() {
    let block = listing(&image("shifts.image"), 0..0x24);
    let call = "    $ tools/manik-list examples/shifts.image 0 0x24\n\n";
    assert!(page().contains(&format!("{call}```\n{block}```\n")), "{block}");
}

/// One instruction differs: where the amount comes from.
#[test]
fn only_the_amount_differs() {
    let [constant, other, secret] =
        ["shifts", "shifts_other", "shifts_secret"].map(|name| memory(&input(name)));
    assert_eq!(constant[..KEY], other[..KEY]);
    let places = (0..constant.len()).filter(|&place| constant[place] != secret[place]);
    assert_eq!(places.collect::<Vec<_>>(), [0x0e, 0x0f]);
    assert!(listing(&secret, 0x0e..0x10).ends_with("\tmov\tr4\tr6\n"));
    assert!(page().contains("`mov r4,r6`"));
}
