//! Marks as bits (document 02, ticket 7): the mark slice's length, bits past the memory's end, and
//! each place in a mark byte.

use super::accesses::ACCESSES;
use crate::corpus::build::{edge, Line, LENGTH};
use crate::corpus::Case;
use crate::step::Access;

pub fn cases() -> Vec<Case> {
    [slices(), past_end(), fetches(), loads(), stores(), half_byte(), outside()].concat()
}

/// A word whose bytes differ.
const WORD: u32 = 0x1234_5678;

/// A movi in a memory of this length.
fn movi(name: String, length: u32) -> Case {
    edge(name, &[]).length(length).at(0, &[("movi", &[1, 16])])
}

/// Refusal 2: slices of other lengths than the memory's divided by 8, rounded up.
fn slices() -> Vec<Case> {
    let mut cases = Vec::new();
    for (length, room) in [(4, 1), (8, 1), (12, 2), (16, 2), (20, 3), (60, 8), (64, 8)] {
        let slice = |what: &str, bytes: usize| {
            movi(format!("{length} bytes with {what}"), length).mark_slice(&vec![0; bytes])
        };
        cases.extend([
            slice("the mark slice that they take", room).gives(10, 1),
            slice("no mark slice", 0).gives(2, 0),
            slice("a mark byte too many", room + 1).gives(2, 0),
            slice("a mark byte for each", length as usize).gives(2, 0),
        ]);
        if room > 1 {
            cases.push(slice("a mark byte too few", room - 1).gives(2, 0));
        }
    }
    let long = movi("65,536 bytes with a mark byte for each".to_string(), 65_536);
    cases.push(long.mark_slice(&[0; 65_536]).gives(2, 0));
    cases
}

/// Refusal 3: "a set bit past the memory's end". The bits before it are the last four bytes'.
fn past_end() -> Vec<Case> {
    let mut cases = Vec::new();
    for (length, room) in [(4, 1), (12, 2), (20, 3), (60, 8)] {
        let last = |what: &str, byte: u8| {
            let mut slice = vec![0; room];
            slice[room - 1] = byte;
            movi(format!("{length} bytes with {what}"), length).mark_slice(&slice)
        };
        for bit in 4..8 {
            let set = format!("bit {bit} of the last mark byte set");
            cases.push(last(&set, 1 << bit).gives(3, 0));
        }
        cases.extend([
            last("all bits past the end set", 0xf0).gives(3, 0),
            last("the first bit past the end set behind marks", 0x1c).gives(3, 0),
            last("the last two bytes marked", 0x0c).gives(10, 1).leaves(room - 1, 0x0c),
        ]);
    }
    // Nothing is past the end of a memory that fills its last mark byte.
    for (length, room) in [(8, 1), (16, 2), (64, 8)] {
        let full = movi(format!("{length} bytes with the last six marked"), length);
        cases.push(full.mark_all(length - 6..length).gives(10, 1).leaves(room - 1, 0xfc));
    }
    let long = movi("65,532 bytes with the first bit past the end set".to_string(), 65_532);
    cases.push(long.with(|case| case.marks[8_191] = 0x10).gives(3, 0));
    cases
}

/// Instructions at each place of a mark byte, with each of their bytes marked alone, and with all
/// bytes but theirs marked.
fn fetches() -> Vec<Case> {
    let code: [(Line, u32); 2] = [(("movi", &[1, 16]), 2), (("jl", &[4]), 4)];
    let mut cases = Vec::new();
    for (line, size) in code {
        for at in [0x20, 0x22, 0x24, 0x26] {
            let case = |what: String| {
                edge(format!("{} at {at:#x} with {what}", line.0), &[]).at(at, &[line]).pc(at)
            };
            for place in at..at + size {
                cases.push(case(format!("{place:#x} marked")).mark(place).gives(12, 0));
            }
            let around = case("all others marked".to_string());
            cases.push(around.mark_all(0..at).mark_all(at + size..LENGTH));
        }
    }
    cases
}

/// The aligned addresses in the mark byte of 0x20 to 0x27.
fn aligned(size: u32) -> impl Iterator<Item = u32> {
    (0x20..0x28).step_by(size as usize)
}

/// Loads at each place of a mark byte, with each of their bytes marked alone, and with all bytes
/// but theirs and the code's marked. A jump by what was loaded tells whether it is marked.
fn loads() -> Vec<Case> {
    let mut cases = Vec::new();
    for (name, size) in &ACCESSES[..3] {
        for at in aligned(*size) {
            let case = |what: String| {
                let code: &[Line] = &[(name, &[3, 0, 5]), ("jr", &[3])];
                edge(format!("{name} at {at:#x} with {what}, then jr"), code)
                    .register(5, at)
                    .steps(2)
            };
            for place in at..at + size {
                cases.push(case(format!("only {place:#x} marked")).mark(place).gives(14, 1));
            }
            let around = case("all other data marked".to_string());
            cases.push(around.mark_all(4..at).mark_all(at + size..LENGTH));
        }
    }
    cases
}

/// Stores at each place of a mark byte. Of the marks in that byte only the stored bytes' change.
fn stores() -> Vec<Case> {
    let mut cases = Vec::new();
    for (name, size) in &ACCESSES[3..] {
        for at in aligned(*size) {
            let stored = (at..at + size).fold(0, |bits, place| bits | 1 << (place - 0x20));
            for before in [0, 0xff, 0xaa, 0x55] {
                let case = |what: &str| {
                    edge(format!("{name} {what} at {at:#x} over {before:#04x}"), &[])
                        .at(0, &[(name, &[3, 0, 5])])
                        .with(|case| case.marks[3..6].copy_from_slice(&[!before, before, !before]))
                };
                let marked = case("of a marked register").marked(3, WORD).register(5, at);
                let unmarked = case("of an unmarked register").register(5, at);
                cases.push(marked.gives(10, 1).leaves(4, before | stored));
                cases.push(unmarked.gives(10, 1).leaves(4, before & !stored));
            }
        }
    }
    cases
}

/// Stores into the last word, whose mark byte is half past the end: no bit there comes up, so that
/// the next call is not refused.
fn half_byte() -> Vec<Case> {
    let mut cases = Vec::new();
    for (name, size) in &ACCESSES[3..] {
        for (length, place) in [(12, 1), (20, 2), (60, 7)] {
            let case = |what: &str, marked: bool| {
                let case = edge(format!("{name} {what} at the end of {length} bytes"), &[])
                    .length(length)
                    .at(0, &[(name, &[3, 0, 5])]);
                let case = if marked { case.marked(3, WORD) } else { case };
                case.register(5, length - 1)
            };
            let stored = 0x0f & !(0x0f >> size);
            let over = case("of an unmarked register over marks", false);
            cases.push(case("of a marked register", true).leaves(place, stored));
            cases.push(over.mark_all(length - 4..length).leaves(place, 0x0f & !stored));
        }
    }
    let str = edge("a marked str at the end of 65,532 bytes", &[]).length(65_532);
    let str = str.at(0, &[("str", &[3, 0, 5])]).marked(3, WORD).register(5, 65_528);
    cases.push(str.leaves(8_191, 0x0f));
    cases
}

/// Accesses past the end of 60 bytes, where the mark byte goes on: bus errors, which mark nothing.
fn outside() -> Vec<Case> {
    let mut cases = Vec::new();
    for (name, size) in ACCESSES {
        for at in (60..64).step_by(size as usize) {
            let case = edge(format!("{name} at {at} past 60 bytes, marked"), &[]).length(60);
            let case = case.at(0, &[(name, &[3, 0, 5])]).marked(3, WORD).register(5, at);
            cases.push(case.mark_all(56..60).bus_error(Access::Data).leaves(7, 0x0f));
        }
    }
    for at in [60, 62] {
        let case = edge(format!("a fetch at {at} past 60 bytes"), &[]).length(60).pc(at);
        cases.push(case.mark_all(56..60).bus_error(Access::Fetch).leaves(7, 0x0f));
    }
    cases
}
