//! A state as a file, with memory's marks: what a run needs to go on, beside memory itself. Marked
//! contents stand in it as they are.
//!
//! A line has a name and a number, parted by a tab; what has no line is as in the fresh state. A
//! line `mark` has a register, `tf` or `cy`, or an address and a length.

use std::fmt::Write;

use manik::State;

use crate::files;
use crate::marks::Marks;
use crate::number::{number, word};

/// The names of all words of a state but for the registers, and where they are.
const WORDS: [(&str, fn(&mut State) -> &mut u32); 13] = [
    ("pc", |state| &mut state.pc),
    ("psw", |state| &mut state.psw),
    ("ra", |state| &mut state.ra),
    ("ipc", |state| &mut state.ipc),
    ("timer", |state| &mut state.timer),
    ("ibase", |state| &mut state.ibase),
    ("usreg", |state| &mut state.usreg),
    ("hwdbg", |state| &mut state.hwdbg),
    ("bp0", |state| &mut state.bp0),
    ("bp1", |state| &mut state.bp1),
    ("wp0", |state| &mut state.wp0),
    ("wp1", |state| &mut state.wp1),
    ("cycles", |state| &mut state.cycles),
];

/// The state and marks of a text.
pub fn read(text: &str, marks: &mut Marks, memory: usize) -> Result<State, String> {
    let mut state = State::fresh();
    let mut given = Vec::new();
    for (line, text) in files::said_lines(text) {
        let at = |why: String| format!("line {line}: {why}");
        let fields: Vec<&str> = text.split('\t').collect();
        match fields[..] {
            ["mark", address, length] => {
                marks.set(range(address, length, memory).map_err(at)?);
            }
            ["mark", place] => {
                let mark = mark(&mut state, place);
                *mark.ok_or_else(|| at(format!("{place} is nothing that can be marked")))? = true;
            }
            [name, value] => {
                if given.contains(&name) {
                    return Err(at(format!("{name} stands there twice")));
                }
                given.push(name);
                put(&mut state, name, value).map_err(at)?;
            }
            _ => return Err(at("no name and number, parted by a tab".into())),
        }
    }
    Ok(state)
}

fn unknown(name: &str) -> String {
    format!("the state has no {name}")
}

/// The bytes that an address and a length name.
pub fn range(address: &str, length: &str, memory: usize) -> Result<std::ops::Range<usize>, String> {
    let (address, length) = (number(address)?, number(length)?);
    match address.checked_add(length) {
        Some(end) if end <= memory as u64 => Ok(address as usize..end as usize),
        _ => {
            Err(format!("{length} bytes from {address:#x} on are not in memory of {memory} bytes"))
        }
    }
}

fn register(name: &str) -> Option<usize> {
    (0..16).find(|n| name.strip_prefix('r') == Some(&n.to_string()))
}

fn mark<'a>(state: &'a mut State, place: &str) -> Option<&'a mut bool> {
    match place {
        "tf" => Some(&mut state.tf_marked),
        "cy" => Some(&mut state.cy_marked),
        _ => register(place).map(|n| &mut state.registers[n].marked),
    }
}

fn put(state: &mut State, name: &str, value: &str) -> Result<(), String> {
    let value = word(value)?;
    if let Some(n) = register(name) {
        state.registers[n].value = value;
    } else if let Some((_, place)) = WORDS.iter().find(|(known, _)| *known == name) {
        *place(state) = value;
    } else if name == "pending" {
        state.pending = match value {
            0 | 1 => value == 1,
            _ => return Err("pending is 0 or 1".into()),
        };
    } else {
        return Err(unknown(name));
    }
    Ok(())
}

/// The text of a state and of a memory's marks.
pub fn written(state: &State, marks: &Marks, memory: usize) -> String {
    let mut text =
        String::from("# A state and its memory's marks. Marked contents stand here as they are.\n");
    let mut line = |name: &str, value: &dyn std::fmt::Display| {
        writeln!(text, "{name}\t{value}").expect("a string takes all");
    };
    let mut copy = state.clone();
    for (name, place) in WORDS {
        line(name, &format!("{:#010x}", place(&mut copy)));
    }
    line("pending", &u8::from(state.pending));
    for (n, register) in state.registers.iter().enumerate() {
        line(&format!("r{n}"), &format!("{:#010x}", register.value));
    }
    for (n, _) in state.registers.iter().enumerate().filter(|(_, register)| register.marked) {
        line("mark", &format!("r{n}"));
    }
    for (name, _) in
        [("tf", state.tf_marked), ("cy", state.cy_marked)].into_iter().filter(|flag| flag.1)
    {
        line("mark", &name);
    }
    for range in marks.ranges(memory) {
        line("mark", &format!("{:#010x}\t{}", range.start, range.len()));
    }
    text
}

#[cfg(test)]
mod tests {
    use super::*;

    #[test]
    fn written_and_read_again() {
        let mut state = State { pc: 0x14, psw: 0x300, tf_marked: true, timer: 0, ..State::fresh() };
        state.registers[15] = manik::Register { value: u32::MAX, marked: true };
        state.pending = true;
        let mut marks = Marks::none(16);
        marks.set(3..9);
        let text = written(&state, &marks, 16);
        let mut again = Marks::none(16);
        assert!(read(&text, &mut again, 16) == Ok(state));
        assert_eq!(again, marks);
    }

    #[test]
    fn lines_that_say_nothing_of_a_state() {
        let error = |text| read(text, &mut Marks::none(16), 16).unwrap_err();
        assert_eq!(error("pc\t0\n\nr16\t1\n"), "line 3: the state has no r16");
        assert_eq!(error("pc\t0\npc\t0\n"), "line 2: pc stands there twice");
        assert_eq!(error("mark\tpc\n"), "line 1: pc is nothing that can be marked");
        assert_eq!(
            error("mark\t8\t9\n"),
            "line 1: 9 bytes from 0x8 on are not in memory of 16 bytes"
        );
        assert_eq!(error("pc 0\n"), "line 1: no name and number, parted by a tab");
        assert_eq!(error("pending\t2\n"), "line 1: pending is 0 or 1");
        assert_eq!(error("r1\tmuch\n"), "line 1: no decimal number, nor a hex one after 0x");
    }
}
