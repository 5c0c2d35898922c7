//! The small program (document 01, "The program"): lines that fill a memory and run it.

use std::ops::Range;

use crate::marks;
use crate::run::run;
use crate::state::State;

/// The greatest `mem` size and the greatest `run` budget.
const LIMIT: usize = 16_384;

/// Decimals have 1 to 5 digits.
const MOST_DIGITS: usize = 5;

/// A line has 1 to 16 hex bytes.
const MOST_BYTES: usize = 16;

/// The answer to an input.
pub fn answer(input: &[u8]) -> String {
    match read(input) {
        Ok(script) => script.answer(),
        Err(BadLine(number)) => format!("bad\t{number}\n"),
    }
}

/// The number of the first bad line, from 1; at an early end, that of the missing line.
struct BadLine(usize);

/// What a good input says.
struct Script {
    memory: Vec<u8>,
    marks: Vec<u8>,
    budget: usize,
}

/// A line by itself.
enum Line {
    Mem { size: usize },
    At { address: u32, bytes: Vec<u8> },
    Mark { address: u32, count: usize },
    Run { budget: usize },
}

/// Reads all lines: `mem`, any `at` and `mark`, then `run` as the last.
fn read(input: &[u8]) -> Result<Script, BadLine> {
    let mut rest = input;
    let Some(Line::Mem { size }) = next_line(&mut rest) else {
        return Err(BadLine(1));
    };
    let (memory, marks) = (vec![0; size], vec![0; marks::room(size)]);
    let mut script = Script { memory, marks, budget: 0 };
    let mut number = 1;
    loop {
        number += 1;
        let done = match next_line(&mut rest) {
            Some(Line::At { address, bytes }) => script.put(address, &bytes),
            Some(Line::Mark { address, count }) => script.mark(address, count),
            Some(Line::Run { budget }) if rest.is_empty() => {
                return Ok(Script { budget, ..script });
            }
            Some(Line::Run { .. }) => return Err(BadLine(number + 1)),
            Some(Line::Mem { .. }) | None => None,
        };
        done.ok_or(BadLine(number))?;
    }
}

/// Takes one line with its newline from the input. None if it is bad, has no newline or is missing.
fn next_line(rest: &mut &[u8]) -> Option<Line> {
    let end = rest.iter().position(|&byte| byte == b'\n')?;
    let (line, after) = (&rest[..end], &rest[end + 1..]);
    *rest = after;
    parse(line)
}

/// The meaning of a line without its newline.
fn parse(line: &[u8]) -> Option<Line> {
    let fields: Vec<&[u8]> = line.split(|&byte| byte == b'\t').collect();
    match fields[..] {
        [b"mem", size] => Some(Line::Mem { size: decimal_to_limit(size)? }),
        [b"at", place, bytes] => Some(Line::At { address: address(place)?, bytes: hex(bytes)? }),
        [b"mark", place, count] => {
            Some(Line::Mark { address: address(place)?, count: decimal(count)? })
        }
        [b"run", budget] => Some(Line::Run { budget: decimal_to_limit(budget)? }),
        _ => None,
    }
}

/// A decimal of 1 to 5 digits. By the written form of document 01 it has no leading zeros; 0
/// itself is fine.
fn decimal(digits: &[u8]) -> Option<usize> {
    let zero_leads = digits.len() > 1 && digits[0] == b'0';
    if digits.is_empty() || digits.len() > MOST_DIGITS || zero_leads {
        return None;
    }
    digits.iter().try_fold(0, |sum, digit| match digit {
        b'0'..=b'9' => Some(10 * sum + usize::from(digit - b'0')),
        _ => None,
    })
}

/// A decimal up to 16,384.
fn decimal_to_limit(digits: &[u8]) -> Option<usize> {
    decimal(digits).filter(|&number| number <= LIMIT)
}

/// An address of 8 hex digits.
fn address(digits: &[u8]) -> Option<u32> {
    let bytes: [u8; 4] = hex(digits)?.try_into().ok()?;
    Some(u32::from_be_bytes(bytes))
}

/// 1 to 16 bytes, two lower-case hex digits each.
fn hex(digits: &[u8]) -> Option<Vec<u8>> {
    let (pairs, odd) = digits.as_chunks();
    if pairs.is_empty() || pairs.len() > MOST_BYTES || !odd.is_empty() {
        return None;
    }
    pairs.iter().map(|&[high, low]| Some(hex_digit(high)? << 4 | hex_digit(low)?)).collect()
}

fn hex_digit(digit: u8) -> Option<u8> {
    match digit {
        b'0'..=b'9' => Some(digit - b'0'),
        b'a'..=b'f' => Some(digit - b'a' + 10),
        _ => None,
    }
}

/// The places of `count` bytes from an address on.
fn places(address: u32, count: usize) -> Option<Range<usize>> {
    let start = usize::try_from(address).ok()?;
    Some(start..start.checked_add(count)?)
}

impl Script {
    /// "A later `at` overwrites bytes and leaves marks." None if a byte is outside memory.
    fn put(&mut self, address: u32, bytes: &[u8]) -> Option<()> {
        self.memory.get_mut(places(address, bytes.len())?)?.copy_from_slice(bytes);
        Some(())
    }

    /// Marks bytes. None if one is outside memory; of no bytes none is, wherever they begin.
    fn mark(&mut self, address: u32, count: usize) -> Option<()> {
        if count > 0 {
            let places = places(address, count)?;
            self.memory.get(places.clone())?;
            marks::mark(&mut self.marks, places);
        }
        Some(())
    }

    /// Runs from the fresh state with all lines low.
    fn answer(mut self) -> String {
        let mut state = State::fresh();
        let tape = vec![0; self.budget];
        let outcome = run(&mut state, &mut self.memory, &mut self.marks, &tape, self.budget as u64);
        let reply = outcome.reply.number();
        let mut text = format!("end\t{reply}\t{}\n", outcome.steps);
        if !outcome.reply.is_refusal() {
            write_state(&mut text, &state);
        }
        text
    }
}

/// The lines `pc`, "then each register that is marked or not zero; a marked one as eight stars".
fn write_state(text: &mut String, state: &State) {
    let mut line = |name: &str, value: &str| *text += &format!("{name}\t{value}\n");
    line("pc", &format!("{:08x}", state.pc));
    for (n, register) in state.registers.iter().enumerate() {
        match (register.marked, register.value) {
            (true, _) => line(&format!("r{n}"), "********"),
            (false, 0) => {}
            (false, value) => line(&format!("r{n}"), &format!("{value:08x}")),
        }
    }
}
