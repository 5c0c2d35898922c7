//! The assembler for test snippets (document 02, ticket 4), in document 01's written form.
//!
//! A line has a label field, which may be empty, the mnemonic, and each operand in a field of its
//! own, as in a listing behind its first two columns. Fields are parted by a tab, and a newline
//! ends the line.
//!
//! The text is read twice. An expression may use a label that a later line sets, so the first
//! reading finds the form and the address of every line, whatever is wrong with those before it.
//! The second finds the first line that is refused, or else the bytes of all.

mod expression;
mod field;
mod labels;
mod line;

use crate::isa::Halves;
use labels::Labels;
use line::Line;

/// What a text became.
#[derive(Clone, Copy, Debug, PartialEq, Eq, Hash)]
pub struct Assembled {
    /// The number of lines.
    pub lines: usize,
    /// The address after the last byte.
    pub end: usize,
}

/// Why a text is not assembled.
#[derive(Clone, Copy, Debug, PartialEq, Eq, Hash)]
pub struct Refused {
    /// The line, counted from 1; 0 if no line is the reason.
    pub line: usize,
    /// Document 02's number, 29 to 36.
    pub number: u32,
}

/// A reason to refuse a text, by document 02's number. Of those that a line has, the lowest counts.
#[derive(Clone, Copy)]
enum Refusal {
    Start = 29,
    Form = 30,
    Parentheses = 31,
    UnknownLabel = 32,
    LabelTwice = 33,
    TooManyLabels = 34,
    Value = 35,
    Room = 36,
}

impl Refusal {
    const fn in_line(self, line: usize) -> Refused {
        Refused { line, number: self as u32 }
    }
}

/// Assembles the text into the image from `start` on. A refusal leaves the image as it was.
pub fn assemble(text: &[u8], start: usize, image: &mut [u8]) -> Result<Assembled, Refused> {
    if !start.is_multiple_of(2) || start > image.len() {
        return Err(Refusal::Start.in_line(0));
    }
    let read = Read::new(text, start);
    let mut bytes = Vec::new();
    for (index, line) in read.lines.iter().enumerate() {
        let address = start + bytes.len();
        let halves = read.halves(index, line.as_ref(), address, image.len());
        match halves.map_err(|refusal| refusal.in_line(index + 1))? {
            Halves::One(half) => bytes.extend(half.to_be_bytes()),
            Halves::Two(first, second) => {
                bytes.extend([first, second].into_iter().flat_map(u16::to_be_bytes));
            }
        }
    }
    let end = start + bytes.len();
    image[start..end].copy_from_slice(&bytes);
    Ok(Assembled { lines: read.lines.len(), end })
}

/// The word of an address: "addresses are modulo 2^32" (document 02).
const fn word(address: usize) -> u32 {
    address as u32
}

/// A text after its first reading.
struct Read<'t> {
    /// The lines; none for one of unknown form.
    lines: Vec<Option<Line<'t>>>,
    labels: Labels<'t>,
}

impl<'t> Read<'t> {
    fn new(text: &'t [u8], start: usize) -> Read<'t> {
        let (mut lines, mut labels, mut address) = (Vec::new(), Labels::default(), start);
        for text in text.split_inclusive(|&byte| byte == b'\n') {
            let line = text.strip_suffix(b"\n").and_then(Line::read);
            // One of unknown form "takes no bytes and sets no label" (document 02).
            if let Some(line) = &line {
                if let Some(label) = line.label {
                    labels.set(label, lines.len(), word(address));
                }
                address += line.content.size();
            }
            lines.push(line);
        }
        Read { lines, labels }
    }

    /// The halves of a line at this address, or the lowest of its refusals.
    fn halves(
        &self,
        index: usize,
        line: Option<&Line<'t>>,
        address: usize,
        length: usize,
    ) -> Result<Halves, Refusal> {
        let line = line.ok_or(Refusal::Form)?;
        if let Some(expression) = line.expression() {
            if expression.is_too_deep() {
                return Err(Refusal::Parentheses);
            }
            if expression.names().any(|name| self.labels.value(name).is_none()) {
                return Err(Refusal::UnknownLabel);
            }
        }
        if let Some(label) = line.label {
            self.labels.check(label, index)?;
        }
        let halves = line.halves(&self.labels, word(address)).ok_or(Refusal::Value)?;
        if address + line.content.size() > length {
            return Err(Refusal::Room);
        }
        Ok(halves)
    }
}
