//! The listing of an image (document 02, ticket 1), in document 01's written form.
//!
//! A line has the address in 8 hex digits, the bits in 4 or 8, the mnemonic, and each operand in a
//! field of its own. Fields are parted by a tab, and a newline ends the line.

use std::{error, fmt, str};

use crate::isa::{data_address, decode, jump_target, needs_second, Instr};
use crate::run::LONGEST_MEMORY;
use crate::word::Width;

/// Document 01's size limit.
pub const LONGEST_IMAGE: usize = LONGEST_MEMORY;

/// The longest line: a `jf`, `jt` or `jl` whose target has a minus and eight digits.
pub const LONGEST_LINE: usize = 31;

/// The longest line of two bytes, as `mfsfr` of r15 and sfr10. A line of four bytes is shorter
/// than two of these, so no listing has more bytes for each half.
pub const LONGEST_LINE_OF_A_HALF: usize = 30;

/// The longest listing: a whole image of such lines.
pub const LONGEST_LISTING: usize = LONGEST_IMAGE / 2 * LONGEST_LINE_OF_A_HALF;

/// Why there is no listing. Its number is document 02's.
#[derive(Clone, Copy, Debug, PartialEq, Eq, Hash)]
pub enum Refusal {
    /// The image is over the size limit, or the range is outside it, odd or reversed.
    Range = 20,
    /// The listing is longer than the buffer.
    Room = 21,
}

impl Refusal {
    /// Document 02's number.
    pub const fn number(self) -> u32 {
        self as u32
    }
}

impl fmt::Display for Refusal {
    fn fmt(&self, f: &mut fmt::Formatter<'_>) -> fmt::Result {
        let fact = match self {
            Refusal::Range => {
                "the image is over 65536 bytes, or the range is outside it, odd or reversed"
            }
            Refusal::Room => "the listing is longer than the buffer",
        };
        write!(f, "refusal {}: {fact}", self.number())
    }
}

impl error::Error for Refusal {}

/// Lists the image from `start` to before `end`, and gives the length of the listing. Only that
/// many bytes of `out` change; none after a refusal.
pub fn list(image: &[u8], start: usize, end: usize, out: &mut [u8]) -> Result<usize, Refusal> {
    if !is_listable(image, start, end) {
        return Err(Refusal::Range);
    }
    let most = (end - start) / 2 * LONGEST_LINE_OF_A_HALF;
    if out.len() >= most {
        return Ok(write_lines(image, start, end, out));
    }
    // It may still fit. Only the listing itself tells, and `out` must not change if it doesn't.
    let mut aside = vec![0; most];
    let length = write_lines(image, start, end, &mut aside);
    out.get_mut(..length).ok_or(Refusal::Room)?.copy_from_slice(&aside[..length]);
    Ok(length)
}

/// The line at `at` of a listing that ends before `end`, and the address of the next line.
///
/// Panics where `list` would refuse the range from `at` to `end`, or where that is empty.
pub fn line_at(image: &[u8], at: usize, end: usize) -> (Line, usize) {
    assert!(is_listable(image, at, end) && at < end, "{at} to {end} can't be listed");
    Line::of(image, at, end)
}

/// The opposite of refusal 20.
fn is_listable(image: &[u8], start: usize, end: usize) -> bool {
    image.len() <= LONGEST_IMAGE
        && start.is_multiple_of(2)
        && end.is_multiple_of(2)
        && start <= end
        && end <= image.len()
}

/// Writes the lines of a good range to where they fit, and gives their length.
fn write_lines(image: &[u8], start: usize, end: usize, out: &mut [u8]) -> usize {
    let (mut at, mut length) = (start, 0);
    while at < end {
        let rest = &mut out[length..];
        let (written, next) = match rest.first_chunk_mut() {
            // Here nothing is cut. The compiler sees it, and makes one match of three: that of the
            // decoder, of the mnemonic and of the operands.
            Some(room) if end - at >= 4 => write_line(image, at, end, room),
            // The last half, or a line that fits where the longest would not.
            _ => {
                let (line, next) = Line::of(image, at, end);
                rest[..line.length].copy_from_slice(line.as_bytes());
                (line.length, next)
            }
        };
        length += written;
        at = next;
    }
    length
}

/// Writes a line, and gives its length and the address of the next one. No byte behind the line
/// changes.
#[inline(always)]
fn write_line(
    image: &[u8],
    at: usize,
    end: usize,
    room: &mut [u8; LONGEST_LINE],
) -> (usize, usize) {
    let address = u32::try_from(at).expect("no address is above 65,535");
    let first = half(image, at);
    let mut text = Text { room, length: 0 };
    text.put(hex::<8>(address)).put(*b"\t").put(hex::<4>(first.into()));
    if needs_second(first) && end - at < 4 {
        return (text.half(first).length, at + 2);
    }
    let mut second = 0;
    if needs_second(first) {
        second = half(image, at + 2);
        text.put(hex::<4>(second.into()));
    }
    match decode(first, second) {
        Some(instr) => text.instruction(instr, address),
        None => text.half(first),
    };
    (text.length, at + if needs_second(first) { 4 } else { 2 })
}

/// The half at an address.
#[inline(always)]
fn half(image: &[u8], at: usize) -> u16 {
    u16::from_be_bytes([image[at], image[at + 1]])
}

/// The text of one line, with its newline.
#[derive(Clone, Copy)]
pub struct Line {
    room: [u8; LONGEST_LINE],
    length: usize,
}

impl Line {
    fn of(image: &[u8], at: usize, end: usize) -> (Line, usize) {
        let mut room = [0; LONGEST_LINE];
        let (length, next) = write_line(image, at, end, &mut room);
        (Line { room, length }, next)
    }

    pub fn as_bytes(&self) -> &[u8] {
        &self.room[..self.length]
    }

    pub fn as_str(&self) -> &str {
        str::from_utf8(self.as_bytes()).expect("a line is plain ASCII")
    }
}

/// A line that is being written.
struct Text<'r> {
    room: &'r mut [u8; LONGEST_LINE],
    length: usize,
}

impl Text<'_> {
    /// The fields behind the bits of a half that is no instruction or begins one that is cut.
    #[inline(always)]
    fn half(&mut self, half: u16) -> &mut Self {
        self.put(*b"\thalf\t0x").put(hex::<4>(half.into())).put(*b"\n")
    }

    /// The fields behind the bits of an instruction.
    #[inline(always)]
    fn instruction(&mut self, instr: Instr, address: u32) -> &mut Self {
        self.put(*b"\t").name(instr.mnemonic()).operands(instr, address).put(*b"\n")
    }

    #[inline(always)]
    fn operands(&mut self, instr: Instr, address: u32) -> &mut Self {
        use Instr::*;
        match instr {
            Alu { rd, rb, .. }
            | MultShift { rd, rb, .. }
            | Compare { rd, rb, .. }
            | Conditional { rd, rb, .. } => self.register(rd).register(rb),
            MultShiftImmediate { rd, uimm4: immediate, .. }
            | CompareImmediate { rd, simm4: immediate, .. }
            | ConditionalAddImmediate { rd, simm4: immediate, .. }
            | Andi { rd, uimm8: immediate }
            | Addi { rd, simm8: immediate }
            | Movi { rd, simm8: immediate } => self.register(rd).signed(immediate),
            Load { width, rd, uimm4, rb } | Store { width, rd, uimm4, rb } => {
                self.register(rd).signed(uimm4 * width.bytes()).register(rb)
            }
            Ldrpc { rd, uimm8 } => {
                self.register(rd).signed(data_address(address, uimm8, Width::Word))
            }
            Mfsfr { rd, sfr } => self.register(rd).sfr(sfr),
            Mtsfr { sfr, rb } => self.sfr(sfr).register(rb),
            Jr { rb } | Jrl { rb } => self.register(rb),
            Jsfr { sfr } => self.sfr(sfr),
            Swint { code } => self.signed(code),
            ShortJump { displacement, .. }
            | LongJump { displacement, .. }
            | Jl { displacement } => self.signed(jump_target(address, displacement)),
        }
    }

    #[inline(always)]
    fn register(&mut self, number: u32) -> &mut Self {
        self.put(*b"\tr").up_to_15(number)
    }

    #[inline(always)]
    fn sfr(&mut self, number: u32) -> &mut Self {
        self.put(*b"\tsfr").up_to_15(number)
    }

    /// A word as a signed decimal without leading zeros.
    #[inline(always)]
    fn signed(&mut self, word: u32) -> &mut Self {
        let number = word as i32;
        self.put_some(*b"\t-", if number < 0 { 2 } else { 1 });
        let mut rest = number.unsigned_abs();
        let digits = rest.checked_ilog10().map_or(1, |log| log as usize + 1);
        for place in self.room[self.length..][..digits].iter_mut().rev() {
            *place = b'0' + (rest % 10) as u8;
            rest /= 10;
        }
        self.length += digits;
        self
    }

    /// A decimal of one digit or two, without a jump, which would often be foreseen wrongly.
    #[inline(always)]
    fn up_to_15(&mut self, number: u32) -> &mut Self {
        let has_two = number >= 10;
        let last = b'0' + (number - if has_two { 10 } else { 0 }) as u8;
        self.put_some([if has_two { b'1' } else { last }, last], 1 + usize::from(has_two))
    }

    #[inline(always)]
    fn name(&mut self, name: &str) -> &mut Self {
        self.room[self.length..][..name.len()].copy_from_slice(name.as_bytes());
        self.length += name.len();
        self
    }

    #[inline(always)]
    fn put<const N: usize>(&mut self, bytes: [u8; N]) -> &mut Self {
        self.put_some(bytes, N)
    }

    /// Puts bytes of which only the first `count` stay: the field or the newline that follows
    /// overwrites the others.
    #[inline(always)]
    fn put_some<const N: usize>(&mut self, bytes: [u8; N], count: usize) -> &mut Self {
        self.room[self.length..][..N].copy_from_slice(&bytes);
        self.length += count;
        self
    }
}

/// The low `N` hex digits of a number.
#[inline(always)]
fn hex<const N: usize>(number: u32) -> [u8; N] {
    std::array::from_fn(|place| {
        let digit = number >> (4 * (N - 1 - place)) & 0xf;
        b"0123456789abcdef"[digit as usize]
    })
}
