//! What the next step would show: its program counter, its entry and its data address; and all
//! that is unsafe about the call that tells.

use std::fmt;

use crate::state::{State, RECORD_LENGTH};

extern "C" {
    /// As `include/manik.h` documents it.
    fn manik_show(
        state: *const u8,
        state_len: usize,
        memory: *const u8,
        memory_len: usize,
        marks: *const u8,
        marks_len: usize,
        lines: u8,
        line: *mut u8,
        line_len: usize,
    ) -> u32;
}

/// The length of a line's record.
const LINE_LENGTH: usize = 12;

/// What a completed step shows (docs/MANIK.md, "What a step shows").
#[derive(Clone, Copy, Debug, PartialEq, Eq, Hash)]
pub struct Line {
    /// The program counter before the step.
    pub pc: u32,
    pub entry: Option<Entry>,
    /// The data address, after alignment, also where it is outside memory.
    pub address: Option<u32>,
}

/// The entry that a step makes.
#[derive(Clone, Copy, Debug, PartialEq, Eq, Hash)]
pub enum Entry {
    /// By swint, with its operand.
    Swint(u8),
    /// Bit 0 a breakpoint, bit 1 WP0, bit 2 WP1.
    Debug(u8),
    Timer,
    /// By a line, with its number.
    External(u8),
    /// By a fetch outside memory.
    FetchError,
    /// By a load or store outside memory.
    DataError,
}

/// The library gave an answer that it never gives.
#[derive(Clone, Copy, Debug, PartialEq, Eq, Hash)]
pub enum ShowError {
    UnknownReply { number: u32 },
    UnknownLine([u8; LINE_LENGTH]),
}

impl fmt::Display for ShowError {
    fn fmt(&self, formatter: &mut fmt::Formatter) -> fmt::Result {
        match self {
            ShowError::UnknownReply { number } => {
                write!(formatter, "unknown reply {number} to a look")
            }
            ShowError::UnknownLine(line) => write!(formatter, "unknown line {line:02x?}"),
        }
    }
}

impl std::error::Error for ShowError {}

/// What the next step would show with these lines; none where it would stop, or the run would be
/// refused. Nothing changes. `marks` has one bit for each byte of memory, the lowest address in the
/// lowest bit. An error says that the library isn't the one this package was written for.
///
/// ```
/// let state = manik::State::fresh();
/// // ldr r1 from r0 + 4.
/// let memory = [0x81, 0x10, 0, 0, 0, 0, 0, 0];
/// let line = manik::show(&state, &memory, &[0], 0)?.expect("it would be completed");
/// assert_eq!((line.pc, line.entry, line.address), (0, None, Some(4)));
/// # Ok::<(), manik::ShowError>(())
/// ```
pub fn show(
    state: &State,
    memory: &[u8],
    marks: &[u8],
    lines: u8,
) -> Result<Option<Line>, ShowError> {
    show_record(&state.to_record(), memory, marks, lines)
}

/// As `show`, with the state as the library's record.
pub fn show_record(
    record: &[u8; RECORD_LENGTH],
    memory: &[u8],
    marks: &[u8],
    lines: u8,
) -> Result<Option<Line>, ShowError> {
    let mut line = [0; LINE_LENGTH];
    match call(record, memory, marks, lines, &mut line) {
        0 => Ok(None),
        1 => read(&line).map(Some).ok_or(ShowError::UnknownLine(line)),
        number => Err(ShowError::UnknownReply { number }),
    }
}

/// Whether there is a line, as the library says it.
fn call(record: &[u8], memory: &[u8], marks: &[u8], lines: u8, line: &mut [u8]) -> u32 {
    // SAFETY: each pointer comes with its length from a slice, so it isn't null, even if the slice
    // is empty, and its bytes are initialized and live for the call. `line` is borrowed for this
    // call alone, so nothing overlaps it. The library keeps no pointer, and it stays within the
    // slices by its proof.
    unsafe {
        manik_show(
            record.as_ptr(),
            record.len(),
            memory.as_ptr(),
            memory.len(),
            marks.as_ptr(),
            marks.len(),
            lines,
            line.as_mut_ptr(),
            line.len(),
        )
    }
}

/// The line that a record holds, by the offsets of `include/manik.h`: words at 0 and 4, whether there
/// is an address at 8, the entry's letter at 9 and what it tells at 10. Byte 11 is zero and isn't
/// read. None if the library writes no such record.
fn read(line: &[u8; LINE_LENGTH]) -> Option<Line> {
    let word = |at: usize| u32::from_be_bytes([line[at], line[at + 1], line[at + 2], line[at + 3]]);
    let address = match line[8] {
        0 => None,
        1 => Some(word(4)),
        _ => return None,
    };
    let entry = match (line[9], line[10]) {
        (b'-', 0) => None,
        (b's', operand) => Some(Entry::Swint(operand)),
        (b'd', hits) => Some(Entry::Debug(hits)),
        (b't', 0) => Some(Entry::Timer),
        (b'e', number) => Some(Entry::External(number)),
        (b'b', 15) => Some(Entry::FetchError),
        (b'b', 14) => Some(Entry::DataError),
        _ => return None,
    };
    Some(Line { pc: word(0), entry, address })
}
