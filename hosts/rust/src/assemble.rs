//! The assembler (document 02, ticket 4), and all that is unsafe about its call.

use std::fmt;

extern "C" {
    /// As `include/manik.h` documents it.
    fn manik_assemble(
        text: *const u8,
        text_len: usize,
        start: usize,
        image: *mut u8,
        image_len: usize,
        line: *mut usize,
        end: *mut usize,
    ) -> u32;
}

/// Assembles the lines of `text` into the image, from the address `start` on. `docs/ASSEMBLER.md`
/// has the language.
///
/// Bytes before `start`, and from the answered end on, are as they were. A refusal is an error, and
/// then no byte of the image changes.
///
/// ```
/// let text = b"\tmovi\tr1\t(3+5)*2\nloop\tadd\tr1\tr1\n\tsj\tloop\n";
/// let mut image = [0; 8];
/// let assembled = manik::assemble(text, 0, &mut image)?;
/// assert_eq!((assembled.lines, assembled.end), (3, 6));
/// assert_eq!(image, [0x71, 0x10, 0x21, 0x11, 0xf7, 0xff, 0, 0]);
/// # Ok::<(), manik::AssembleError>(())
/// ```
pub fn assemble(text: &[u8], start: usize, image: &mut [u8]) -> Result<Assembled, AssembleError> {
    let length = image.len();
    let (number, line, end) = call(text, start, image);
    let refusal = AssembleRefusal::from_number(number);
    match (number, refusal) {
        (0, _) if (start..=length).contains(&end) => Ok(Assembled { lines: line, end }),
        // A start that is refused has no line, and any other refusal has one.
        (_, Some(refusal)) if end == 0 && (line == 0) == (refusal == AssembleRefusal::Start) => {
            Err(AssembleError::Refused { line, refusal })
        }
        _ => Err(AssembleError::UnknownReply { number, line, end }),
    }
}

/// The reply's number, the line and the end, as the library gives them.
fn call(text: &[u8], start: usize, image: &mut [u8]) -> (u32, usize, usize) {
    // The library writes both whatever it replies; these values would show if it didn't.
    let (mut line, mut end) = (usize::MAX, usize::MAX);
    // SAFETY: both pointers come with their lengths from slices, so they aren't null, even if a
    // slice is empty, and their bytes are initialized and live for the call. `image`, `line` and
    // `end` are borrowed for this call alone, so nothing overlaps them. The library keeps no
    // pointer, and it stays within the slices by its proof, whatever `start` is.
    let number = unsafe {
        manik_assemble(
            text.as_ptr(),
            text.len(),
            start,
            image.as_mut_ptr(),
            image.len(),
            &mut line,
            &mut end,
        )
    };
    (number, line, end)
}

/// What a text became.
#[derive(Clone, Copy, Debug, PartialEq, Eq, Hash)]
pub struct Assembled {
    /// The number of lines.
    pub lines: usize,
    /// The address after the last byte.
    pub end: usize,
}

/// A reason to refuse a text. Its number is document 02's.
#[derive(Clone, Copy, Debug, PartialEq, Eq, Hash)]
pub enum AssembleRefusal {
    /// Start odd or past the image.
    Start = 29,
    /// Unknown form.
    UnknownForm = 30,
    /// Ninth parenthesis.
    Parentheses = 31,
    /// Unknown label.
    UnknownLabel = 32,
    /// Label written twice.
    LabelTwice = 33,
    /// Too many labels.
    TooManyLabels = 34,
    /// Value that doesn't fit its place.
    Value = 35,
    /// No room in the image.
    Room = 36,
}

impl AssembleRefusal {
    /// Document 02's number.
    pub const fn number(self) -> u32 {
        self as u32
    }

    /// The refusal with this number.
    pub const fn from_number(number: u32) -> Option<AssembleRefusal> {
        Some(match number {
            29 => AssembleRefusal::Start,
            30 => AssembleRefusal::UnknownForm,
            31 => AssembleRefusal::Parentheses,
            32 => AssembleRefusal::UnknownLabel,
            33 => AssembleRefusal::LabelTwice,
            34 => AssembleRefusal::TooManyLabels,
            35 => AssembleRefusal::Value,
            36 => AssembleRefusal::Room,
            _ => return None,
        })
    }
}

/// Document 02's words.
impl fmt::Display for AssembleRefusal {
    fn fmt(&self, formatter: &mut fmt::Formatter) -> fmt::Result {
        formatter.write_str(match self {
            AssembleRefusal::Start => "start odd or past the image",
            AssembleRefusal::UnknownForm => "unknown form",
            AssembleRefusal::Parentheses => "ninth parenthesis",
            AssembleRefusal::UnknownLabel => "unknown label",
            AssembleRefusal::LabelTwice => "label written twice",
            AssembleRefusal::TooManyLabels => "too many labels",
            AssembleRefusal::Value => "value that doesn't fit its place",
            AssembleRefusal::Room => "no room in the image",
        })
    }
}

/// Why a text is not assembled.
#[derive(Clone, Copy, Debug, PartialEq, Eq, Hash)]
pub enum AssembleError {
    /// The first line that is refused, counted from 1, and the first of its reasons in the order of
    /// their numbers. The line is 0 if it is the start.
    Refused { line: usize, refusal: AssembleRefusal },
    /// The library gave an answer that it never gives.
    UnknownReply { number: u32, line: usize, end: usize },
}

impl AssembleError {
    /// Document 02's number of the refusal, or the unknown one.
    pub const fn number(self) -> u32 {
        match self {
            AssembleError::Refused { refusal, .. } => refusal.number(),
            AssembleError::UnknownReply { number, .. } => number,
        }
    }
}

/// The line, and the refusal by number and in words.
impl fmt::Display for AssembleError {
    fn fmt(&self, formatter: &mut fmt::Formatter) -> fmt::Result {
        match self {
            AssembleError::Refused { line, refusal } => {
                write!(formatter, "line {line}: refusal {}: {refusal}", refusal.number())
            }
            AssembleError::UnknownReply { number, line, end } => {
                write!(formatter, "unknown reply {number} with line {line} and end {end}")
            }
        }
    }
}

impl std::error::Error for AssembleError {}
