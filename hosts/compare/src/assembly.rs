//! Texts: the calls that are made of a case, by the static library and by the second program.

use manik::AssembleError;
use second::assemble::{Assembled as Done, Refused};
use second::corpus::{assembly_case, AssemblyCase};

use crate::check::{first_difference, Disagreement};
use crate::random::Random;

/// What a call leaves: the reply's number, 0 if the text was assembled, the number of lines or the
/// line that is refused, the address after the last byte, and the whole image.
#[derive(Clone, Debug, PartialEq)]
pub struct Assembled {
    pub reply: u32,
    pub line: usize,
    pub end: usize,
    pub image: Vec<u8>,
}

/// The calls of a case. The first one is the case as it is drawn.
///
/// Sometimes it is made once more with the opposite in the image, since a byte that an assembler
/// must leave alone, or write, may by chance become what it was.
pub fn calls(seed: u64, index: u64) -> Vec<AssemblyCase> {
    let mut random = Random::new(seed.rotate_left(32), index);
    let case = assembly_case(seed, index);
    let mut calls = vec![case];
    if random.once_in(8) {
        let image = calls[0].image.iter().map(|byte| !byte).collect();
        calls.push(AssemblyCase { image, ..calls[0].clone() });
    }
    calls
}

/// The call of the static library.
pub fn by_library(AssemblyCase { text, start, image }: &AssemblyCase) -> Assembled {
    let mut image = image.clone();
    let (reply, line, end) = match manik::assemble(text, *start, &mut image) {
        Ok(assembled) => (0, assembled.lines, assembled.end),
        Err(AssembleError::Refused { line, refusal }) => (refusal.number(), line, 0),
        Err(AssembleError::UnknownReply { number, line, end }) => (number, line, end),
    };
    Assembled { reply, line, end, image }
}

/// The call of the second program.
pub fn by_second(case: &AssemblyCase) -> Assembled {
    let (answer, image) = case.assemble();
    let (reply, line, end) = match answer {
        Ok(Done { lines, end }) => (0, lines, end),
        Err(Refused { line, number }) => (number, line, 0),
    };
    Assembled { reply, line, end, image }
}

impl Assembled {
    /// The answer as the second program gives it.
    pub fn answer(&self) -> Result<Done, Refused> {
        match self.reply {
            0 => Ok(Done { lines: self.line, end: self.end }),
            number => Err(Refused { line: self.line, number }),
        }
    }
}

/// Makes a call of both programs; what both left.
pub fn check(
    case: &AssemblyCase,
    library: impl Fn(&AssemblyCase) -> Assembled,
) -> Result<Assembled, Disagreement> {
    let (one, other) = (library(case), by_second(case));
    if one == other {
        return Ok(other);
    }
    let text = format!(
        "replies {:?}, lines {:?}, ends {:?}, image of {} bytes {}",
        (one.reply, other.reply),
        (one.line, other.line),
        (one.end, other.end),
        case.image.len(),
        first_difference(&one.image, &other.image),
    );
    Err(Disagreement { about: "text by library and second program", text })
}
