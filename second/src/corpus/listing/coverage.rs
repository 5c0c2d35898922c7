//! What listings reach.

use std::collections::HashMap;

use super::ListCase;
use crate::isa::{mnemonics, needs_second};
use crate::listing::{Refusal, LONGEST_IMAGE};

/// Counts with their names, in a fixed order.
pub struct ListCoverage {
    /// For each line its kind, its name and how often it was reached: the mnemonics of lines, the
    /// kinds of `half`, the reasons of refusal 20, then the other classes of cases.
    pub lines: Vec<(&'static str, &'static str, u64)>,
    /// The place of each kind and name in `lines`.
    places: HashMap<(&'static str, &'static str), usize>,
}

/// The kinds of `half`.
const NO_INSTRUCTION: &str = "no instruction";
const CUT_BY_THE_RANGE: &str = "cut by the range";
const CUT_BY_THE_IMAGE: &str = "cut by the image";

/// The kind of the reasons below.
const REFUSED: &str = "refusal 20";

/// A reason of refusal 20, and whether it holds.
type Reason = (&'static str, fn(&ListCase) -> bool);

const OUTSIDE: &str = "end outside";
const REASONS: [Reason; 5] = [
    ("image over the limit", |case| case.image.len() > LONGEST_IMAGE),
    ("odd start", |case| case.start % 2 == 1),
    ("odd end", |case| case.end % 2 == 1),
    ("reversed", |case| case.start > case.end),
    (OUTSIDE, |case| case.end > case.image.len()),
];

type Answer = Result<usize, Refusal>;

/// The other classes: kind, name, and whether a case with this answer is one.
type Class = (&'static str, &'static str, fn(&ListCase, Answer) -> bool);

const CLASSES: [Class; 14] = [
    (REFUSED, "nothing, outside", |case, _| is_outside(case) && case.start == case.end),
    (REFUSED, "huge number", |case, _| is_outside(case) && case.end > usize::MAX / 4),
    (REFUSED, "no room either", |case, got| got == Err(Refusal::Range) && case.room == 0),
    ("refusal 21", "no room", |case, got| got == Err(Refusal::Room) && case.room == 0),
    ("refusal 21", "one byte short", |case, got| got == Err(Refusal::Room) && lacks(case) == 1),
    ("refusal 21", "bytes short", |case, got| got == Err(Refusal::Room) && lacks(case) > 1),
    ("listed", "nothing", |case, got| got.is_ok() && case.start == case.end),
    ("listed", "a part", |case, got| got.is_ok() && case.start < case.end && !is_whole(case)),
    ("listed", "all", |case, got| got.is_ok() && case.start < case.end && is_whole(case)),
    ("listed", "an odd image", |case, got| got.is_ok() && case.image.len() % 2 == 1),
    ("listed", "an empty image", |case, got| got.is_ok() && case.image.is_empty()),
    ("listed", "the longest image", |case, got| got.is_ok() && case.image.len() == LONGEST_IMAGE),
    ("listed", "no room to spare", |case, got| got == Ok(case.room)),
    ("listed", "room to spare", |case, got| got.is_ok_and(|length| length < case.room)),
];

/// The reason of refusal 20 if there is one and no other: a program that doesn't test it answers
/// otherwise.
fn only_reason(case: &ListCase) -> Option<&'static str> {
    let mut reasons = REASONS.iter().filter(|(_, holds)| holds(case));
    let (name, _) = reasons.next()?;
    reasons.next().is_none().then_some(name)
}

fn is_outside(case: &ListCase) -> bool {
    only_reason(case) == Some(OUTSIDE)
}

/// How many bytes the buffer is too short.
fn lacks(case: &ListCase) -> usize {
    case.length().map_or(0, |length| length.saturating_sub(case.room))
}

/// Whether the range is all of the image; the last byte of an odd one can't be in it.
fn is_whole(case: &ListCase) -> bool {
    case.start == 0 && case.end == case.image.len() / 2 * 2
}

/// The kind of a `half` with these bits. A cut one is the last of its listing.
fn half_kind(case: &ListCase, bits: &str) -> &'static str {
    let half = u16::from_str_radix(bits, 16).expect("four hex digits");
    if !needs_second(half) {
        NO_INSTRUCTION
    } else if case.image.len() - case.end >= 2 {
        CUT_BY_THE_RANGE
    } else {
        CUT_BY_THE_IMAGE
    }
}

impl ListCoverage {
    /// Nothing reached yet.
    pub fn new() -> ListCoverage {
        let mnemonics = mnemonics().into_iter().map(|instr| ("line", instr.mnemonic()));
        let halves =
            [NO_INSTRUCTION, CUT_BY_THE_RANGE, CUT_BY_THE_IMAGE].map(|name| ("half", name));
        let reasons = REASONS.map(|(name, _)| (REFUSED, name));
        let classes = CLASSES.map(|(kind, name, _)| (kind, name));
        let named = mnemonics.chain(halves).chain(reasons).chain(classes);
        let lines: Vec<_> = named.map(|(kind, name)| (kind, name, 0)).collect();
        let places = lines.iter().enumerate().map(|(place, line)| ((line.0, line.1), place));
        ListCoverage { places: places.collect(), lines }
    }

    /// Counts a case, its answer, and the lines of its listing, which lie at the buffer's front.
    pub fn add(&mut self, case: &ListCase, answer: Answer, buffer: &[u8]) {
        if let Some(reason) = only_reason(case) {
            self.count(REFUSED, reason);
        }
        for (kind, name, _) in CLASSES.iter().filter(|(_, _, is_one)| is_one(case, answer)) {
            self.count(kind, name);
        }
        let listing = str::from_utf8(&buffer[..answer.unwrap_or(0)]).expect("plain text");
        for line in listing.lines() {
            let mut fields = line.split('\t').skip(1);
            match (fields.next(), fields.next()) {
                (Some(bits), Some("half")) => self.count("half", half_kind(case, bits)),
                (Some(_), Some(mnemonic)) => self.count("line", mnemonic),
                _ => panic!("{line:?} is no line"),
            }
        }
    }

    fn count(&mut self, kind: &str, name: &str) {
        let place = self.places.get(&(kind, name));
        let place = *place.unwrap_or_else(|| panic!("there is no {kind}, {name}"));
        self.lines[place].2 += 1;
    }

    /// The lines as text.
    pub fn text(&self) -> String {
        self.lines.iter().map(|(kind, name, count)| format!("{kind}\t{name}\t{count}\n")).collect()
    }
}

impl Default for ListCoverage {
    fn default() -> ListCoverage {
        ListCoverage::new()
    }
}
