//! Which faults come in a text. Mostly they are of few kinds: a line's lowest refusal, and the first
//! line's, hide the others.

use crate::corpus::random::Generator;

/// A kind of fault, and what it is a fault of.
#[derive(Clone, Copy)]
pub(super) enum Fault {
    /// An expression: its value doesn't fit its place.
    Value,
    /// An expression: a value inside it doesn't fit in 32 signed bits.
    Inner,
    /// An expression: more than eight parentheses are open.
    Depth,
    /// An expression: a label that no line sets.
    Unknown,
    /// A line: a label that was written before.
    Twice,
    /// A line: a malformed field.
    Field,
    /// A text: slips of the pen.
    Slip,
    /// An image that is too short.
    Room,
    /// A start that isn't where it should be.
    Start,
}

/// Every kind, some more often than others.
const FAULTS: [Fault; 18] = [
    Fault::Value,
    Fault::Value,
    Fault::Value,
    Fault::Inner,
    Fault::Inner,
    Fault::Depth,
    Fault::Unknown,
    Fault::Twice,
    Fault::Twice,
    Fault::Field,
    Fault::Field,
    Fault::Field,
    Fault::Field,
    Fault::Slip,
    Fault::Slip,
    Fault::Room,
    Fault::Room,
    Fault::Start,
];

const NEVER: u32 = u32::MAX;

/// How often each fault comes.
#[derive(Clone, Copy)]
pub(super) struct Faults {
    /// Once in how many chances, by the kind.
    often: [u32; 9],
}

impl Faults {
    pub(super) const NONE: Faults = Faults { often: [NEVER; 9] };
}

impl Generator {
    /// The faults of a text.
    pub(super) fn faults(&mut self) -> Faults {
        let mut faults = Faults::NONE;
        let (kinds, often): (u32, &[u32]) = match self.below(24) {
            0..4 => (0, &[1]),
            4..14 => (1, &[1, 1, 2, 4]),
            14..19 => (2, &[1, 1, 2]),
            19..22 => (3, &[1, 2]),
            _ => (9, &[1, 2, 4, 12, NEVER]),
        };
        for _ in 0..kinds {
            faults.often[self.pick(&FAULTS) as usize] = self.pick(often);
        }
        faults
    }

    /// Whether a fault comes where it has a chance.
    pub(super) fn errs(&mut self, fault: Fault, faults: &Faults) -> bool {
        self.once_in(faults.often[fault as usize])
    }
}
