//! What a run answers.

use std::fmt;

/// A reply of document 01. Its number is document 01's. An access outside memory ends no run: it is
/// a bus error, an entry like others (document 02).
#[derive(Clone, Copy, Debug, PartialEq, Eq, Hash)]
pub enum Reply {
    /// Memory length is 0, above 65,536, or no multiple of 4.
    MemoryLength = 1,
    /// Mark slice of another length than the memory length divided by 8, rounded up.
    MarkLength = 2,
    /// A set bit past the memory's end.
    MarkPastEnd = 3,
    /// State out of form.
    StateForm = 4,
    /// Tape shorter than the budget.
    TapeLength = 5,
    /// A byte above 63 among the first "budget" tape bytes.
    TapeByte = 6,
    /// Budget used up.
    BudgetUsed = 10,
    /// Instruction fetch from a marked byte.
    FetchMarked = 12,
    /// Bits that are no instruction.
    NoInstruction = 13,
    /// A marked operand where none may be.
    OperandMarked = 14,
}

impl Reply {
    /// Document 01's number.
    pub const fn number(self) -> u32 {
        self as u32
    }

    /// The reply with this number.
    pub const fn from_number(number: u32) -> Option<Reply> {
        Some(match number {
            1 => Reply::MemoryLength,
            2 => Reply::MarkLength,
            3 => Reply::MarkPastEnd,
            4 => Reply::StateForm,
            5 => Reply::TapeLength,
            6 => Reply::TapeByte,
            10 => Reply::BudgetUsed,
            12 => Reply::FetchMarked,
            13 => Reply::NoInstruction,
            14 => Reply::OperandMarked,
            _ => return None,
        })
    }

    /// Whether it is one of refusals 1 to 6, which change nothing.
    pub const fn is_refusal(self) -> bool {
        self.number() < Reply::BudgetUsed.number()
    }
}

/// Document 01's fact, in its words or those of document 02.
impl fmt::Display for Reply {
    fn fmt(&self, formatter: &mut fmt::Formatter) -> fmt::Result {
        formatter.write_str(match self {
            Reply::MemoryLength => "memory length is 0, above 65,536, or no multiple of 4",
            Reply::MarkLength => {
                "mark slice of another length than the memory length divided by 8, rounded up"
            }
            Reply::MarkPastEnd => "a set bit past the memory's end",
            Reply::StateForm => {
                "state out of form: odd program counter; PSW bit 12 set; HWDBG bits 0, 1 not both \
                 set or a bit of 9 to 31 set; timer pending with TIMER not 0"
            }
            Reply::TapeLength => "tape shorter than the budget",
            Reply::TapeByte => "a byte above 63 among the first \"budget\" tape bytes",
            Reply::BudgetUsed => "budget used up",
            Reply::FetchMarked => "instruction fetch from a marked byte",
            Reply::NoInstruction => "bits that are no instruction",
            Reply::OperandMarked => "a marked operand where none may be",
        })
    }
}

/// The answer to a run.
#[derive(Clone, Copy, Debug, PartialEq, Eq, Hash)]
pub struct Outcome {
    pub reply: Reply,
    /// The number of completed steps.
    pub steps: u64,
    /// The cycle count of the state, which a refusal leaves as it was given.
    pub cycles: u32,
}

/// The reply by number and in words, and the steps. The cycles stand with the state.
impl fmt::Display for Outcome {
    fn fmt(&self, formatter: &mut fmt::Formatter) -> fmt::Result {
        let Outcome { reply, steps, .. } = self;
        write!(formatter, "reply {}, steps {steps}: {reply}", reply.number())
    }
}

/// Why there is no answer of document 01.
#[derive(Clone, Copy, Debug, PartialEq, Eq, Hash)]
pub enum Error {
    /// The bytes are no state record.
    RecordOutOfShape,
    /// The library gave an answer that it never gives.
    UnknownReply { number: u32, steps: u64 },
}

impl fmt::Display for Error {
    fn fmt(&self, formatter: &mut fmt::Formatter) -> fmt::Result {
        match self {
            Error::RecordOutOfShape => write!(formatter, "state record out of shape"),
            Error::UnknownReply { number, steps } => {
                write!(formatter, "unknown reply {number} after {steps} steps")
            }
        }
    }
}

impl std::error::Error for Error {}
