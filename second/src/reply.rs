//! Replies of a run (document 01). Its 11 and 15 are no longer given: what they told of is a bus
//! error (document 02, ticket 5).

/// A reply. Its number is document 01's.
#[derive(Clone, Copy, Debug, PartialEq, Eq, Hash)]
pub enum Reply {
    /// Memory length is 0, above 65,536, or no multiple of 4.
    MemoryLength = 1,
    /// Mark slice of another length than a bit for each byte takes (document 02, ticket 7).
    MarkLength = 2,
    /// A set bit past the memory's end (document 02, ticket 7).
    MarkPastEnd = 3,
    /// State out of form.
    StateForm = 4,
    /// Tape shorter than the budget.
    TapeLength = 5,
    /// A byte above 63 among the first "budget" tape bytes.
    TapeByte = 6,
    /// Budget used up.
    BudgetUsed = 10,
    /// Instruction fetch from a marked byte.
    FetchMarked = 12,
    /// Bits that are no instruction.
    NoInstruction = 13,
    /// A marked operand where none may be.
    OperandMarked = 14,
}

impl Reply {
    /// Document 01's number.
    pub const fn number(self) -> u32 {
        self as u32
    }

    /// Whether it is one of refusals 1 to 6, which are given before any step.
    pub const fn is_refusal(self) -> bool {
        self.number() < Reply::BudgetUsed.number()
    }
}
