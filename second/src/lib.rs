//! A second, independent program for the MANIK core, written from the documents alone.
//!
//! "The guide" is source document 001, the Architecture Guide. Document 01 (`01-scope.md`) decides
//! over the guide; the guide's instruction tables decide over its Appendix B, except where
//! document 01 names Appendix B.

/// Words of 32 bits: arithmetic, shifts, and bytes in memory.
pub mod word;

/// Instructions: decoding, encoding, mnemonics, and the addresses that they name.
pub mod isa;

/// The listing of an image.
pub mod listing;

/// The assembler for test snippets.
pub mod assemble;

/// The lines of `docs/VECTORS.md`, which the proved library computes too.
pub mod vectors;

/// What the model has: registers, SFR, their marks, and the state in form.
pub mod state;

/// The marks of memory, a bit for each byte.
pub mod marks;

/// Replies of a run.
pub mod reply;

/// What a step costs in cycles.
pub mod cost;

mod execute;

/// One step: entries, breakpoints, watchpoints and the timer.
pub mod step;

/// A run under a budget.
pub mod run;

/// The state record of the static library.
pub mod record;

/// The small program.
pub mod script;

/// The cases and answers of `docs/CORPUS.md`, which the proved library computes too, and generated
/// cases of a listing and of the assembler.
pub mod corpus;
