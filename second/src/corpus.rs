//! The corpus of whole runs and that of the assembler, as `docs/CORPUS.md` defines them: cases and
//! their answers. Beside them, generated cases of a listing and of the assembler, which are no part
//! of a file.

mod assembly;
mod build;
mod coverage;
mod edges;
mod listing;
mod random;
mod trace;

pub use assembly::{
    assembly_answers_file, assembly_case, assembly_cases, assembly_cases_file, assembly_edges,
    AssemblyCase, AssemblyCoverage, AssemblyEdge, LONGEST_ASSEMBLY_IMAGE, LONGEST_ASSEMBLY_TEXT,
};
pub use build::{assemble, Line};
pub use coverage::{coverage, Coverage};
pub use edges::edges;
pub use listing::{list_case, ListCase, ListCoverage};
pub use random::random;
pub use trace::{trace_line, TraceLine};

use crate::record;
use crate::reply::Reply;
use crate::run::{run, Outcome};
use crate::state::State;
use crate::step::{step, Access};

/// The number of generated cases, and the seed that they come from.
const GENERATED: u32 = 2_500;
const SEED: u64 = 0x4d41_4e49_4b01;

/// The bounds of `docs/CORPUS.md`.
pub const LONGEST_MEMORY: usize = 65_600;
pub const LONGEST_TAPE: usize = 4_096;

/// An input of a run.
#[derive(Clone, Debug)]
pub struct Case {
    pub name: String,
    pub state: State,
    pub memory: Vec<u8>,
    /// A bit for each byte of memory.
    pub marks: Vec<u8>,
    pub tape: Vec<u8>,
    pub budget: u32,
    /// What the documents say of it; none for a generated case. It is no part of the file: it
    /// holds an edge to what its name says.
    pub promise: Option<Promise>,
}

/// What the documents say of a run.
#[derive(Clone, Copy, Debug, PartialEq)]
pub struct Promise {
    /// The reply's number.
    pub reply: u32,
    /// The completed steps.
    pub steps: u64,
    /// The bus error of the last completed step, if it makes one.
    pub bus_error: Option<Access>,
    /// What all the steps cost, where that is said.
    pub cycles: Option<u32>,
    /// A place of the mark slice and its byte after the run, where that is said.
    pub mark_byte: Option<(usize, u8)>,
}

impl Case {
    /// Runs the case: the outcome, and the case with what the run left of it.
    pub fn run(&self) -> (Outcome, Case) {
        let mut after = self.clone();
        let Case { state, memory, marks, .. } = &mut after;
        let outcome = run(state, memory, marks, &self.tape, self.budget.into());
        (outcome, after)
    }

    /// The bytes of the case.
    pub fn bytes(&self) -> Vec<u8> {
        let mut bytes = record::write(&self.state).to_vec();
        let parts = [&self.memory, &self.marks, &self.tape];
        for part in parts {
            let length = u32::try_from(part.len()).expect("a part is shorter than 2^32");
            bytes.extend(length.to_be_bytes());
        }
        bytes.extend(self.budget.to_be_bytes());
        parts.into_iter().for_each(|part| bytes.extend(part));
        bytes
    }

    /// The trace of the completed steps, so many, which are made once more, one by one.
    ///
    /// `run_observed` would show them in the run itself; but a second use of it in this crate keeps
    /// the compiler from inlining the step into `run`.
    pub fn trace(&self, steps: u64) -> Vec<TraceLine> {
        let Case { mut state, mut memory, mut marks, .. } = self.clone();
        let completed = self.tape[..steps as usize].iter();
        let shown = completed.map(|&lines| step(&mut state, &mut memory, &mut marks, lines));
        shown.map(|step| trace_line(step.expect("it was completed"))).collect()
    }

    /// The line that answers the case, with its newline.
    pub fn answer(&self) -> String {
        let (Outcome { reply, steps, .. }, after) = self.run();
        let record: String =
            record::write(&after.state).iter().map(|byte| format!("{byte:02x}")).collect();
        let (memory, marks) = (digest(&after.memory), digest(&after.marks));
        let trace = digest(self.trace(steps).as_flattened());
        format!("{}\t{steps}\t{record}\t{memory}\t{marks}\t{trace}\n", reply.number())
    }
}

/// The digest of bytes.
pub fn digest(bytes: &[u8]) -> u64 {
    bytes.iter().fold(1, |digest, &byte| (digest * 1_000_003 + u64::from(byte)) % 4_294_967_291)
}

/// Every case, the edges first.
pub fn cases() -> Vec<Case> {
    let mut cases = edges();
    cases.extend(random(SEED, GENERATED));
    cases
}

/// The file of the cases.
pub fn cases_file() -> Vec<u8> {
    cases().iter().flat_map(Case::bytes).collect()
}

/// The file of the answers.
pub fn answers_file() -> String {
    cases().iter().map(Case::answer).collect()
}

/// Every reply in the order of its number.
const REPLIES: [Reply; 10] = [
    Reply::MemoryLength,
    Reply::MarkLength,
    Reply::MarkPastEnd,
    Reply::StateForm,
    Reply::TapeLength,
    Reply::TapeByte,
    Reply::BudgetUsed,
    Reply::FetchMarked,
    Reply::NoInstruction,
    Reply::OperandMarked,
];
