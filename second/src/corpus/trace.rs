//! The lines of a trace.

use crate::state::hwdbg;
use crate::step::{Entry, Step};

/// A line of a trace, as `docs/CORPUS.md` lays it out.
pub type TraceLine = [u8; 11];

/// The line of a completed step. The codes are ticket 9's.
pub fn trace_line(step: Step) -> TraceLine {
    let (code, shown) = match step.entry {
        None => (b'-', 0),
        Some(Entry::Swint(bits)) => (b's', bits),
        Some(Entry::Debug(hits)) => (b'd', hits >> hwdbg::HITS_SHIFT),
        Some(Entry::Timer) => (b't', 0),
        Some(Entry::External(line)) => (b'e', line),
        Some(Entry::BusError(_)) => (b'b', 0),
    };
    let shown = u8::try_from(shown).expect("no entry shows more than four bits");
    let mut line = TraceLine::default();
    line[..4].copy_from_slice(&step.pc.to_be_bytes());
    line[4..7].copy_from_slice(&[code, shown, step.address.is_some().into()]);
    line[7..].copy_from_slice(&step.address.unwrap_or(0).to_be_bytes());
    line
}
