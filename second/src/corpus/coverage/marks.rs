//! What the marks of memory come to in runs (document 02, ticket 7).

use crate::isa::{data_address, decode, Instr};
use crate::marks::is_marked;
use crate::reply::Reply;
use crate::state::State;
use crate::word::Width;

/// The classes of steps. "Beside" is in the same mark byte.
const FETCH_BESIDE: &str = "fetch beside a marked byte";
const LOAD_OF: &str = "load of a marked byte";
const LOAD_BESIDE: &str = "load beside a marked byte";
const SETS_ALONE: &str = "store that sets marks beside none";
const SETS_BESIDE: &str = "store that sets marks beside others";
const CLEARS_ALONE: &str = "store that clears marks beside none";
const CLEARS_BESIDE: &str = "store that clears marks beside others";

/// The classes of runs.
const ENDS_INSIDE: &str = "memory that ends inside a mark byte";
const ROUNDED_DOWN: &str = "refused slice, rounded down";
const BYTE_FOR_EACH: &str = "refused slice, a byte for each";
const FIRST_PAST_END: &str = "refused bit, the first past the end alone";

/// All of them, in the order of their lines.
pub(super) const CLASSES: [&str; 11] = [
    FETCH_BESIDE,
    LOAD_OF,
    LOAD_BESIDE,
    SETS_ALONE,
    SETS_BESIDE,
    CLEARS_ALONE,
    CLEARS_BESIDE,
    ENDS_INSIDE,
    ROUNDED_DOWN,
    BYTE_FOR_EACH,
    FIRST_PAST_END,
];

/// A load or store at an address.
struct Access {
    stores: bool,
    address: u32,
    width: Width,
}

/// The marks around the step that comes next.
pub(super) struct Before {
    access: Option<Access>,
    /// The mark bytes of the program counter and of the access.
    fetched: u8,
    reached: u8,
}

impl Before {
    pub fn new(state: &State, memory: &[u8], marks: &[u8]) -> Before {
        let access = access(state, memory);
        let reached = access.as_ref().map_or(0, |access| mark_byte(marks, access.address));
        Before { access, fetched: mark_byte(marks, state.pc), reached }
    }

    /// The classes of the step, whose instruction was done and left these marks.
    pub fn classes(&self, marks: &[u8]) -> impl Iterator<Item = &'static str> {
        let fetch = (self.fetched != 0).then_some(FETCH_BESIDE);
        let access = self.access.as_ref().and_then(|access| self.class_of(access, marks));
        fetch.into_iter().chain(access)
    }

    /// The class of a load, or of a store after which these are the marks.
    fn class_of(&self, access: &Access, marks: &[u8]) -> Option<&'static str> {
        let first = access.address % 8;
        let own = (first..first + access.width.bytes()).fold(0, |bits, bit| bits | 1 << bit);
        let (before, after) = (self.reached, mark_byte(marks, access.address));
        let beside = before & !own != 0;
        match (access.stores, before & own, after & own) {
            (false, 0, _) => beside.then_some(LOAD_BESIDE),
            (false, ..) => Some(LOAD_OF),
            (true, before, after) if after & !before != 0 => {
                Some(if beside { SETS_BESIDE } else { SETS_ALONE })
            }
            (true, before, after) if before & !after != 0 => {
                Some(if beside { CLEARS_BESIDE } else { CLEARS_ALONE })
            }
            _ => None,
        }
    }
}

/// The mark byte of an address; 0 outside.
fn mark_byte(marks: &[u8], address: u32) -> u8 {
    marks.get(address as usize / 8).copied().unwrap_or(0)
}

/// The load or store by a base register that the program counter is at.
fn access(state: &State, memory: &[u8]) -> Option<Access> {
    let half = memory.get(state.pc as usize..)?.first_chunk().copied()?;
    let (stores, width, units, rb) = match decode(u16::from_be_bytes(half), 0)? {
        Instr::Load { width, uimm4, rb, .. } => (false, width, uimm4, rb),
        Instr::Store { width, uimm4, rb, .. } => (true, width, uimm4, rb),
        _ => return None,
    };
    let address = data_address(state.registers[rb as usize].value, units, width);
    Some(Access { stores, address, width })
}

/// The class of a run with this reply over memory of this length.
pub(super) fn class_of_run(reply: Reply, length: usize, marks: &[u8]) -> Option<&'static str> {
    let inside = !length.is_multiple_of(8);
    match reply {
        Reply::MarkLength if inside && marks.len() == length / 8 => Some(ROUNDED_DOWN),
        Reply::MarkLength if marks.len() == length => Some(BYTE_FOR_EACH),
        Reply::MarkPastEnd => {
            let alone = (length + 1..8 * marks.len()).all(|place| !is_marked(marks, place));
            alone.then_some(FIRST_PAST_END)
        }
        reply if !reply.is_refusal() && inside => Some(ENDS_INSIDE),
        _ => None,
    }
}
