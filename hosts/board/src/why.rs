//! Why a run stopped: the instruction, what was marked, and where that mark came from.

use std::ops::Range;

use manik::Reply;

use crate::effect::Access;
use crate::history::{History, Origin};
use crate::instruction::Listing;
use crate::machine::Machine;
use crate::place::{self, Places};

/// So many instructions are told behind each other.
const LONGEST: usize = 8;

/// Something that a mark, or bits that are no instruction, came through.
pub struct Link {
    /// `r8`, `tf`, or a byte of memory.
    pub place: Where,
    /// The last instruction that wrote it; none if it is from the start.
    pub origin: Option<Origin>,
}

#[derive(Clone, Copy, PartialEq, Eq)]
pub enum Where {
    Place(u8),
    Byte(usize),
}

pub struct Why {
    /// The stopping instruction; none if its bits are marked.
    pub instruction: Option<String>,
    /// For each cause: where it came from, the last first.
    pub causes: Vec<Vec<Link>>,
}

/// Why the next step of this machine is not made.
pub fn why(reply: Reply, machine: &Machine, history: &History, listing: &mut Listing) -> Why {
    let causes: Vec<Where> = match reply {
        Reply::FetchMarked => marked_byte(machine).map(Where::Byte).into_iter().collect(),
        Reply::NoInstruction => vec![Where::Byte(machine.state.pc as usize)],
        Reply::OperandMarked => {
            let needs = listing.at(&machine.memory, machine.state.pc);
            let needs = needs.map_or(Places::NONE, |instruction| instruction.effect.needs);
            needs.and(place::marked(&machine.state)).iter().map(Where::Place).collect()
        }
        _ => Vec::new(),
    };
    Why {
        instruction: words_at(machine, listing, machine.state.pc),
        causes: causes.into_iter().map(|cause| chain(cause, machine, history)).collect(),
    }
}

/// The instruction at an address; none if there is none, or a byte of it is marked.
pub fn words_at(machine: &Machine, listing: &mut Listing, address: u32) -> Option<String> {
    let instruction = listing.at(&machine.memory, address)?;
    let start = address as usize;
    let is_marked = machine.marks.any(start..start + instruction.size());
    (!is_marked).then(|| instruction.words())
}

/// The first marked byte of the fetch.
fn marked_byte(machine: &Machine) -> Option<usize> {
    let start = machine.state.pc as usize;
    let end = machine.memory.len().min(start + 4);
    (start..end).find(|&at| machine.marks.get(at))
}

/// Follows what was written last, back as far as what it was made from is still there.
fn chain(cause: Where, machine: &Machine, history: &History) -> Vec<Link> {
    let mut links = Vec::new();
    let mut next = Some(cause);
    let mut before = u64::MAX;
    while let Some(place) = next.filter(|_| links.len() < LONGEST) {
        let origin = match place {
            Where::Place(place) => history.place(place),
            Where::Byte(at) => history.byte(at),
        };
        // What was written again since then tells nothing of it.
        if origin.is_some_and(|origin| origin.step >= before) {
            break;
        }
        next = origin.and_then(|origin| source(origin, machine));
        before = origin.map_or(0, |origin| origin.step);
        links.push(Link { place, origin: origin.cloned() });
    }
    links
}

/// What an instruction had its mark from.
fn source(origin: &Origin, machine: &Machine) -> Option<Where> {
    if let Some(Access::Load(width)) = origin.instruction.effect.access {
        let start = origin.address? as usize;
        let bytes: Range<usize> = start..start + width;
        return bytes.into_iter().find(|&at| machine.marks.get(at)).map(Where::Byte);
    }
    origin.marked.iter().next().map(Where::Place)
}
