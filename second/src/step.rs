//! One step (document 01): an interrupt, else a breakpoint, else one instruction with its
//! watchpoint or its bus error (document 02, ticket 5); then its cost is counted, and TIMER falls by
//! it (ticket 6).

use crate::cost;
use crate::execute::{instruction, Effect};
use crate::reply::Reply;
use crate::state::{hwdbg, psw, State};

/// An entry, with what the state shows of it (document 01, "One step").
#[derive(Clone, Copy, Debug, PartialEq, Eq, Hash)]
pub enum Entry {
    /// By swint, with its 4 bits, which PSW 19:16 show.
    Swint(u32),
    /// By a breakpoint or by watchpoints, with the hit as HWDBG shows it, in the bits of
    /// `hwdbg::HITS`.
    Debug(u32),
    /// By the timer.
    Timer,
    /// By an external line, with its number, 0 to 5; PSW 31:26 show it alone.
    External(u32),
    /// By an access outside memory; the access's own bit of PSW shows it.
    BusError(Access),
}

/// What an access outside memory was for.
#[derive(Clone, Copy, Debug, PartialEq, Eq, Hash)]
pub enum Access {
    /// An instruction: bit 15.
    Fetch,
    /// A load or store (ldrpc too): bit 14.
    Data,
}

impl Entry {
    /// The low 8 bits of the program counter after the entry.
    const fn vector(self) -> u32 {
        match self {
            Entry::Swint(_) | Entry::Debug(_) => 4,
            Entry::Timer => 8,
            Entry::External(_) => 12,
            Entry::BusError(_) => 16,
        }
    }
}

/// What a completed step shows, beside its changes: demand 3's program counters and addresses, and
/// the entry, as a line of ticket 9 has them.
#[derive(Clone, Copy, Debug, PartialEq, Eq, Hash)]
pub struct Step {
    /// The program counter before the step.
    pub pc: u32,
    /// The entry that was made.
    pub entry: Option<Entry>,
    /// The address, after alignment, of a load or store (ldrpc too), "a data bus error's too".
    pub address: Option<u32>,
}

/// Makes one step with these lines, bit i for line i, or stops and changes nothing.
///
/// State, memory and marks are such as `run` doesn't refuse.
#[inline]
pub fn step(
    state: &mut State,
    memory: &mut [u8],
    marks: &mut [u8],
    lines: u8,
) -> Result<Step, Reply> {
    let te_at_its_start = state.psw & psw::TE != 0;
    let mut step = Step { pc: state.pc, entry: None, address: None };
    let cost = if let Some(interrupt) = permitted_interrupt(state, lines) {
        entered(&mut step, enter_interrupt(state, interrupt))
    } else if breakpoint_hit(state) {
        entered(&mut step, enter_debug(state, hwdbg::BP_HIT))
    } else {
        match instruction(state, memory, marks)? {
            Effect::Cost(cost) => cost,
            Effect::Data(address) => {
                step.address = Some(address);
                let hit = watch(state, address);
                hit.map_or(cost::ACCESS, |entry| entered(&mut step, entry))
            }
            Effect::FetchOutside => entered(&mut step, enter_bus_error(state, Access::Fetch)),
            Effect::DataOutside(address) => {
                step.address = Some(address);
                entered(&mut step, enter_bus_error(state, Access::Data))
            }
            Effect::Swint(code) => entered(&mut step, enter_swint(state, code)),
            Effect::TimerWritten => {
                // "takes the place of that step's fall"
                state.cycles = state.cycles.wrapping_add(cost::SFR);
                return Ok(step);
            }
        }
    };
    state.cycles = state.cycles.wrapping_add(cost);
    if te_at_its_start {
        fall(state, cost);
    }
    Ok(step)
}

/// Notes the entry that a step made, and answers the step's cost.
#[inline]
fn entered(step: &mut Step, entry: Entry) -> u32 {
    step.entry = Some(entry);
    cost::entry(entry)
}

/// An interrupt that isn't asked for by an instruction.
enum Interrupt {
    Timer,
    /// An external one, with its line.
    Line(u32),
}

/// The six lines of a tape byte.
const SIX_LINES: u32 = 0x3f;

/// The interrupt that IE and IP permit: "a pending timer with TE (bit 4) set ...; otherwise the
/// lowest line i that is high and has enable bit 20+i set".
#[inline]
fn permitted_interrupt(state: &State, lines: u8) -> Option<Interrupt> {
    if state.psw & (psw::IE | psw::IP) != psw::IE {
        return None;
    }
    if state.pending && state.psw & psw::TE != 0 {
        return Some(Interrupt::Timer);
    }
    let high_and_enabled = u32::from(lines) & state.psw >> psw::ENABLE_SHIFT & SIX_LINES;
    (high_and_enabled != 0).then(|| Interrupt::Line(high_and_enabled.trailing_zeros()))
}

/// Whether an enabled breakpoint equals the program counter. Mostly none is enabled.
#[inline]
fn breakpoint_hit(state: &State) -> bool {
    let enabled = |bit| state.hwdbg & bit != 0;
    enabled(hwdbg::BP0 | hwdbg::BP1)
        && (enabled(hwdbg::BP0) && state.bp0 == state.pc
            || enabled(hwdbg::BP1) && state.bp1 == state.pc)
}

/// Debug entry after a load or store, if an enabled watchpoint equals its aligned address. If
/// both do, both hits are shown.
#[inline]
fn watch(state: &mut State, address: u32) -> Option<Entry> {
    let mut hits = 0;
    if state.hwdbg & hwdbg::WP0 != 0 && state.wp0 == address {
        hits |= hwdbg::WP0_HIT;
    }
    if state.hwdbg & hwdbg::WP1 != 0 && state.wp1 == address {
        hits |= hwdbg::WP1_HIT;
    }
    (hits != 0).then(|| enter_debug(state, hits))
}

/// What all entries have in common. The program counter is that of the instruction not yet done;
/// behind a load or store outside memory, that of the next one.
fn enter(state: &mut State, entry: Entry) -> Entry {
    state.ipc = state.pc;
    let bip = if state.psw & psw::IP != 0 { psw::BIP } else { 0 };
    state.psw = state.psw & !psw::BIP | bip | psw::IP;
    state.pc = state.ibase & !0xff | entry.vector();
    entry
}

/// "Timer entry sets TI (bit 2) and clears pending. External sets EI (bit 1) and makes bits 26 to
/// 31 show only the line taken."
#[cold]
fn enter_interrupt(state: &mut State, interrupt: Interrupt) -> Entry {
    match interrupt {
        Interrupt::Timer => {
            state.psw |= psw::TI;
            state.pending = false;
            enter(state, Entry::Timer)
        }
        Interrupt::Line(line) => {
            let status = 1 << (psw::STATUS_SHIFT + line);
            state.psw = state.psw & !psw::STATUS | status | psw::EI;
            enter(state, Entry::External(line))
        }
    }
}

/// "swint sets SW (bit 0) and puts its 4 bits in PSW 19:16."
#[cold]
fn enter_swint(state: &mut State, code: u32) -> Entry {
    state.psw = state.psw & !psw::SWI | code << psw::SWI_SHIFT | psw::SW;
    enter(state, Entry::Swint(code))
}

/// "Debug entry clears SW, sets PSW 19:16 to ones, and makes HWDBG bits 6 to 8 (BP, WP0, WP1) show
/// exactly this hit." The guide's 23:16 gives way: 23:20 are line enables.
#[cold]
fn enter_debug(state: &mut State, hits: u32) -> Entry {
    state.psw = state.psw & !psw::SW | psw::SWI;
    state.hwdbg = state.hwdbg & !hwdbg::HITS | hits;
    enter(state, Entry::Debug(hits))
}

/// "On a fetch, PSW bit 15 is set and IPC is the instruction's own address; on data, bit 14 is set,
/// IPC is the next instruction" (document 02, ticket 5). The other bit stays as it is.
#[cold]
fn enter_bus_error(state: &mut State, access: Access) -> Entry {
    state.psw |= match access {
        Access::Fetch => psw::IBER,
        Access::Data => psw::DBER,
    };
    enter(state, Entry::BusError(access))
}

/// "TIMER falls by the step's cost, to no less than 0" (document 02, ticket 6); "reaching 0 sets
/// pending. ... Zero stays zero."
#[inline]
fn fall(state: &mut State, cost: u32) {
    if state.timer != 0 {
        state.timer = state.timer.saturating_sub(cost);
        if state.timer == 0 {
            state.pending = true;
        }
    }
}
