//! Document 01's edges as named cases, one group for each part of it, and those of document 02's
//! tickets.

mod accesses;
mod bus_errors;
mod cycles;
mod entries;
mod jumps;
mod mark_bits;
mod marks;
mod replies;
mod special;
mod timer;
mod words;

use super::Case;

/// Every edge.
pub fn edges() -> Vec<Case> {
    [
        accesses::cases(),
        entries::cases(),
        timer::cases(),
        special::cases(),
        jumps::cases(),
        words::cases(),
        marks::cases(),
        replies::cases(),
        bus_errors::cases(),
        cycles::cases(),
        mark_bits::cases(),
    ]
    .concat()
}
