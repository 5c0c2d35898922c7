//! The machine against document 01, one module for each of its headings, and against the tickets of
//! document 02 that change it.

mod bus_errors;
#[path = "../generator/cases.rs"]
mod cases;
mod cycles;
mod edges;
#[path = "../generator/mod.rs"]
mod generator;
mod instructions;
mod mark_bits;
mod marks;
mod one_step;
mod properties;
mod replies;
mod rig;
mod state;
mod timer;
mod trace;
