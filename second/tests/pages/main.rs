//! `docs/MANIK.md`, `docs/PROGRAM.md` and `docs/ASSEMBLER.md`: what their tables and examples say,
//! held to this program.

mod assembler;
mod cycles;
#[path = "../generator/mod.rs"]
mod generator;
mod instructions;
mod markdown;
mod marks;
mod program;
mod rig;
mod state;
