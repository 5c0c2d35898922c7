//! Tests of the board runner as a user calls it: words, exit status, what it writes and says.

mod bad_input;
mod builds;
mod checks;
mod forms;
mod outputs;
mod parts;
mod rig;
mod secrecy;
mod stops;
mod trace;
