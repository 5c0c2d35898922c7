//! The examples that pages of `docs/` tell, and what these pages say of them.

mod build31;
mod bus_errors;
mod files;
mod nested;
mod shifts;
mod sources;
