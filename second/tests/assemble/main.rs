//! The assembler against document 02's ticket 4: lines and bytes typed by hand from its rules, each
//! refusal and their order, and the way back from listings.

mod expressions;
mod grammar;
mod labels;
mod lines;
mod listings;
mod long_texts;
mod places;
mod refusals;
mod rig;
