//! The board runner: a firmware build with its line tape and its marked key state, in the proved
//! model. docs/BOARD.md has the whole tour.

mod checks;
mod effect;
mod entries;
mod files;
mod history;
mod input;
mod instruction;
mod json;
mod machine;
mod marks;
mod number;
mod options;
mod outputs;
mod place;
mod plot;
mod progress;
mod regions;
mod report;
mod runner;
mod samples;
mod session;
mod setup;
mod state_file;
mod symbols;
mod tape;
mod text;
mod trace;
mod watch;
mod why;

use std::process::ExitCode;

use options::Call;

fn main() -> ExitCode {
    let call = options::read(std::env::args_os().skip(1));
    let done = call.and_then(|call| match call {
        Call::Help => files::print(options::USAGE).map(|()| true),
        Call::Run(options) => runner::run(&options),
    });
    match done {
        Ok(true) => ExitCode::SUCCESS,
        Ok(false) => ExitCode::FAILURE,
        Err(why) => {
            eprintln!("manik-board: {why}");
            ExitCode::from(2)
        }
    }
}
