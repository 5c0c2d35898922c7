//! From the words of a call to a machine that can run, its tape, its names and its checks.

use std::ops::Range;

use crate::checks::{Ask, Checks};
use crate::files::{read_text, told};
use crate::input;
use crate::machine::Machine;
use crate::marks::Marks;
use crate::number::word;
use crate::options::{Mark, Options};
use crate::plot::Band;
use crate::regions::Region;
use crate::state_file;
use crate::symbols::Symbols;
use crate::tape::Tape;
use manik::State;

/// Steps of a run without a budget and without a tape.
const BUDGET: u64 = 1_000_000;

pub struct Setup {
    pub machine: Machine,
    pub tape: Tape,
    pub budget: u64,
    pub symbols: Symbols,
}

impl Setup {
    pub fn read(options: &Options) -> Result<Setup, String> {
        let image = input::read(&options.image, options.at, options.size)?;
        let mut marks = Marks::none(options.size);
        let state = match &options.state {
            Some(path) => {
                let text = read_text(path)?;
                let state = state_file::read(&text, &mut marks, options.size);
                let state = state.map_err(|why| told(path, why))?;
                check_form(&state).map_err(|why| told(path, why))?;
                state
            }
            None => State::fresh(),
        };
        options.marks.iter().for_each(|mark| marks.set(range(mark)));
        let symbols = match &options.symbols {
            Some(path) => Symbols::read(&read_text(path)?).map_err(|why| told(path, why))?,
            None => image.symbols,
        };
        let (tape, budget) = tape(options)?;
        Ok(Setup { machine: Machine { state, memory: image.memory, marks }, tape, budget, symbols })
    }

    /// The checks in the order of the usage.
    pub fn checks(&self, options: &Options) -> Result<Checks, String> {
        let named = options.marks.iter().filter_map(|mark| Some((mark.name.clone()?, range(mark))));
        let regions: Vec<Region> = named.map(|(name, range)| Region::new(name, range)).collect();
        let mut asked = Vec::new();
        if let Some(reply) = options.expect {
            asked.push((format!("--expect {}", reply.number()), Ask::Expect(reply)));
        }
        for name in &options.keep {
            let place = regions.iter().position(|region| region.name == *name);
            let place = place.ok_or_else(|| format!("--keep: no --mark names {name}"))?;
            asked.push((format!("--keep {name}"), Ask::Keep(place)));
        }
        if let Some(floor) = options.floor {
            asked.push((format!("--floor {floor:#x}"), Ask::Floor(floor)));
        }
        for name in &options.reach {
            asked.push((format!("--reach {name}"), Ask::Reach(self.address("reach", name)?)));
        }
        for name in &options.never {
            asked.push((format!("--never {name}"), Ask::Never(self.address("never", name)?)));
        }
        Ok(Checks::new(asked, regions, &self.machine))
    }

    /// An address, or the address of a name.
    fn address(&self, option: &str, name: &str) -> Result<u32, String> {
        let found = word(name).ok().or_else(|| self.symbols.address(name));
        found
            .ok_or_else(|| format!("--{option}: {name} is no address, and no symbol has this name"))
    }
}

/// A state that the library refuses is refused before anything else is done.
fn check_form(state: &State) -> Result<(), String> {
    let mut machine = Machine { state: state.clone(), memory: vec![0; 4], marks: Marks::none(4) };
    let reply = machine.run(&[])?.reply;
    if reply.is_refusal() {
        return Err(reply.to_string());
    }
    Ok(())
}

fn range(mark: &Mark) -> Range<usize> {
    mark.address as usize..(mark.address + mark.length) as usize
}

/// The bands of a picture: all that is marked by the call.
pub fn bands(options: &Options) -> Vec<Band> {
    let name = |mark: &Mark| mark.name.clone().unwrap_or_else(|| "marked".into());
    options.marks.iter().map(|mark| Band { name: name(mark), range: range(mark) }).collect()
}

fn tape(options: &Options) -> Result<(Tape, u64), String> {
    let mut tape = match (&options.tape, &options.lines) {
        (Some(path), _) => Tape::open(path)?,
        (None, Some(path)) => Tape::read_lines(path)?,
        (None, None) => Tape::low(),
    };
    let budget = options.budget.or(tape.length()).unwrap_or(BUDGET);
    tape.check(budget)?;
    Ok((tape, budget))
}
