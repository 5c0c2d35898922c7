//! A line for each step: number, program counter, entry and data address as document 02's ticket 9
//! has them, and behind them the instruction.

use std::io::{self, ErrorKind, Write};
use std::ops::RangeInclusive;
use std::path::{Path, PathBuf};

use manik::Entry;

use crate::files::{told, Aside};
use crate::watch::Step;

enum Output {
    Standard(io::BufWriter<io::Stdout>),
    File(PathBuf, Aside),
}

pub struct Trace {
    steps: RangeInclusive<u64>,
    output: Output,
    /// Nobody reads standard output any more.
    is_closed: bool,
}

impl Trace {
    /// To a file, or to standard output for `-`.
    pub fn create(path: &Path, steps: RangeInclusive<u64>) -> Result<Trace, String> {
        let output = if path == Path::new("-") {
            Output::Standard(io::BufWriter::new(io::stdout()))
        } else {
            Output::File(path.into(), Aside::create(path, false)?)
        };
        Ok(Trace { steps, output, is_closed: false })
    }

    pub fn step(&mut self, step: &Step) -> Result<(), String> {
        if !self.steps.contains(&step.number) || self.is_closed {
            return Ok(());
        }
        let line = line(step);
        let written = match &mut self.output {
            Output::Standard(output) => output.write_all(line.as_bytes()),
            Output::File(_, aside) => aside.write_all(line.as_bytes()),
        };
        self.judge(written)
    }

    fn judge(&mut self, written: io::Result<()>) -> Result<(), String> {
        match (written, &self.output) {
            (Ok(()), _) => Ok(()),
            (Err(error), Output::Standard(_)) if error.kind() == ErrorKind::BrokenPipe => {
                self.is_closed = true;
                Ok(())
            }
            (Err(error), Output::Standard(_)) => Err(format!("standard output: {error}")),
            (Err(error), Output::File(path, _)) => Err(told(path, error)),
        }
    }

    /// The file that is to be put in its place; none if the lines went to standard output.
    pub fn end(mut self) -> Result<Option<Aside>, String> {
        if let (Output::Standard(output), false) = (&mut self.output, self.is_closed) {
            let flushed = output.flush();
            self.judge(flushed)?;
        }
        Ok(match self.output {
            Output::Standard(_) => None,
            Output::File(_, aside) => Some(aside),
        })
    }
}

fn line(step: &Step) -> String {
    let line = step.line;
    let address = line.address.map_or("-".into(), digits);
    let text = step.instruction.map_or("-", |instruction| &instruction.text);
    format!("{}\t{}\t{}\t{address}\t{text}\n", step.number, digits(line.pc), code(line.entry))
}

/// An address in 4 hex digits; in 8 if it is above 65,535, where no board's line has one.
pub fn digits(address: u32) -> String {
    if address > 0xffff {
        format!("{address:08x}")
    } else {
        format!("{address:04x}")
    }
}

/// Ticket 9's letter of an entry.
pub fn code(entry: Option<Entry>) -> char {
    match entry {
        None => '-',
        Some(Entry::Swint(_)) => 's',
        Some(Entry::Debug(_)) => 'd',
        Some(Entry::Timer) => 't',
        Some(Entry::External(_)) => 'e',
        Some(Entry::FetchError | Entry::DataError) => 'b',
    }
}
