//! The line tape: a byte for each step, bit i for line i. It is read in parts, so a long one needs
//! little memory, and it can be read again from any step on.

use std::fs::File;
use std::io::{Read, Seek, SeekFrom};
use std::path::{Path, PathBuf};

use crate::files::{self, told};
use crate::number::number;

/// The highest tape byte: six lines.
const HIGHEST: u8 = 63;

/// Where the lines come from.
enum Source {
    /// All lines are low in all steps.
    Low,
    File(PathBuf, File),
    Lines(Vec<Span>),
}

/// A line is high from one step to another, both counted from 1.
struct Span {
    from: u64,
    to: u64,
    line: u8,
}

pub struct Tape {
    source: Source,
    part: Vec<u8>,
}

impl Tape {
    pub fn low() -> Tape {
        Tape { source: Source::Low, part: Vec::new() }
    }

    /// A file with a byte for each step.
    pub fn open(path: &Path) -> Result<Tape, String> {
        let file = File::open(path).map_err(|error| told(path, error))?;
        let is_file = file.metadata().map_err(|error| told(path, error))?.is_file();
        if !is_file {
            return Err(told(path, "a tape is a plain file"));
        }
        Ok(Tape { source: Source::File(path.into(), file), part: Vec::new() })
    }

    /// A text in which each line says from which step to which step a line is high. Empty lines and
    /// those that begin with # say nothing; nor has one line to stand before another.
    pub fn read_lines(path: &Path) -> Result<Tape, String> {
        let text = files::read_text(path)?;
        let spans = files::said_lines(&text)
            .map(|(n, line)| span(line).map_err(|why| told(path, format!("line {n}: {why}"))));
        Ok(Tape { source: Source::Lines(spans.collect::<Result<_, _>>()?), part: Vec::new() })
    }

    /// How many steps a tape file has; none if it has no end.
    pub fn length(&self) -> Option<u64> {
        match &self.source {
            Source::File(_, file) => file.metadata().ok().map(|metadata| metadata.len()),
            _ => None,
        }
    }

    /// Whether it has a good byte for each step of the budget.
    pub fn check(&mut self, budget: u64) -> Result<(), String> {
        let Some(length) = self.length() else { return Ok(()) };
        if length < budget {
            let path = self.path();
            return Err(told(
                &path,
                format!("{length} bytes, shorter than the budget of {budget}"),
            ));
        }
        let mut done = 0;
        while done < budget {
            let part = self.part(done, (budget - done).min(1 << 16) as usize)?;
            if let Some(at) = part.iter().position(|&byte| byte > HIGHEST) {
                let (step, byte) = (done + at as u64 + 1, part[at]);
                return Err(told(&self.path(), format!("step {step}: byte {byte} is above 63")));
            }
            done += part.len() as u64;
        }
        Ok(())
    }

    fn path(&self) -> PathBuf {
        match &self.source {
            Source::File(path, _) => path.clone(),
            _ => PathBuf::new(),
        }
    }

    /// The bytes of the next `count` steps after `done` ones.
    pub fn part(&mut self, done: u64, count: usize) -> Result<&[u8], String> {
        match &mut self.source {
            Source::Low => self.part.resize(count, 0),
            Source::File(path, file) => {
                self.part.resize(count, 0);
                let read =
                    file.seek(SeekFrom::Start(done)).and_then(|_| file.read_exact(&mut self.part));
                read.map_err(|error| told(path, error))?;
            }
            Source::Lines(spans) => {
                self.part.clear();
                self.part.resize(count, 0);
                spans.iter().for_each(|span| span.raise(done, &mut self.part));
            }
        }
        Ok(&self.part[..count])
    }
}

impl Span {
    /// Sets its line in the part of the tape that begins after `done` steps.
    fn raise(&self, done: u64, part: &mut [u8]) {
        let place = |steps: u64| steps.saturating_sub(done).min(part.len() as u64) as usize;
        let (start, end) = (place(self.from - 1), place(self.to));
        part[start..end].iter_mut().for_each(|byte| *byte |= 1 << self.line);
    }
}

fn span(text: &str) -> Result<Span, String> {
    let fields: Vec<&str> = text.split('\t').collect();
    let [from, to, line] = fields[..] else {
        return Err("no three fields: from step, to step and line, parted by tabs".into());
    };
    let (from, to, line) = (number(from)?, number(to)?, number(line)?);
    if from == 0 || to < from {
        return Err("steps count from 1 on, and the first is not above the last".into());
    }
    if line > 5 {
        return Err("lines are 0 to 5".into());
    }
    Ok(Span { from, to, line: line as u8 })
}

#[cfg(test)]
mod tests {
    use super::*;

    #[test]
    fn spans() {
        let spans = vec![span("2\t3\t0").unwrap(), span("3\t0xff\t5").unwrap()];
        let mut tape = Tape { source: Source::Lines(spans), part: Vec::new() };
        assert_eq!(tape.part(0, 4), Ok(&[0, 1, 33, 32][..]));
        assert_eq!(tape.part(253, 4), Ok(&[32, 32, 0, 0][..]));
        assert_eq!(tape.part(300, 2), Ok(&[0, 0][..]));
        for text in ["1\t2", "0\t1\t2", "3\t2\t1", "1\t1\t6", "1\t1\t1\t", "a\t1\t1"] {
            assert!(span(text).is_err(), "{text}");
        }
    }
}
