//! Progress on standard error, where that is a terminal and the run takes more than a second.

use std::io::{self, IsTerminal};
use std::time::{Duration, Instant};

use indicatif::{ProgressBar, ProgressStyle};

pub struct Progress {
    budget: u64,
    begin: Instant,
    bar: Option<ProgressBar>,
    is_terminal: bool,
}

impl Progress {
    pub fn new(budget: u64) -> Progress {
        let is_terminal = io::stderr().is_terminal();
        Progress { budget, begin: Instant::now(), bar: None, is_terminal }
    }

    /// So many steps are made.
    pub fn at(&mut self, steps: u64) {
        if self.is_terminal && self.bar.is_none() && self.begin.elapsed() > Duration::from_secs(1) {
            let bar = ProgressBar::new(self.budget);
            let template = "{bar:30} {pos} of {len} steps, {per_sec}, {eta} left";
            if let Ok(style) = ProgressStyle::with_template(template) {
                bar.set_style(style);
            }
            self.bar = Some(bar);
        }
        if let Some(bar) = &self.bar {
            bar.set_position(steps);
        }
    }
}

impl Drop for Progress {
    fn drop(&mut self) {
        if let Some(bar) = &self.bar {
            bar.finish_and_clear();
        }
    }
}
