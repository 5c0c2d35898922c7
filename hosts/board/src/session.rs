//! A run from its start to its end: in large parts, or step by step where something asks for it.

use std::ops::Range;

use manik::Reply;

use crate::machine::Machine;
use crate::progress::Progress;
use crate::tape::Tape;
use crate::watch::{watch, Watchers};

/// Steps of a part that nobody watches, and of one that is watched.
const PLAIN: u64 = 1 << 20;
const WATCHED: u64 = 1 << 14;

/// How a run ended.
#[derive(Clone, Copy)]
pub struct Ended {
    pub reply: Reply,
    pub steps: u64,
    /// The cycles of this run, which may be more than the state can count.
    pub cycles: u64,
}

/// Runs up to `budget` steps, and watches those of `window`, counted from 1.
pub fn run(
    machine: &mut Machine,
    tape: &mut Tape,
    budget: u64,
    window: &Range<u64>,
    watchers: &mut Watchers,
) -> Result<Ended, String> {
    let mut progress = Progress::new(budget);
    // A state that is refused is so before any step, whatever the budget.
    let mut ended = Ended { reply: machine.run(&[])?.reply, steps: 0, cycles: 0 };
    while ended.reply == Reply::BudgetUsed && ended.steps < budget {
        let (count, is_watched) = part(ended.steps, budget, window);
        let lines = tape.part(ended.steps, count)?;
        let before = machine.state.cycles;
        let outcome = if is_watched {
            watch(machine, lines, ended.steps, watchers)?
        } else {
            machine.run(lines)?
        };
        ended.reply = outcome.reply;
        ended.steps += outcome.steps;
        // A part is so short that the count goes round at most once.
        ended.cycles += u64::from(outcome.cycles.wrapping_sub(before));
        progress.at(ended.steps);
    }
    Ok(ended)
}

/// How many steps the next part has, and whether they are watched.
fn part(done: u64, budget: u64, window: &Range<u64>) -> (usize, bool) {
    let next = done + 1;
    let is_watched = window.contains(&next);
    let (most, end) = if is_watched {
        (WATCHED, window.end - next)
    } else if next < window.start {
        (PLAIN, window.start - next)
    } else {
        (PLAIN, u64::MAX)
    };
    (most.min(end).min(budget - done) as usize, is_watched)
}

#[cfg(test)]
mod tests {
    use super::*;

    #[test]
    fn parts() {
        assert_eq!(part(0, 100, &(1..u64::MAX)), (100, true));
        assert_eq!(part(0, 100, &(0..0)), (100, false));
        assert_eq!(part(0, 100, &(11..21)), (10, false));
        assert_eq!(part(10, 100, &(11..21)), (10, true));
        assert_eq!(part(20, 100, &(11..21)), (80, false));
        assert_eq!(part(0, u64::MAX, &(0..0)), (1 << 20, false));
    }
}
