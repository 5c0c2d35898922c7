//! One call: runs, looks for the reason where there is one to tell, and writes what was asked for.

use std::ops::Range;
use std::path::Path;

use manik::Reply;

use crate::checks::Check;
use crate::history::{History, Moment};
use crate::instruction::Listing;
use crate::machine::Machine;
use crate::options::Options;
use crate::outputs::Outputs;
use crate::place;
use crate::plot::{Note, Plot};
use crate::report::{Report, Until};
use crate::session::{self, Ended};
use crate::setup::{bands, Setup};
use crate::trace::Trace;
use crate::watch::Watchers;
use crate::why::{why, words_at, Why};
use crate::{json, text};

/// The steps that are watched where all are.
const ALL: Range<u64> = 1..u64::MAX;

/// Runs, and writes all that the call asks for. Whether all checks hold.
pub fn run(options: &Options) -> Result<bool, String> {
    let mut setup = Setup::read(options)?;
    let mut watchers = watchers(options, &setup)?;
    let start = setup.machine.clone();
    let window = window(options, &watchers);
    let Setup { machine, tape, budget, .. } = &mut setup;
    let ended = session::run(machine, tape, *budget, &window, &mut watchers)?;
    watchers.checks.end(ended.steps, &setup.machine);
    let is_asked =
        options.why || ended.reply != Reply::BudgetUsed || fails_at_its_end(&watchers, ended);
    if is_asked && window != ALL {
        watch_again(&start, &mut setup, ended, &mut watchers)?;
    }
    let parts = Parts::new(&setup, ended, &mut watchers, is_asked);
    let report = parts.report(options, &setup, &watchers);
    let holds = report.holds();
    let words = text::text(&report);
    let machines = options.json.as_ref().map(|_| json::text(&report)).transpose()?;
    let picture = picture(&report, &watchers)?;
    Outputs { words, machines, picture, machine: &setup.machine }.write(options, watchers.trace)?;
    Ok(holds)
}

/// Whether a check fails that no step decided: where the run ended is then the place to look at.
fn fails_at_its_end(watchers: &Watchers, ended: Ended) -> bool {
    let fails = |check: &Check| !check.holds(ended.reply) && check.event.is_none();
    watchers.checks.checks.iter().any(fails)
}

fn watchers(options: &Options, setup: &Setup) -> Result<Watchers, String> {
    let memory = setup.machine.memory.len();
    let steps = options.from.unwrap_or(1)..=options.to.unwrap_or(u64::MAX);
    let trace = options.trace.as_ref().map(|path| Trace::create(path, steps));
    let plot = options.plot.as_ref().map(|_| Plot::new(&setup.machine, bands(options)));
    Ok(Watchers {
        listing: Listing::new(memory),
        history: History::new(memory),
        checks: setup.checks(options)?,
        plot,
        trace: trace.transpose()?,
        failed: None,
    })
}

/// The steps that somebody has to see. Where nobody has, the run goes in large parts.
fn window(options: &Options, watchers: &Watchers) -> Range<u64> {
    if watchers.checks.need_watching() || watchers.plot.is_some() || options.why {
        return ALL;
    }
    match &options.trace {
        Some(_) => options.from.unwrap_or(1)..options.to.unwrap_or(u64::MAX).saturating_add(1),
        None => 0..0,
    }
}

/// A run repeats exactly: so what a stop came from is looked for in a second run, and one that goes
/// through needs none.
fn watch_again(
    start: &Machine,
    setup: &mut Setup,
    ended: Ended,
    watchers: &mut Watchers,
) -> Result<(), String> {
    let trace = watchers.trace.take();
    watchers.history = History::new(start.memory.len());
    let mut machine = start.clone();
    session::run(&mut machine, &mut setup.tape, ended.steps, &ALL, watchers)?;
    watchers.trace = trace;
    Ok(())
}

/// What is found out of the end before it is told.
struct Parts {
    ended: Ended,
    at_pc: Option<String>,
    why: Option<Why>,
    moments: Vec<(Until, Moment)>,
}

impl Parts {
    fn new(setup: &Setup, ended: Ended, watchers: &mut Watchers, is_asked: bool) -> Parts {
        let Setup { machine, .. } = setup;
        let Watchers { history, listing, failed, .. } = watchers;
        let mut moments: Vec<(Until, Moment)> =
            failed.take().map(|moment| (Until::Failure, moment)).into_iter().collect();
        if is_asked {
            moments.push((Until::End, history.moment()));
        }
        Parts {
            ended,
            at_pc: words_at(machine, listing, machine.state.pc),
            why: is_asked.then(|| why(ended.reply, machine, history, listing)),
            moments,
        }
    }

    fn report<'a>(self, options: &Options, setup: &'a Setup, watchers: &'a Watchers) -> Report<'a> {
        Report {
            image: options.image.display().to_string(),
            ended: self.ended,
            machine: &setup.machine,
            at_pc: self.at_pc,
            symbols: &setup.symbols,
            checks: &watchers.checks,
            why: self.why,
            moments: self.moments,
        }
    }
}

/// The picture, if one is asked for: its end, and the first store into each region.
fn picture(report: &Report, watchers: &Watchers) -> Result<Option<String>, String> {
    let Some(plot) = &watchers.plot else { return Ok(None) };
    let Ended { reply, steps, .. } = report.ended;
    let value = place::content(&report.machine.state, 0);
    let words = format!("reply {} after {steps} steps", reply.number());
    let notes = report.checks.regions.iter().filter_map(|region| {
        let first = region.stored.as_ref()?;
        let words =
            format!("step {}: {} into {}", first.step, first.instruction.words(), region.name);
        Some(Note { step: first.step, value: Some(first.address), words })
    });
    let end = Note { step: steps, value, words };
    let title = Path::new(&report.image)
        .file_name()
        .map_or_else(String::new, |name| name.to_string_lossy().into_owned());
    plot.svg(&title, &end, &notes.collect::<Vec<_>>()).map(Some)
}
