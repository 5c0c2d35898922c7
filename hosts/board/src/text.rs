//! The report in words. What is marked is written as stars.

use crate::checks::{Ask, Check, Event};
use crate::entries::{Entries, Nested};
use crate::history::{Moment, Origin, Past};
use crate::place::{self, CY, TF};
use crate::regions::{Reached, Region};
use crate::report::{entry_words, hwdbg_flags, psw_flags, time, Report, Until};
use crate::trace::digits;
use crate::why::{Link, Where, Why};

/// The whole answer.
pub fn text(report: &Report) -> String {
    let mut lines = head(report);
    lines.extend(state(report));
    lines.extend(report.checks.regions.iter().flat_map(|region| region_lines(report, region)));
    lines.extend(report.checks.checks.iter().map(|check| check_line(report, check)));
    if let Some(why) = &report.why {
        lines.push(String::new());
        lines.extend(why_lines(report, why));
    }
    for (until, moment) in &report.moments {
        lines.push(String::new());
        lines.extend(moment_lines(report, *until, moment));
    }
    lines.iter().map(|line| format!("{}\n", line.trim_end())).collect()
}

/// A line with a name before it.
fn named(name: &str, words: impl std::fmt::Display) -> String {
    format!("{name:<8} {words}")
}

fn head(report: &Report) -> Vec<String> {
    let ended = report.ended;
    let cycles = format!("{}, {} at 24 MHz", ended.cycles, time(report.seconds()));
    let pc = report.machine.state.pc;
    let at_pc = instruction(report, report.at_pc.as_deref());
    vec![
        named("image", &report.image),
        named("reply", format!("{}: {}", ended.reply.number(), ended.reply)),
        named("steps", ended.steps),
        named("cycles", cycles),
        named("pc", format!("{}: {at_pc}", report.place(pc))),
    ]
}

/// The instruction at the program counter.
fn instruction<'a>(report: &Report, words: Option<&'a str>) -> &'a str {
    let is_inside = (report.machine.state.pc as usize) < report.machine.memory.len();
    words.unwrap_or(if is_inside { "********" } else { "outside memory" })
}

/// Registers in four columns, flags, and SFRs.
fn state(report: &Report) -> Vec<String> {
    let state = &report.machine.state;
    let content = |place: u8| {
        let shown = place::shown(place, place::content(state, place));
        format!("{:<8} {shown:<8}", place::name(place))
    };
    let row = |places: Vec<u8>| places.into_iter().map(content).collect::<Vec<_>>().join("  ");
    let mut lines = vec![String::new()];
    lines.extend((0..4).map(|n| row(vec![n, n + 4, n + 8, n + 12])));
    lines.push(format!("{}  {}", row(vec![TF, CY, place::sfr(0)]), psw_flags(state).join(" ")));
    lines.push(row([1, 2, 3, 4].map(place::sfr).to_vec()));
    lines.push(row([5, 7, 8].map(place::sfr).to_vec()));
    lines.push(format!(
        "{}  {}",
        row([9, 10, 6].map(place::sfr).to_vec()),
        hwdbg_flags(state).join(" ")
    ));
    let pending = if state.pending { "timer pending" } else { "timer not pending" };
    lines.push(format!("cycle count {:08x}, {pending}", state.cycles));
    if !report.checks.regions.is_empty() || !report.checks.checks.is_empty() {
        lines.push(String::new());
    }
    lines
}

/// A step with its place and instruction.
fn event(report: &Report, event: &Event) -> String {
    let after = if event.is_after { "after " } else { "" };
    let step = format!("{after}step {}, {}", event.step, report.place(event.pc));
    match &event.instruction {
        Some(instruction) => format!("{step}: {}", instruction.words()),
        None => step,
    }
}

fn reached(report: &Report, reached: &Reached) -> String {
    format!("{}, address {:08x}", event(report, &Event::from(reached)), reached.address)
}

fn region_lines(report: &Report, region: &Region) -> Vec<String> {
    let (length, marked) = (region.range.len(), region.marked(report.machine));
    let last = region.range.end - 1;
    let contents = match &region.stored {
        Some(first) => format!("stored to, first in {}", reached(report, first)),
        None => "kept: no store came there".into(),
    };
    let marks = match &region.lost {
        Some(first) => {
            format!("{marked} of {length} left; lost first in {}", reached(report, first))
        }
        None => format!("all {length} kept"),
    };
    vec![
        named(&region.name, format!("{:08x} to {last:08x}", region.range.start)),
        named("", format!("contents {contents}")),
        named("", format!("marks {marks}")),
    ]
}

fn check_line(report: &Report, check: &Check) -> String {
    let holds = check.holds(report.ended.reply);
    let mut line = named(if holds { "holds" } else { "FAILED" }, &check.option);
    let told = match (&check.ask, &check.event) {
        (Ask::Expect(_), _) if !holds => Some(format!("it is {}", report.ended.reply.number())),
        (Ask::Reach(_), None) => Some("it never comes there".into()),
        (Ask::Keep(_), Some(first)) => {
            let address =
                first.value.map_or(String::new(), |value| format!(", address {value:08x}"));
            Some(format!("{}{address}", event(report, first)))
        }
        (Ask::Floor(_), Some(first)) => {
            let r0 = place::shown(0, first.value);
            Some(format!("{}, r0 is {r0}", event(report, first)))
        }
        (_, Some(first)) => Some(event(report, first)),
        _ => None,
    };
    if let Some(told) = told {
        line.push_str(&format!(": {told}"));
    }
    line
}

fn why_lines(report: &Report, why: &Why) -> Vec<String> {
    let reply = report.ended.reply;
    let mut lines = vec![format!("why it ended: {reply}")];
    let instruction = instruction(report, why.instruction.as_deref());
    lines.push(format!("  {}: {instruction}", report.place(report.machine.state.pc)));
    for links in &why.causes {
        for (n, link) in links.iter().enumerate() {
            let from = if n == 0 { "" } else { "from " };
            lines.push(format!("  {}{from}{}", "  ".repeat(n), link_words(report, link)));
        }
    }
    lines
}

fn link_words(report: &Report, link: &Link) -> String {
    let place = match link.place {
        Where::Place(place) => place::name(place),
        Where::Byte(at) => format!("the byte at {}", region_place(report, at)),
    };
    match &link.origin {
        Some(origin) => format!("{place}, last written in {}", origin_words(report, origin)),
        None => format!("{place}, as it was at the start"),
    }
}

/// An address with the region it is in.
fn region_place(report: &Report, at: usize) -> String {
    let region = report.checks.regions.iter().find(|region| region.range.contains(&at));
    match region {
        Some(region) => format!("{at:08x} of {}", region.name),
        None => format!("{at:08x}"),
    }
}

fn origin_words(report: &Report, origin: &Origin) -> String {
    let place = report.place(origin.instruction.address);
    let address = match origin.address {
        Some(address) => format!(", address {}", region_place(report, address as usize)),
        None => String::new(),
    };
    format!("step {}, {place}: {}{address}", origin.step, origin.instruction.words())
}

fn moment_lines(report: &Report, until: Until, moment: &Moment) -> Vec<String> {
    let count = moment.steps.len();
    let mut lines = vec![match until {
        Until::End => format!("the last {count} steps"),
        Until::Failure => format!("the {count} steps up to the first check that failed"),
    }];
    let head = ["step", "pc", "entry", "address", "instruction"];
    lines.push(columns(head.map(String::from), "writes"));
    lines.extend(moment.steps.iter().map(past_line));
    lines.extend(entry_lines(report, &moment.entries));
    lines
}

fn entry_lines(report: &Report, entries: &Entries) -> Vec<String> {
    let line = |nested: &Nested| {
        let from = report.place(nested.from);
        format!("  step {}, from {from}: {}", nested.step, entry_words(nested.entry))
    };
    let mut lines = Vec::new();
    if !entries.outer.is_empty() {
        lines.push("entries that had not returned, the outermost first".into());
    }
    lines.extend(entries.outer.iter().map(line));
    if entries.between > 0 {
        lines.push(format!("  and {} more, before", entries.between));
    }
    lines.extend(entries.inner.iter().map(line));
    lines
}

fn columns([step, pc, entry, address, instruction]: [String; 5], writes: &str) -> String {
    format!("  {step:<10} {pc:<8} {entry:<16} {address:<8} {instruction:<22} {writes}")
}

fn past_line(past: &Past) -> String {
    let line = past.line;
    let written = past.written.contents().iter().map(|&(place, content)| {
        format!("{}={}", place::name(place), place::shown(place, content))
    });
    let instruction = past.instruction.as_ref().map_or("-".into(), |found| found.words());
    columns(
        [
            past.number.to_string(),
            digits(line.pc),
            line.entry.map_or("-".into(), entry_words),
            line.address.map_or("-".into(), digits),
            instruction,
        ],
        &written.collect::<Vec<_>>().join(" "),
    )
}
