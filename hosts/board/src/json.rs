//! The report for machines. A marked content is null, wherever it stands.

use serde_json::{json, Value};

use crate::checks::{Ask, Check, Event};
use crate::entries::Nested;
use crate::history::{Moment, Origin, Past};
use crate::place::{self, CY, TF};
use crate::regions::{Reached, Region};
use crate::report::{entry_words, hwdbg_flags, psw_flags, Report, Until};
use crate::why::{Link, Where, Why};

/// The whole report as a text with a newline at its end.
pub fn text(report: &Report) -> Result<String, String> {
    let text = serde_json::to_string_pretty(&value(report));
    text.map(|text| text + "\n").map_err(|error| error.to_string())
}

fn value(report: &Report) -> Value {
    let ended = report.ended;
    let state = &report.machine.state;
    json!({
        "image": report.image,
        "reply": { "number": ended.reply.number(), "words": ended.reply.to_string() },
        "steps": ended.steps,
        "cycles": ended.cycles,
        "seconds": report.seconds(),
        "pc": place(report, state.pc),
        "instruction": report.at_pc,
        "registers": contents(report, 0..16),
        "flags": contents(report, TF..CY + 1),
        "psw": psw_flags(state),
        "hwdbg": hwdbg_flags(state),
        "special": contents(report, place::sfr(0)..place::sfr(11)),
        "pending": state.pending,
        "cycle_count": state.cycles,
        "regions": each(&report.checks.regions, |region| region_value(report, region)),
        "checks": each(&report.checks.checks, |check| check_value(report, check)),
        "holds": report.holds(),
        "why": report.why.as_ref().map(|why| why_value(report, why)),
        "moments": each(&report.moments, |(until, moment)| moment_value(report, *until, moment)),
    })
}

fn each<T>(all: &[T], value: impl Fn(&T) -> Value) -> Vec<Value> {
    all.iter().map(value).collect()
}

/// An address with its name.
fn place(report: &Report, address: u32) -> Value {
    json!({ "address": address, "symbol": report.symbol(address) })
}

fn content(place: u8, content: Option<u32>) -> Value {
    json!({ "name": place::name(place), "content": content, "marked": content.is_none() })
}

fn contents(report: &Report, places: std::ops::Range<u8>) -> Vec<Value> {
    let state = &report.machine.state;
    places.map(|place| content(place, place::content(state, place))).collect()
}

/// A step with its place, and a value by its name.
fn event(report: &Report, event: &Event, name: &str, value: Option<u32>) -> Value {
    let instruction = event.instruction.as_ref().map(|instruction| instruction.words());
    json!({
        "step": event.step,
        "after": event.is_after,
        "pc": place(report, event.pc),
        "instruction": instruction,
        name: value,
    })
}

fn reached(report: &Report, reached: &Reached) -> Value {
    event(report, &Event::from(reached), "address", Some(reached.address))
}

fn region_value(report: &Report, region: &Region) -> Value {
    json!({
        "name": region.name,
        "address": region.range.start,
        "length": region.range.len(),
        "marked": region.marked(report.machine),
        "stored": region.stored.as_ref().map(|first| reached(report, first)),
        "lost": region.lost.as_ref().map(|first| reached(report, first)),
    })
}

fn check_value(report: &Report, check: &Check) -> Value {
    let name = if matches!(check.ask, Ask::Floor(_)) { "r0" } else { "address" };
    json!({
        "check": check.option,
        "holds": check.holds(report.ended.reply),
        "event": check.event.as_ref().map(|first| event(report, first, name, first.value)),
    })
}

fn why_value(report: &Report, why: &Why) -> Value {
    let links = |links: &Vec<Link>| each(links, |link| link_value(report, link)).into();
    json!({ "instruction": why.instruction, "causes": each(&why.causes, links) })
}

fn link_value(report: &Report, link: &Link) -> Value {
    let origin = link.origin.as_ref().map(|origin| origin_value(report, origin));
    match link.place {
        Where::Place(place) => json!({ "place": place::name(place), "origin": origin }),
        Where::Byte(at) => json!({ "byte": at, "origin": origin }),
    }
}

fn origin_value(report: &Report, origin: &Origin) -> Value {
    json!({
        "step": origin.step,
        "pc": place(report, origin.instruction.address),
        "instruction": origin.instruction.words(),
        "address": origin.address,
    })
}

fn moment_value(report: &Report, until: Until, moment: &Moment) -> Value {
    let inner: Vec<Value> =
        moment.entries.inner.iter().map(|nested| nested_value(report, nested)).collect();
    json!({
        "until": if until == Until::End { "end" } else { "failure" },
        "steps": each(&moment.steps, |past| past_value(report, past)),
        "entries": {
            "outer": each(&moment.entries.outer, |nested| nested_value(report, nested)),
            "between": moment.entries.between,
            "inner": inner,
        },
    })
}

fn past_value(report: &Report, past: &Past) -> Value {
    json!({
        "step": past.number,
        "pc": place(report, past.line.pc),
        "entry": past.line.entry.map(entry_words),
        "address": past.line.address,
        "instruction": past.instruction.as_ref().map(|instruction| instruction.words()),
        "writes": each(past.written.contents(), |&(place, value)| content(place, value)),
    })
}

fn nested_value(report: &Report, nested: &Nested) -> Value {
    json!({
        "step": nested.step,
        "from": place(report, nested.from),
        "entry": entry_words(nested.entry),
    })
}
