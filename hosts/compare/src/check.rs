//! What is compared: two programs on one input, and two inputs that differ where marked.

use second::run::Outcome;
use second::step::Step;

use crate::machine::{blotted, by_second, End, Input, Observed};

/// What one case showed.
pub struct Agreement {
    /// None if the record is out of shape.
    pub outcome: Option<Outcome>,
    /// Whether steps were made and the two runs' ends still differ, in marked contents of course.
    pub told_apart: bool,
}

/// A comparison that failed.
#[derive(Debug)]
pub struct Disagreement {
    /// What was compared.
    pub about: &'static str,
    /// The two sides, and the first thing in which they differ.
    pub text: String,
}

/// Runs an input, and one with other contents where marked, through the library and the second
/// program. All four ends are compared, and the traces of the second program's two runs.
pub fn check(
    input: &Input,
    scrambled: &Input,
    library: impl Fn(&Input) -> End,
) -> Result<Agreement, Disagreement> {
    let Observed { end, outcome, trace } = by_second(input);
    same_end("library and second program", &library(input), &end)?;
    let other = by_second(scrambled);
    let other_end = library(scrambled);
    same_end("library and second program, scrambled", &other_end, &other.end)?;
    same_trace(&trace, &other.trace)?;
    let told_apart = end.steps > 0 && end != other_end;
    same_end("first run and scrambled run", &blotted(end), &blotted(other_end))?;
    Ok(Agreement { outcome, told_apart })
}

fn same_end(about: &'static str, one: &End, other: &End) -> Result<(), Disagreement> {
    if one == other {
        return Ok(());
    }
    let text = format!(
        "replies {:?}, steps {:?}, record {}, memory {}, marks {}",
        (one.reply, other.reply),
        (one.steps, other.steps),
        first_difference(&one.record, &other.record),
        first_difference(&one.memory, &other.memory),
        first_difference(&one.marks, &other.marks),
    );
    Err(Disagreement { about, text })
}

fn same_trace(one: &[Step], other: &[Step]) -> Result<(), Disagreement> {
    if one == other {
        return Ok(());
    }
    let place = one.iter().zip(other).take_while(|(one, other)| one == other).count();
    let number = place + 1;
    let text = format!("step {number}: {:x?} and {:x?}", one.get(place), other.get(place));
    Err(Disagreement { about: "traces of the first and the scrambled run", text })
}

/// Where bytes differ first.
pub fn first_difference(one: &[u8], other: &[u8]) -> String {
    if one == other {
        return "equal".to_string();
    }
    let place = one.iter().zip(other).take_while(|(one, other)| one == other).count();
    format!("differs at {place:#x}: {:x?} and {:x?}", one.get(place), other.get(place))
}
