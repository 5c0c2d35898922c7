//! The comparer: fresh cases through the static library and through the second program.

mod assembly;
mod cases;
mod check;
mod listing;
mod machine;
mod many;
mod random;
mod report;
#[cfg(test)]
mod tests;

use std::env;
use std::io::{self, ErrorKind, Write};
use std::process::ExitCode;

use cases::Cases;
use check::{check, Disagreement};
use machine::{by_library, scrambled};
use many::{compare_all, cores, Compare};
use random::Random;
use report::Reached;

const USAGE: &str = include_str!("usage.txt");

/// With as many cases as this, something that was not reached is a failure.
const MANY: u64 = 20_000;

/// What a call writes, and whether all was as it should be.
struct Verdict {
    text: String,
    good: bool,
}

fn main() -> ExitCode {
    let arguments: Vec<String> = env::args().skip(1).collect();
    let arguments: Vec<&str> = arguments.iter().map(String::as_str).collect();
    let numbers: Option<Vec<u64>> = arguments
        .iter()
        .filter(|&&argument| !["--case", "--texts"].contains(&argument))
        .map(|n| n.parse().ok())
        .collect();
    match (&arguments[..], numbers.as_deref()) {
        (["--case", _, _], Some(&[seed, index])) => tell(one(seed, index)),
        (["--texts", _, _], Some(&[n, seed])) => tell(texts(n, seed, cores())),
        ([_, _], Some(&[n, seed])) => tell(many(n, seed, cores())),
        _ => {
            eprint!("{USAGE}");
            ExitCode::from(2)
        }
    }
}

/// Writes the text. Whoever closed the output wants no more of it; the status tells all the same.
fn tell(Verdict { text, good }: Verdict) -> ExitCode {
    let mut output = io::stdout().lock();
    match output.write_all(text.as_bytes()).and_then(|()| output.flush()) {
        Err(error) if error.kind() != ErrorKind::BrokenPipe => {
            eprintln!("tools/compare: {error}");
            ExitCode::FAILURE
        }
        _ if good => ExitCode::SUCCESS,
        _ => ExitCode::FAILURE,
    }
}

/// Compares many cases on so many threads.
fn many(n: u64, seed: u64, threads: usize) -> Verdict {
    let cases = Cases::new();
    let compare = |index, reached: &mut Reached| compare(&cases, seed, index, reached);
    let all = "Every refusal, stop, entry, instruction, class of marks and kind of listing and \
               text was reached.";
    verdict(n, seed, threads, Reached::default, compare, all)
}

/// Compares the texts of many cases, and nothing else of them.
fn texts(n: u64, seed: u64, threads: usize) -> Verdict {
    let compare = |index, reached: &mut Reached| compare_texts(seed, index, reached);
    let all = "Every refusal and kind of text was reached.";
    verdict(n, seed, threads, Reached::by_texts, compare, all)
}

/// The verdict on many cases: what they reached, or the lowest that disagrees.
fn verdict(
    n: u64,
    seed: u64,
    threads: usize,
    none: fn() -> Reached,
    compare: impl Compare,
    all: &str,
) -> Verdict {
    match compare_all(n, threads, none, compare) {
        Ok(reached) => summary(n, seed, &reached, all),
        Err((index, Disagreement { about, text })) => {
            let text = format!(
                "case {index} of seed {seed}: {about}\n{text}\n\
                 alone: tools/compare --case {seed} {index}\n"
            );
            Verdict { text, good: false }
        }
    }
}

/// Compares a case: its run, the calls of its listing, and those of its text.
fn compare(
    cases: &Cases,
    seed: u64,
    index: u64,
    reached: &mut Reached,
) -> Result<(), Disagreement> {
    let mut random = Random::new(seed, index);
    let input = cases.case(&mut random);
    let agreement = check(&input, &scrambled(&input, &mut random), by_library)?;
    reached.add(input, agreement.outcome, agreement.told_apart);
    for call in listing::calls(seed, index) {
        let listed = listing::check(&call, listing::by_library)?;
        reached.add_listing(&call.case, &listed);
    }
    compare_texts(seed, index, reached)
}

fn compare_texts(seed: u64, index: u64, reached: &mut Reached) -> Result<(), Disagreement> {
    for call in assembly::calls(seed, index) {
        let assembled = assembly::check(&call, assembly::by_library)?;
        reached.add_text(&call, &assembled);
    }
    Ok(())
}

/// `all` is said where everything was reached.
fn summary(n: u64, seed: u64, reached: &Reached, all: &str) -> Verdict {
    let missing = reached.missing();
    let last = match &missing[..] {
        [] => all.to_string(),
        missing => format!("Not reached: {}.", missing.join(", ")),
    };
    let text = format!("{}{n} cases of seed {seed}: all agree.\n{last}\n", reached.text());
    Verdict { text, good: missing.is_empty() || n < MANY }
}

/// Writes one case and compares it.
fn one(seed: u64, index: u64) -> Verdict {
    let mut random = Random::new(seed, index);
    let cases = Cases::new();
    let input = cases.case(&mut random);
    let shown = report::case(&input, &scrambled(&input, &mut random))
        + &report::listing(&listing::calls(seed, index))
        + &report::assembly(&assembly::calls(seed, index));
    let (verdict, good) = match compare(&cases, seed, index, &mut Reached::default()) {
        Ok(()) => ("All agree.".to_string(), true),
        Err(disagreement) => (format!("{}: {}", disagreement.about, disagreement.text), false),
    };
    Verdict { text: format!("{shown}{verdict}\n"), good }
}
