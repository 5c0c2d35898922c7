//! What is written: the coverage of many cases, and one case in full.

mod assembly;
mod listing;
mod texts;

pub use assembly::assembly;
pub use listing::listing;

use manik::Reply;
use second::corpus::{AssemblyCase, Coverage, ListCase, ListCoverage};
use second::listing::line_at;
use second::marks::is_marked;
use second::record;
use second::run::Outcome;
use second::step::{step, Entry, Step};

use texts::Texts;

use crate::assembly::Assembled;
use crate::listing::{room_for_any, Listed};
use crate::machine::{by_library, by_second, End, Input};

/// What many cases reached.
#[derive(Default)]
pub struct Reached {
    coverage: Coverage,
    out_of_shape: u64,
    told_apart: u64,
    steps: u64,
    listings: ListCoverage,
    /// Listings for which the library goes through the range once, and those for which twice.
    one_pass: u64,
    two_passes: u64,
    texts: Texts,
    /// Whether texts alone are compared.
    texts_alone: bool,
}

impl Reached {
    /// What texts alone reach.
    pub fn by_texts() -> Reached {
        Reached { texts_alone: true, ..Reached::default() }
    }

    /// Counts a case on which all agreed.
    pub fn add(&mut self, input: Input, outcome: Option<Outcome>, told_apart: bool) {
        self.told_apart += u64::from(told_apart);
        let (Some(outcome), Some(state)) = (outcome, record::read(&input.record)) else {
            self.out_of_shape += 1;
            return;
        };
        self.steps += outcome.steps;
        let Input { mut memory, mut marks, tape, .. } = input;
        self.coverage.add(outcome, state, &mut memory, &mut marks, &tape);
    }

    /// Counts the call of a listing on which both agreed.
    pub fn add_listing(&mut self, case: &ListCase, listed: &Listed) {
        self.listings.add(case, listed.answer(), &listed.buffer);
        if listed.length > 0 {
            let passes = match room_for_any(case) {
                Some(least) if case.room >= least => &mut self.one_pass,
                _ => &mut self.two_passes,
            };
            *passes += 1;
        }
    }

    /// Counts the call of an assembler on which both agreed.
    pub fn add_text(&mut self, case: &AssemblyCase, assembled: &Assembled) {
        self.texts.add(case, assembled);
    }

    /// Adds what other cases reached.
    pub fn join(&mut self, other: &Reached) {
        add_counts(&mut self.coverage.lines, &other.coverage.lines);
        add_counts(&mut self.listings.lines, &other.listings.lines);
        self.texts.join(&other.texts);
        self.out_of_shape += other.out_of_shape;
        self.told_apart += other.told_apart;
        self.steps += other.steps;
        self.one_pass += other.one_pass;
        self.two_passes += other.two_passes;
    }

    /// Every line with its count.
    fn lines(&self) -> Vec<(&str, &str, u64)> {
        if self.texts_alone {
            return self.texts.lines().collect();
        }
        let lines =
            self.coverage.lines.iter().map(|(kind, name, count)| (*kind, &name[..], *count));
        let more = [
            ("record", "out of shape", self.out_of_shape),
            ("scrambled", "told apart", self.told_apart),
        ];
        let passes = [
            ("listed", "in one pass", self.one_pass),
            ("listed", "in two passes", self.two_passes),
        ];
        let listings = self.listings.lines.iter().copied().chain(passes);
        lines.chain(more).chain(listings).chain(self.texts.lines()).collect()
    }

    /// The lines, parted by tabs, and the number of all steps.
    pub fn text(&self) -> String {
        let line = |(kind, name, count)| format!("{kind}\t{name}\t{count}\n");
        let lines: String = self.lines().into_iter().map(line).collect();
        match self.texts_alone {
            true => lines,
            false => lines + &format!("all\tsteps\t{}\n", self.steps),
        }
    }

    /// The names of what was never reached.
    pub fn missing(&self) -> Vec<String> {
        let zero = self.lines().into_iter().filter(|line| line.2 == 0);
        zero.map(|(kind, name, _)| format!("{kind} {name}")).collect()
    }
}

/// Adds to the counts of lines those of the same lines elsewhere.
fn add_counts<N>(lines: &mut [(&str, N, u64)], others: &[(&str, N, u64)]) {
    lines.iter_mut().zip(others).for_each(|(line, other)| line.2 += other.2);
}

/// The most steps, or lines of a listing, and bytes that are written out.
const MOST_LINES: usize = 200;
const MOST_BYTES: usize = 1_024;

/// A case in full: its input, what each step of the second program did, and both ends; then the
/// same of the scrambled run, whose marks, tape and budget are the first's.
pub fn case(input: &Input, scrambled: &Input) -> String {
    let mut text = format!(
        "First run\nbudget {}\nmarks {} bytes, set at {}\ntape {} bytes {}\n",
        input.budget,
        input.marks.len(),
        marked(&input.marks),
        input.tape.len(),
        hex(&input.tape),
    );
    text += &run(input);
    text += "\nScrambled run\n";
    if scrambled == input {
        text + "the same: no content was changed\n\n"
    } else {
        text + &run(scrambled) + "\n"
    }
}

/// A run: where it begins, its steps, and both ends.
fn run(input: &Input) -> String {
    let Input { record, memory, .. } = input;
    let begin = format!("{}\nmemory {} bytes {}\n", state(record), memory.len(), hex(memory));
    let library = end("library", &by_library(input));
    let second = end("second program", &by_second(input).end);
    begin + &steps(input) + &library + &second
}

/// A line for each step of the second program, the one that stops among them.
fn steps(input: &Input) -> String {
    shortened(step_lines(input), "steps")
}

/// The lines; of very many the first and the last ones.
fn shortened(mut lines: Vec<String>, what: &str) -> String {
    if lines.len() > MOST_LINES {
        let (first, last) = (MOST_LINES / 2, lines.len() - MOST_LINES / 2);
        lines.splice(first..last, [format!("{what} {} to {last} are left out\n", first + 1)]);
    }
    lines.concat()
}

fn step_lines(input: &Input) -> Vec<String> {
    let (Some(mut state), Some(outcome)) = (record::read(&input.record), by_second(input).outcome)
    else {
        return Vec::new();
    };
    if outcome.reply.is_refusal() {
        return Vec::new();
    }
    let Input { mut memory, mut marks, tape, budget, .. } = input.clone();
    let mut lines = Vec::new();
    for (number, &high) in (1..=budget).zip(&tape) {
        let (pc, next) = (state.pc, listed_at(&memory, state.pc));
        match step(&mut state, &mut memory, &mut marks, high) {
            Ok(shown) if took_its_place(&shown) => {
                lines.push(format!("step {number}: {shown:x?}\n"));
            }
            Ok(shown) => lines.push(format!("step {number}: {shown:x?} {next}\n")),
            Err(reply) => {
                let reply = Reply::from_number(reply.number()).expect("a number of document 01");
                let stop = format!("step {number} stops with {} ({reply})", reply.number());
                lines.push(format!("{stop}: pc {pc:x} {next}\n"));
                break;
            }
        }
    }
    lines
}

/// Whether the step's entry took the place of an instruction. That of a swint and that of a
/// watchpoint, which has an address, come with theirs; a bus error comes by one.
fn took_its_place(step: &Step) -> bool {
    match step.entry {
        Some(Entry::Timer | Entry::External(_)) => true,
        Some(Entry::Debug(_)) => step.address.is_none(),
        Some(Entry::Swint(_) | Entry::BusError(_)) | None => false,
    }
}

/// The line of a listing at an address, without its newline. Memory of a run that is not refused
/// can be listed.
fn listed_at(memory: &[u8], address: u32) -> String {
    let at = address as usize;
    if at >= memory.len() {
        return "outside memory".to_string();
    }
    if !at.is_multiple_of(2) {
        return "at an odd address".to_string();
    }
    line_at(memory, at, memory.len()).0.as_str().trim_end().to_string()
}

/// The state of a record, a star behind what is marked; or its bytes if it is out of shape.
fn state(record: &[u8]) -> String {
    let Some(state) = record::read(record) else {
        return format!("record {}", hex(record));
    };
    let star = |marked| if marked { "*" } else { "" };
    let mut text = String::new();
    for (n, register) in state.registers.iter().enumerate() {
        text += &format!("r{n} {:x}{} ", register.value, star(register.marked));
    }
    let (tf, cy) = (star(state.tf_marked), star(state.cy_marked));
    text += &format!("pc {:x} psw {:x} tf{tf} cy{cy} ", state.pc, state.psw);
    for number in 1..=10 {
        text += &format!("sfr{number} {:x} ", state.sfr(number));
    }
    text + &format!("pending {} cycles {}", state.pending, state.cycles)
}

fn end(name: &str, end: &End) -> String {
    let End { reply, steps, record, memory, marks } = end;
    let (state, memory, marks) = (state(record), hex(memory), marked(marks));
    let parts = format!("  {state}\n  memory {memory}\n  marks set at {marks}\n");
    format!("{name}: reply {reply}, steps {steps}\n{parts}")
}

fn hex(bytes: &[u8]) -> String {
    let shown: String = bytes.iter().take(MOST_BYTES).map(|byte| format!("{byte:02x}")).collect();
    if bytes.len() > MOST_BYTES {
        shown + "..."
    } else {
        shown
    }
}

/// The addresses whose bits are set, those past the memory's end too: `10-13 2a`, or `none`.
fn marked(marks: &[u8]) -> String {
    let is_set = |&address: &usize| is_marked(marks, address);
    let (mut ranges, mut next) = (Vec::new(), 0);
    while let Some(first) = (next..8 * marks.len()).find(is_set) {
        let last = (first..).take_while(is_set).last().unwrap_or(first);
        let more = if last > first { format!("-{last:x}") } else { String::new() };
        ranges.push(format!("{first:x}{more}"));
        next = last + 1;
    }
    match &ranges[..] {
        [] => "none".to_string(),
        ranges if ranges.len() > MOST_BYTES => ranges[..MOST_BYTES].join(" ") + " ...",
        ranges => ranges.join(" "),
    }
}
