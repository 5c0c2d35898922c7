//! The stack pointer over the steps of a run, thinned: lowest and highest of each bucket of steps,
//! and the first entry in it. Where the buckets are used up, each takes twice as many steps.

use crate::checks;
use crate::machine::Machine;
use crate::watch::Step;

const MOST: usize = 512;

/// Some steps that follow each other.
#[derive(Clone, Copy, Default)]
pub struct Bucket {
    /// The lowest and highest r0 that was set and not marked.
    pub range: Option<(u32, u32)>,
    /// r0 after the last of the steps.
    pub last: Option<u32>,
    /// The first entry: its step, and r0.
    pub entry: Option<(u64, Option<u32>)>,
}

pub struct Samples {
    buckets: Vec<Bucket>,
    /// Steps of a bucket.
    width: u64,
    is_set: bool,
}

impl Samples {
    pub fn new(start: &Machine) -> Samples {
        Samples { buckets: Vec::with_capacity(MOST), width: 1, is_set: checks::is_set(start) }
    }

    pub fn step(&mut self, step: &Step) {
        self.is_set |= step.written.has(0);
        let r0 = step.machine.state.registers[0];
        let value = (self.is_set && !r0.marked).then_some(r0.value);
        let bucket = self.bucket(step.number);
        bucket.join(&Bucket {
            range: value.map(|value| (value, value)),
            last: value,
            entry: step.line.entry.map(|_| (step.number, value)),
        });
    }

    fn bucket(&mut self, step: u64) -> &mut Bucket {
        while (step - 1) / self.width >= MOST as u64 {
            self.halve();
        }
        let n = ((step - 1) / self.width) as usize;
        if n >= self.buckets.len() {
            self.buckets.resize(n + 1, Bucket::default());
        }
        &mut self.buckets[n]
    }

    fn halve(&mut self) {
        let pairs = self.buckets.chunks(2).map(|pair| {
            let mut first = pair[0];
            pair[1..].iter().for_each(|second| first.join(second));
            first
        });
        self.buckets = pairs.collect();
        self.width *= 2;
    }

    /// The buckets with the last step of each.
    pub fn iter(&self) -> impl Iterator<Item = (u64, &Bucket)> {
        let width = self.width;
        self.buckets.iter().enumerate().map(move |(n, bucket)| ((n as u64 + 1) * width, bucket))
    }
}

impl Bucket {
    /// Takes the steps of a later bucket in.
    fn join(&mut self, later: &Bucket) {
        self.range = match (self.range, later.range) {
            (Some((low, high)), Some((lower, higher))) => Some((low.min(lower), high.max(higher))),
            (one, other) => one.or(other),
        };
        self.last = later.last;
        self.entry = self.entry.or(later.entry);
    }
}

#[cfg(test)]
mod tests {
    use super::*;

    #[test]
    fn lowest_and_highest_stay() {
        let mut samples = Samples { buckets: Vec::new(), width: 1, is_set: true };
        for step in 1..=5000u64 {
            let value = if step == 4321 { 7 } else { 1000 + step as u32 };
            let entry = (step == 1234).then_some((step, Some(value)));
            let one = Bucket { range: Some((value, value)), last: Some(value), entry };
            samples.bucket(step).join(&one);
        }
        assert!(samples.buckets.len() <= MOST);
        assert_eq!(samples.width, 16);
        let lowest =
            samples.iter().filter_map(|(_, bucket)| bucket.range).map(|range| range.0).min();
        assert_eq!(lowest, Some(7));
        let entries: Vec<_> = samples.iter().filter_map(|(_, bucket)| bucket.entry).collect();
        assert_eq!(entries, [(1234, Some(2234))]);
        assert_eq!(samples.iter().last().unwrap().1.last, Some(6000));
    }
}
