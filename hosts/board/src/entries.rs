//! The entries that have not returned. Where a handler never returns they become more and more, so
//! only the outermost and the innermost are remembered, and how many are between.

use std::collections::VecDeque;

use manik::Entry;

/// How many are remembered on either side.
const MOST: usize = 6;

#[derive(Clone, Copy, Debug, PartialEq, Eq)]
pub struct Nested {
    pub step: u64,
    /// The program counter from which it was entered.
    pub from: u32,
    pub entry: Entry,
}

#[derive(Clone, Default)]
pub struct Entries {
    /// From the outermost on.
    pub outer: Vec<Nested>,
    /// Entries between these and the inner ones.
    pub between: u64,
    pub inner: VecDeque<Nested>,
}

impl Entries {
    pub fn enter(&mut self, nested: Nested) {
        if self.outer.len() < MOST {
            self.outer.push(nested);
            return;
        }
        if self.inner.len() == MOST {
            self.inner.pop_front();
            self.between += 1;
        }
        self.inner.push_back(nested);
    }

    /// The innermost returns. A return without an entry changes nothing.
    pub fn leave(&mut self) {
        if self.inner.pop_back().is_some() {
            return;
        }
        if self.between > 0 {
            self.between -= 1;
        } else {
            self.outer.pop();
        }
    }
}

#[cfg(test)]
mod tests {
    use super::*;

    fn steps<'a>(all: impl IntoIterator<Item = &'a Nested>) -> Vec<u64> {
        all.into_iter().map(|nested| nested.step).collect()
    }

    #[test]
    fn outermost_and_innermost_stay() {
        let mut entries = Entries::default();
        for step in 1..=20 {
            entries.enter(Nested { step, from: 0, entry: Entry::Timer });
        }
        assert_eq!(steps(&entries.outer), [1, 2, 3, 4, 5, 6]);
        assert_eq!((entries.between, steps(&entries.inner)), (8, vec![15, 16, 17, 18, 19, 20]));
        // Those between are forgotten, but not their number.
        (0..13).for_each(|_| entries.leave());
        assert_eq!((entries.between, entries.inner.len(), entries.outer.len()), (1, 0, 6));
        (0..3).for_each(|_| entries.leave());
        assert_eq!(steps(&entries.outer), [1, 2, 3, 4]);
        (0..9).for_each(|_| entries.leave());
        assert!(entries.outer.is_empty());
    }
}
