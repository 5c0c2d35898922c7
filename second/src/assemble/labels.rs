//! The labels of a text.

use std::collections::HashMap;

use super::Refusal;

/// "At most 256 labels" (document 02).
const MOST: usize = 256;

/// The labels that are set, each by its first writing.
#[derive(Default)]
pub(super) struct Labels<'t>(HashMap<&'t [u8], Setting>);

/// Where a label is set.
struct Setting {
    /// The index of the line.
    line: usize,
    address: u32,
}

impl<'t> Labels<'t> {
    /// Sets a label, if it isn't set yet and so many aren't.
    pub(super) fn set(&mut self, name: &'t [u8], line: usize, address: u32) {
        if self.0.len() < MOST {
            self.0.entry(name).or_insert(Setting { line, address });
        }
    }

    /// The value of a label that is set: its address as a signed number.
    pub(super) fn value(&self, name: &[u8]) -> Option<i32> {
        self.0.get(name).map(|setting| setting.address as i32)
    }

    /// Whether the label of a line of known form is set there, and else why it isn't.
    pub(super) fn check(&self, name: &[u8], line: usize) -> Result<(), Refusal> {
        match self.0.get(name) {
            Some(setting) if setting.line == line => Ok(()),
            Some(_) => Err(Refusal::LabelTwice),
            None => Err(Refusal::TooManyLabels),
        }
    }
}
