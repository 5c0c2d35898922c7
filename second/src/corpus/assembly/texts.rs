//! The texts of drafts: values for the places of their expressions, and where these go wrong.

use super::draft::{Draft, Sketch};
use super::expressions::Known;
use super::faults::{Fault, Faults};
use super::places::Place;
use crate::corpus::random::Generator;

/// A text with more lines has short expressions.
const MANY_LINES: usize = 20;

impl Generator {
    /// The text of a draft, with its expressions.
    pub(super) fn text(&mut self, draft: Draft, faults: &Faults) -> Vec<u8> {
        let mut text = String::new();
        let is_short = draft.lines.len() > MANY_LINES;
        for (index, Sketch { label, content, address }) in draft.lines.into_iter().enumerate() {
            let faults = if index < draft.first_fault { &Faults::NONE } else { faults };
            let expression = match content.place(address) {
                Some(place) => self.expression_for(place, &draft.known, is_short, faults),
                None => String::new(),
            };
            let mut fields = vec![label, content.name().to_string()];
            fields.extend(content.operands(expression));
            if self.errs(Fault::Field, faults) {
                self.spoil_field(&mut fields);
            }
            text.push_str(&fields.join("\t"));
            text.push('\n');
        }
        text.into_bytes()
    }

    /// An expression for a place; each fault adds to it, so that it may have several.
    fn expression_for(
        &mut self,
        place: Place,
        known: &[Known],
        is_short: bool,
        faults: &Faults,
    ) -> String {
        let value = if self.errs(Fault::Value, faults) {
            self.misfit(place)
        } else {
            self.fit(place, known)
        };
        let some = self.some_known(known);
        let mut text = if self.errs(Fault::Depth, faults) {
            let levels = self.pick(&[9, 9, 9, 10, 11]);
            self.nested(value, &some, levels)
        } else if is_short {
            self.short_expression(value, &some)
        } else {
            self.expression(value, &some)
        };
        if self.errs(Fault::Unknown, faults) {
            text = self.with_unknown_name(text);
        }
        if self.errs(Fault::Inner, faults) {
            text = self.with_inner_misfit(text);
        }
        text
    }

    /// Up to three labels; often the first, the last and the one before the last.
    fn some_known(&mut self, known: &[Known]) -> Vec<Known> {
        let many = if known.is_empty() { 0 } else { self.below(4) };
        let places = (0..many).map(|_| {
            let last = known.len() as u32 - 1;
            match self.below(8) {
                0 => 0,
                1 => last,
                2 => last.saturating_sub(1),
                _ => self.below(last + 1),
            }
        });
        places.map(|place| known[place as usize].clone()).collect()
    }

    /// A value that fits: that of a label, one at an edge, or any.
    fn fit(&mut self, place: Place, known: &[Known]) -> i32 {
        let Place { lowest, highest, .. } = place;
        let fitting: Vec<i32> =
            known.iter().map(|known| known.value).filter(|&value| place.takes(value)).collect();
        if !fitting.is_empty() && self.once_in(2) {
            return self.pick(&fitting);
        }
        let any = lowest + i64::from(self.word()) % (highest - lowest + 1);
        let near = (i64::from(self.below(9)) - 4).clamp(lowest, highest);
        let units = [lowest, lowest + 1, highest - 1, highest, any, any, any, near];
        place.value(self.pick(&units))
    }

    /// A value that doesn't fit: one past an edge, one beside a whole number of units, or any.
    /// Every value fits in a word; there it is one at an edge.
    fn misfit(&mut self, place: Place) -> i32 {
        let Place { unit, lowest, highest, .. } = place;
        let inside = self.pick(&[lowest, lowest.max(-1), 0, 1, highest - 1, highest]);
        if unit > 1 && self.once_in(2) {
            let beside = 1 + self.below(unit as u32 - 1) as i32;
            return place.value(inside).wrapping_add(beside);
        }
        match self.below(6) {
            0 | 1 => place.value(highest + 1),
            2 | 3 => place.value(lowest - 1),
            4 => place.value(self.pick(&[highest + 2, lowest - 2, 2 * highest + 2, 2 * lowest])),
            _ => self.word() as i32,
        }
    }
}
