//! Expressions of every shape for a value that is asked for.

use crate::corpus::random::Generator;

/// A label that a line sets, and its value.
#[derive(Clone)]
pub(super) struct Known {
    pub(super) name: String,
    pub(super) value: i32,
}

/// How far an expression may still grow.
#[derive(Clone, Copy)]
struct Growth {
    /// How many parentheses may be open at once.
    open: u32,
    /// How many more pieces it may have.
    pieces: u32,
}

impl Growth {
    /// The rest of it for one of two parts.
    const fn part(self) -> Growth {
        Growth { pieces: self.pieces / 2, ..self }
    }

    /// The rest of it inside a parenthesis.
    const fn inside(self) -> Growth {
        Growth { open: self.open - 1, pieces: self.pieces / 2 }
    }
}

impl Generator {
    /// An expression with this value, all inner values in range, and no more than eight parentheses
    /// open.
    pub(super) fn expression(&mut self, value: i32, known: &[Known]) -> String {
        let named = known.iter().find(|known| known.value == value);
        match (self.below(20), named) {
            (0..8, Some(known)) => known.name.clone(),
            (0..5, _) => self.sum(value, known, Growth { open: 0, pieces: 1 }),
            (5..8, _) => self.sum(value, known, Growth { open: 0, pieces: 4 }),
            (8..12, _) => self.sum(value, known, Growth { open: 1, pieces: 6 }),
            (12..15, _) => self.sum(value, known, Growth { open: 3, pieces: 16 }),
            (15, _) => self.sum(value, known, Growth { open: 8, pieces: 64 }),
            (16, _) => self.row(value),
            _ => {
                let levels = self.pick(&[1, 2, 3, 5, 7, 8, 8, 8]);
                self.nested(value, known, levels)
            }
        }
    }

    /// The same in a few characters.
    pub(super) fn short_expression(&mut self, value: i32, known: &[Known]) -> String {
        self.sum(value, known, Growth { open: 0, pieces: 1 })
    }

    /// A sum: one product, or a sum that something is added to or taken from.
    fn sum(&mut self, value: i32, known: &[Known], growth: Growth) -> String {
        // Without a parenthesis no operand has the lowest value: its number alone doesn't fit.
        let is_writable = |value| growth.open > 0 || value != i32::MIN;
        if !is_writable(value) {
            return "-2147483647-1".to_string();
        }
        if growth.pieces == 0 || self.once_in(4) {
            return self.product(value, known, growth);
        }
        let first = self.term(known);
        let missing = value.checked_sub(first).filter(|&missing| is_writable(missing));
        let Some(missing) = missing else { return self.product(value, known, growth) };
        let front = self.sum(first, known, growth.part());
        match missing.checked_neg() {
            Some(negated) if self.once_in(2) => {
                format!("{front}-{}", self.product(negated, known, growth.part()))
            }
            _ => format!("{front}+{}", self.product(missing, known, growth.part())),
        }
    }

    /// The value of a sum's front: a label's, a small number, an edge, or any number.
    fn term(&mut self, known: &[Known]) -> i32 {
        if !known.is_empty() && !self.once_in(3) {
            return known[self.below(known.len() as u32) as usize].value;
        }
        let (small, any) = (self.below(300) as i32, self.word() as i32);
        self.pick(&[0, 1, -1, small, small, -small, any, i32::MAX, i32::MIN, i32::MIN + 1])
    }

    /// A product: one operand, or a product times another one.
    fn product(&mut self, value: i32, known: &[Known], growth: Growth) -> String {
        if growth.pieces == 0 || self.once_in(2) {
            return self.operand(value, known, growth);
        }
        let last = self.pick(&[1, 1, -1, -1, 2, -2, 3, 4, 16, 256, 46_341, 65_536, value]);
        let front = match value {
            0 if last == 0 => Some(self.term(known).max(-i32::MAX)),
            _ if last != 0 && value.wrapping_rem(last) == 0 => value.checked_div(last),
            _ => None,
        };
        let Some(front) = front else { return self.operand(value, known, growth) };
        let front = self.product(front, known, growth.part());
        format!("{front}*{}", self.operand(last, known, growth.part()))
    }

    /// An operand: a number, a label or a parenthesis, with a minus or without.
    fn operand(&mut self, value: i32, known: &[Known], growth: Growth) -> String {
        let negated = value.checked_neg();
        if growth.open > 0 && (value == i32::MIN || !self.once_in(3)) {
            return match negated {
                Some(negated) if self.once_in(3) => {
                    format!("-({})", self.sum(negated, known, growth.inside()))
                }
                _ => format!("({})", self.sum(value, known, growth.inside())),
            };
        }
        let name_of = |value| known.iter().find(|known| Some(known.value) == value);
        match (name_of(Some(value)), name_of(negated), negated) {
            (Some(known), _, _) if !self.once_in(4) => known.name.clone(),
            (_, Some(known), _) if !self.once_in(4) => format!("-{}", known.name),
            _ if value > 0 || value == 0 && !self.once_in(6) => self.digits(value as u32),
            (_, _, Some(negated)) => format!("-{}", self.digits(negated as u32)),
            (_, _, None) => unreachable!("the lowest value needs a parenthesis"),
        }
    }

    /// A number in decimal or hex, the latter sometimes with leading zeros.
    fn digits(&mut self, number: u32) -> String {
        match self.below(8) {
            0 | 1 => format!("{number:#x}"),
            2 => {
                let zeros = self.pick(&[1, 2, 4, 8, 20, 60]);
                format!("0x{}{number:x}", "0".repeat(zeros))
            }
            _ => number.to_string(),
        }
    }

    /// Parentheses side by side, more than may be open at once.
    fn row(&mut self, value: i32) -> String {
        let (mut text, mut sum) = (String::new(), 0);
        for _ in 0..8 + self.below(4) {
            let number = self.below(40) as i32;
            let form = self.pick(&["()+", "()*1+", "1*()+", "()*(1)+", "-(-())+"]);
            text.push_str(&form.replace("()", &format!("({number})")));
            sum += number;
        }
        match value.checked_sub(sum) {
            Some(missing) => text + &self.operand(missing, &[], Growth { open: 1, pieces: 0 }),
            None => self.operand(value, &[], Growth { open: 1, pieces: 0 }),
        }
    }

    /// An expression with this value in which so many parentheses are open at once, at least one.
    /// It is made from the innermost out.
    pub(super) fn nested(&mut self, value: i32, known: &[Known], levels: u32) -> String {
        let mut inner = self.below(5) as i32;
        let mut text = self.sum(inner, known, Growth { open: 0, pieces: 2 });
        for _ in 0..levels {
            // So small that no inner value leaves 32 bits.
            let by = self.below(4) as i32;
            (text, inner) = match self.below(8) {
                0 => (format!("-({text})"), -inner),
                1 => (format!("({text})+{by}"), inner + by),
                2 => (format!("{by}-({text})"), by - inner),
                3 => (format!("({text})*{by}"), inner * by),
                4 => (format!("{by}*-({text})"), -by * inner),
                _ => (format!("({text})"), inner),
            };
        }
        let (missing, text) = match value.checked_sub(inner) {
            Some(0) => return text,
            Some(missing) => (missing, text),
            None => (value, format!("{text}{:+}", -inner)),
        };
        text + "+" + &self.product(missing, known, Growth { open: 1, pieces: 1 })
    }
}
