//! Expressions: their form, their names and their values.
//!
//! ```text
//! sum     = product { ( "+" | "-" ) product }
//! product = operand { "*" operand }
//! operand = [ "-" ] ( number | label | "(" sum ")" )
//! ```
//!
//! The form is judged without the limit on parentheses, so that an unknown form comes before a
//! ninth parenthesis, and without calls that nest as they do. Values are found by functions that
//! call each other as the rules do, which is safe once the limit is kept.

use super::labels::Labels;

/// "At most eight parentheses may be open" (document 02).
const MOST_OPEN: usize = 8;

/// The longest label: "a letter, then up to 11 letters or digits" (document 02).
const LONGEST_LABEL: usize = 12;

/// An expression of known form.
#[derive(Clone, Copy)]
pub(super) struct Expression<'t> {
    text: &'t [u8],
    /// How many parentheses are open at once, where most are.
    deepest: usize,
}

/// What may come next in an expression.
enum Next {
    /// An operand, or the minus before it.
    Operand,
    /// An operand without a minus: "one unary minus may precede an operand" (document 02).
    AfterMinus,
    /// An operator, or a parenthesis that closes.
    AfterOperand,
}

impl<'t> Expression<'t> {
    /// The expression with this text; none if it is malformed.
    pub(super) fn read(text: &'t [u8]) -> Option<Expression<'t>> {
        let (mut rest, mut next) = (text, Next::Operand);
        let (mut open, mut deepest) = (0_usize, 0);
        while let Some(&first) = rest.first() {
            let mut length = 1;
            next = match (next, first) {
                (Next::Operand, b'-') => Next::AfterMinus,
                (Next::Operand | Next::AfterMinus, b'(') => {
                    open += 1;
                    deepest = deepest.max(open);
                    Next::Operand
                }
                (Next::Operand | Next::AfterMinus, _) => {
                    length = atom_length(rest);
                    is_atom(&rest[..length]).then_some(Next::AfterOperand)?
                }
                (Next::AfterOperand, b')') => {
                    open = open.checked_sub(1)?;
                    Next::AfterOperand
                }
                (Next::AfterOperand, b'+' | b'-' | b'*') => Next::Operand,
                (Next::AfterOperand, _) => return None,
            };
            rest = &rest[length..];
        }
        let is_whole = matches!(next, Next::AfterOperand) && open == 0;
        is_whole.then_some(Expression { text, deepest })
    }

    /// Whether a ninth parenthesis is open anywhere.
    pub(super) const fn is_too_deep(&self) -> bool {
        self.deepest > MOST_OPEN
    }

    /// The labels that it uses.
    pub(super) fn names(&self) -> impl Iterator<Item = &'t [u8]> {
        let atoms = self.text.split(|&byte| !is_letter_or_digit(byte));
        atoms.filter(|atom| atom.first().is_some_and(u8::is_ascii_lowercase))
    }

    /// The value; none if it, or one inside it, doesn't fit in 32 signed bits, or if a label is
    /// unknown. Only for an expression that isn't too deep.
    pub(super) fn value(&self, labels: &Labels) -> Option<i32> {
        Evaluation { rest: self.text, labels }.sum()
    }
}

/// Whether this is a label: lower-case letters and digits, a letter first, and not too many.
pub(super) fn is_label(text: &[u8]) -> bool {
    text.len() <= LONGEST_LABEL
        && text.first().is_some_and(u8::is_ascii_lowercase)
        && text.iter().all(|&byte| is_letter_or_digit(byte))
}

const fn is_letter_or_digit(byte: u8) -> bool {
    byte.is_ascii_lowercase() || byte.is_ascii_digit()
}

/// How many letters and digits the text begins with. No two atoms stand side by side, so these are
/// one atom or none.
fn atom_length(text: &[u8]) -> usize {
    text.iter().position(|&byte| !is_letter_or_digit(byte)).unwrap_or(text.len())
}

/// Whether this is a number or a label.
fn is_atom(text: &[u8]) -> bool {
    match text {
        [b'0'] => true,
        [b'0', b'x', digits @ ..] => {
            !digits.is_empty()
                && digits.iter().all(|digit| matches!(digit, b'0'..=b'9' | b'a'..=b'f'))
        }
        [b'1'..=b'9', digits @ ..] => digits.iter().all(u8::is_ascii_digit),
        _ => is_label(text),
    }
}

/// An expression whose value is being found. Each function takes what it reads off the front; after
/// a none, which is the answer of all, the rest doesn't matter.
struct Evaluation<'e, 't> {
    rest: &'e [u8],
    labels: &'e Labels<'t>,
}

impl Evaluation<'_, '_> {
    fn sum(&mut self) -> Option<i32> {
        let mut sum = self.product()?;
        loop {
            sum = if self.take(b'+') {
                sum.checked_add(self.product()?)?
            } else if self.take(b'-') {
                sum.checked_sub(self.product()?)?
            } else {
                return Some(sum);
            };
        }
    }

    fn product(&mut self) -> Option<i32> {
        let mut product = self.operand()?;
        while self.take(b'*') {
            product = product.checked_mul(self.operand()?)?;
        }
        Some(product)
    }

    fn operand(&mut self) -> Option<i32> {
        let is_negated = self.take(b'-');
        let value = if self.take(b'(') {
            let sum = self.sum()?;
            self.take(b')');
            sum
        } else {
            self.atom()?
        };
        if is_negated {
            value.checked_neg()
        } else {
            Some(value)
        }
    }

    fn atom(&mut self) -> Option<i32> {
        let (atom, rest) = self.rest.split_at(atom_length(self.rest));
        self.rest = rest;
        match atom {
            [b'0', b'x', digits @ ..] => number(digits, 16),
            [b'0'..=b'9', ..] => number(atom, 10),
            _ => self.labels.value(atom),
        }
    }

    /// Takes this byte, if it comes next.
    fn take(&mut self, byte: u8) -> bool {
        match self.rest.split_first() {
            Some((&first, rest)) if first == byte => {
                self.rest = rest;
                true
            }
            _ => false,
        }
    }
}

/// The number with these digits, of which there may be many; none if it doesn't fit.
fn number(digits: &[u8], radix: i32) -> Option<i32> {
    digits.iter().try_fold(0_i32, |number, &digit| {
        let digit = if digit.is_ascii_digit() { digit - b'0' } else { digit - b'a' + 10 };
        number.checked_mul(radix)?.checked_add(digit.into())
    })
}
