//! Every short expression, against the rules as document 02 writes them.

use second::assemble::assemble;

/// The one label that is known: its line has the expression.
const LABEL: &str = "a";

/// The address of that line.
const ADDRESS: usize = 6;

/// An expression's operators, taken apart from the right: another way than the assembler's.
#[derive(Debug, PartialEq)]
enum Tree<'t> {
    Number(i128),
    Name(&'t str),
    Minus(Box<Tree<'t>>),
    Binary(u8, Box<[Tree<'t>; 2]>),
}

impl Tree<'_> {
    fn has_unknown_name(&self) -> bool {
        match self {
            Tree::Number(_) => false,
            Tree::Name(name) => *name != LABEL,
            Tree::Minus(inner) => inner.has_unknown_name(),
            Tree::Binary(_, parts) => parts.iter().any(Tree::has_unknown_name),
        }
    }

    fn value(&self) -> Option<i128> {
        let value = match self {
            Tree::Number(number) => *number,
            Tree::Name(_) => ADDRESS as i128,
            Tree::Minus(inner) => -inner.value()?,
            Tree::Binary(operator, parts) => match (operator, parts[0].value()?, parts[1].value()?)
            {
                (b'+', left, right) => left + right,
                (b'-', left, right) => left - right,
                (_, left, right) => left * right,
            },
        };
        Some(value).filter(|&value| value == i128::from(value as i32))
    }
}

/// The place of the last of these operators that is outside all parentheses and has an operand
/// before it.
fn last_operator(text: &str, operators: &str) -> Option<usize> {
    let (bytes, mut open) = (text.as_bytes(), 0);
    for place in (1..bytes.len()).rev() {
        match bytes[place] {
            b')' => open += 1,
            b'(' => open -= 1,
            byte if open == 0 && operators.as_bytes().contains(&byte) => {
                if matches!(bytes[place - 1], b')' | b'0'..=b'9' | b'a'..=b'z') {
                    return Some(place);
                }
            }
            _ => {}
        }
    }
    None
}

fn sum(text: &str) -> Option<Tree<'_>> {
    let Some(place) = last_operator(text, "+-") else { return product(text) };
    let parts = [sum(&text[..place])?, product(&text[place + 1..])?];
    Some(Tree::Binary(text.as_bytes()[place], parts.into()))
}

fn product(text: &str) -> Option<Tree<'_>> {
    let Some(place) = last_operator(text, "*") else { return operand(text) };
    let parts = [product(&text[..place])?, operand(&text[place + 1..])?];
    Some(Tree::Binary(b'*', parts.into()))
}

fn operand(text: &str) -> Option<Tree<'_>> {
    if let Some(rest) = text.strip_prefix('-') {
        return Some(Tree::Minus(unsigned(rest)?.into()));
    }
    unsigned(text)
}

fn unsigned(text: &str) -> Option<Tree<'_>> {
    if let Some(inner) = text.strip_prefix('(') {
        return sum(inner.strip_suffix(')')?);
    }
    let is_plain = text.bytes().all(|byte| matches!(byte, b'0'..=b'9' | b'a'..=b'z'));
    match text.as_bytes() {
        _ if !is_plain => None,
        [b'a'..=b'z', ..] => Some(Tree::Name(text)),
        [b'0', b'x', ..] => i128::from_str_radix(&text[2..], 16).ok().map(Tree::Number),
        [b'0', _, ..] => None,
        _ => text.parse().ok().map(Tree::Number),
    }
}

/// Every text of so many of these characters as an expression: known form exactly if the rules have
/// it, and then with the value that they give it.
fn check_every_expression(characters: &[u8], length: u32) {
    let mut image = [0; 16];
    for number in 0..characters.len().pow(length) {
        let digits = (0..length).scan(number, |rest, _| {
            let digit = *rest % characters.len();
            *rest /= characters.len();
            Some(characters[digit])
        });
        let expression = String::from_utf8(digits.collect()).expect("plain text");
        let text = format!("{LABEL}\tword\t{expression}\n");
        let answer =
            assemble(text.as_bytes(), ADDRESS, &mut image).map_err(|refused| refused.number);
        let expected = match sum(&expression) {
            None => Err(30),
            Some(tree) if tree.has_unknown_name() => Err(32),
            Some(tree) => tree.value().ok_or(35),
        };
        let answer = answer.map(|_| {
            let word = image[ADDRESS..].first_chunk().expect("four bytes");
            i32::from_be_bytes(*word).into()
        });
        assert_eq!(answer, expected, "{expression:?}");
    }
}

#[test]
fn every_short_expression_is_judged_by_the_rules() {
    for length in 0..=5 {
        check_every_expression(b"01xa-+*()", length);
    }
    for length in 6..=8 {
        check_every_expression(b"2-*()", length);
    }
    check_every_expression(b"7-+*(a)", 6);
    check_every_expression(b"9*-", 12);
}
