//! Slips of the pen: near misses of fields, and texts that differ in a character or a line.

use crate::corpus::random::Generator;

/// Near misses of labels, and some labels that look strange.
const LABELS: [&str; 14] = [
    "A",
    "1",
    "1a",
    "aB",
    "a_",
    "a-",
    "_a",
    "a:",
    "a b",
    " ",
    "abcdefghijklm",
    "abcdefghijkl",
    "r1",
    "\u{e9}",
];

/// Near misses of mnemonics. `udi0` isn't built.
const MNEMONICS: [&str; 16] = [
    "", "ad", "addd", "ADD", "Add", "add ", " add", "udi0", "sxtb", "nop", "hal", "halfs", "words",
    "byte", "jj", "sjl",
];

/// Malformed operands of an expression, and strange ones that are not.
const OPERANDS: [&str; 26] = [
    "",
    "-",
    "--1",
    "+1",
    "01",
    "00",
    "0x",
    "0xg",
    "0x1g",
    "0X1",
    "0xA",
    "0x0x1",
    "1a",
    "1x",
    "0b1",
    "A",
    "a_b",
    "()",
    "1 ",
    "abcdefghijklm",
    "$1",
    "1.0",
    "-0",
    "0x00",
    "-(-1)",
    "(((1)))",
];

/// What stands around them.
const AROUND: [&str; 8] = ["1", "1", "1+0", "0*1", "(1)", "-1", "1-1", "0+1*1"];

/// Malformed expressions, and strange ones that are not.
const EXPRESSIONS: [&str; 34] = [
    "---1",
    "-(--1)",
    "3---1",
    "3*--1",
    "1+",
    "1-",
    "1*",
    "*1",
    "1++1",
    "1**1",
    "1*+1",
    "1/1",
    "-()",
    "(",
    ")",
    "(1",
    "1)",
    "(1))",
    "((1)",
    ")1(",
    "1(2)",
    "(1)(2)",
    "(1)2",
    "(-)",
    "(+1)",
    "(1*)",
    "1 +1",
    "- 1",
    "1-01",
    "0x-1",
    "1+abcdefghijklm*0",
    "3--1",
    "3*-1",
    "-3*-(1)",
];

/// What a slip writes.
const CHARACTERS: &[u8] = b"\t\t\n -+*()00123456789xabcdefgrsz_,.:;/AFRX\r\0\x7f\x80\xff";

/// What a slip writes in an expression.
const IN_AN_EXPRESSION: &[u8] = b"--+*(()) 0001xxafgrzAF_";

impl Generator {
    /// Makes a field of a line malformed, mostly.
    pub(super) fn spoil_field(&mut self, fields: &mut Vec<String>) {
        let place = self.below(fields.len() as u32) as usize;
        let last = fields.len() - 1;
        match self.below(16) {
            0 => drop(fields.remove(place)),
            1 => fields.insert(place, String::new()),
            2 => fields.push(self.pick(&["", "r1", "0"]).to_string()),
            3 => fields.swap(place, last),
            4..8 => fields[place] = self.near_miss(place, &fields[place]),
            // Mostly an operand.
            _ => fields[last] = self.near_miss(last, &fields[last]),
        }
    }

    /// A near miss of such a field.
    fn near_miss(&mut self, place: usize, field: &str) -> String {
        let is_numbered = |name| field.strip_prefix(name).is_some_and(|n| n.parse::<u8>().is_ok());
        match place {
            0 => self.pick(&LABELS).to_string(),
            1 => self.pick(&MNEMONICS).to_string(),
            _ if is_numbered("r") => self.numbered("r", &[16, 16, 16, 17, 19, 20, 15]),
            _ if is_numbered("sfr") => self.numbered("sfr", &[11, 11, 11, 4, 4, 4, 3, 10, 12]),
            _ if self.once_in(3) => self.pick(&EXPRESSIONS).to_string(),
            _ if self.once_in(2) => self.pick(&AROUND).replacen('1', self.pick(&OPERANDS), 1),
            _ => {
                let mut expression = field.as_bytes().to_vec();
                self.slip_at(&mut expression, IN_AN_EXPRESSION);
                String::from_utf8(expression).expect("one ASCII character for another")
            }
        }
    }

    /// A near miss of a register or an SFR; these numbers are about the last one.
    fn numbered(&mut self, name: &str, last: &[u32]) -> String {
        let number = self.pick(last);
        match self.below(12) {
            0..6 => format!("{name}{number}"),
            6 | 7 => format!("{name}0{}", self.pick(&[0, 1, 3, 9, 10])),
            8 => self.pick(&["r1", "sfr1", "r", "sfr", "1", "", "psw"]).to_string(),
            9 => format!("{}1", name.to_uppercase()),
            _ => format!("{name}1{}", self.pick(&["a", " ", "0x", "00", "-", "r", "+0"])),
        }
    }

    /// Inserts, takes out or changes a character somewhere.
    fn slip_at(&mut self, text: &mut Vec<u8>, characters: &[u8]) {
        let place = self.below(text.len() as u32 + 1) as usize;
        let character = self.pick(characters);
        match self.below(4) {
            0 | 1 => text.insert(place, character),
            2 => change_at(text, place, |_| vec![]),
            _ => change_at(text, place, |_| vec![character]),
        }
    }

    /// Makes a slip somewhere in a text.
    pub(super) fn slip(&mut self, text: &mut Vec<u8>) {
        let place = self.below(text.len() as u32 + 1) as usize;
        match self.below(16) {
            0..7 => self.slip_at(text, CHARACTERS),
            7 => change_at(text, place, |byte| vec![byte, byte]),
            8 => change_after(text, place, b'\t', b"\t\t"),
            9 => change_after(text, place, b'\t', b" "),
            10 => change_after(text, place, b'\n', self.pick(&[&b"\n\n"[..], b"\r\n", b"\t\n"])),
            11 => change_at(text, place, |byte| vec![byte ^ 0x20]),
            12 => text.insert(place, b' '),
            13 | 14 => drop(text.pop()),
            _ => text.extend(self.pick(&[&b"\n"[..], b"\t", b"a", b"\tjr\tr1"])),
        }
    }
}

/// Changes the byte at a place, if there is one.
fn change_at(text: &mut Vec<u8>, place: usize, change: impl FnOnce(u8) -> Vec<u8>) {
    if let Some(&byte) = text.get(place) {
        text.splice(place..=place, change(byte));
    }
}

/// Puts other bytes for the first byte of a kind from a place on, if there is one.
fn change_after(text: &mut Vec<u8>, place: usize, kind: u8, other: &[u8]) {
    if let Some(behind) = text[place..].iter().position(|&byte| byte == kind) {
        change_at(text, place + behind, |_| other.to_vec());
    }
}
