//! How a state is written. A marked content never shows: stars stand in its place.

use std::fmt;

use crate::state::{psw, Register, State};

/// A content as it is written, in every format: a word as 8 hexadecimal digits, a flag as 0 or 1,
/// and anything marked as eight stars.
#[derive(Clone, Copy)]
enum Content {
    Word(u32),
    Flag(bool),
    Marked,
}

impl Content {
    fn unless(marked: bool, content: Content) -> Content {
        if marked {
            Content::Marked
        } else {
            content
        }
    }

    fn is_zero(self) -> bool {
        matches!(self, Content::Word(0) | Content::Flag(false))
    }
}

impl fmt::Display for Content {
    fn fmt(&self, formatter: &mut fmt::Formatter) -> fmt::Result {
        match *self {
            Content::Word(word) => write!(formatter, "{word:08x}"),
            Content::Flag(flag) => write!(formatter, "{}", u8::from(flag)),
            Content::Marked => write!(formatter, "********"),
        }
    }
}

impl fmt::Debug for Content {
    fn fmt(&self, formatter: &mut fmt::Formatter) -> fmt::Result {
        fmt::Display::fmt(self, formatter)
    }
}

impl Register {
    fn content(self) -> Content {
        Content::unless(self.marked, Content::Word(self.value))
    }
}

/// Every content of a state behind its name, in the order of writing. TF and CY stand apart, and
/// PSW is without them.
fn contents(state: &State) -> Vec<(String, Content)> {
    let named = |(name, content): (&str, Content)| (name.to_string(), content);
    let flag = |bit| Content::Flag(state.psw & bit != 0);
    let mut contents = vec![named(("pc", Content::Word(state.pc)))];
    for (n, register) in state.registers.iter().enumerate() {
        contents.push((format!("r{n}"), register.content()));
    }
    let status = [
        ("tf", Content::unless(state.tf_marked, flag(psw::TF))),
        ("cy", Content::unless(state.cy_marked, flag(psw::CY))),
        ("psw", Content::Word(state.psw & !(psw::TF | psw::CY))),
    ];
    contents.extend(status.map(named));
    let special = state.special().map(Content::Word);
    contents.extend(State::SPECIAL.into_iter().zip(special).map(named));
    contents.push(named(("pending", Content::Flag(state.pending))));
    contents.push(named(("cycles", Content::Word(state.cycles))));
    contents
}

/// `Register { value: 00000020, marked: false }`, or with stars as the value.
impl fmt::Debug for Register {
    fn fmt(&self, formatter: &mut fmt::Formatter) -> fmt::Result {
        let mut fields = formatter.debug_struct("Register");
        fields.field("value", &self.content()).field("marked", &self.marked).finish()
    }
}

/// Every content, marked ones as stars: states that differ in marked contents alone look the same.
impl fmt::Debug for State {
    fn fmt(&self, formatter: &mut fmt::Formatter) -> fmt::Result {
        let mut fields = formatter.debug_struct("State");
        for (name, content) in contents(self) {
            fields.field(&name, &content);
        }
        fields.finish()
    }
}

/// Lines as the small program of document 01 writes them: the program counter, then every content
/// that is marked or not zero. The last line has no newline.
impl fmt::Display for State {
    fn fmt(&self, formatter: &mut fmt::Formatter) -> fmt::Result {
        write!(formatter, "pc\t{:08x}", self.pc)?;
        let others = contents(self).into_iter().skip(1);
        for (name, content) in others.filter(|(_, content)| !content.is_zero()) {
            write!(formatter, "\n{name}\t{content}")?;
        }
        Ok(())
    }
}
