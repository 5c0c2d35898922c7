//! Instructions by the proved lister's text, kept by address and bits.

use std::rc::Rc;

use manik::LISTING_ROOM;

use crate::effect::Effect;

/// An instruction at its address.
pub struct Instruction {
    pub address: u32,
    /// The first half, and behind it the second one of an instruction that has it.
    bits: (u16, Option<u16>),
    /// Mnemonic and operands as a listing has them, parted by tabs.
    pub text: String,
    pub effect: Effect,
}

impl Instruction {
    /// The text for people: blanks where the listing has tabs.
    pub fn words(&self) -> String {
        self.text.replace('\t', " ")
    }

    pub fn size(&self) -> usize {
        2 + 2 * usize::from(self.bits.1.is_some())
    }

    fn is_at(&self, memory: &[u8]) -> bool {
        let at = self.address as usize;
        half(memory, at) == Some(self.bits.0)
            && (self.bits.1.is_none() || half(memory, at + 2) == self.bits.1)
    }
}

fn half(memory: &[u8], at: usize) -> Option<u16> {
    let bytes = memory.get(at..at.checked_add(2)?)?;
    Some(u16::from_be_bytes([bytes[0], bytes[1]]))
}

/// All instructions that were asked for, each at its place. Code that changes is listed anew.
pub struct Listing {
    known: Vec<Option<Rc<Instruction>>>,
}

impl Listing {
    pub fn new(memory: usize) -> Listing {
        Listing { known: vec![None; memory / 2] }
    }

    /// The instruction at an address; none where there are no two bytes.
    pub fn at(&mut self, memory: &[u8], address: u32) -> Option<&Rc<Instruction>> {
        let known =
            self.known.get_mut(address as usize / 2).filter(|_| address.is_multiple_of(2))?;
        if !known.as_ref().is_some_and(|known| known.is_at(memory)) {
            *known = list(memory, address).map(Rc::new);
        }
        known.as_ref()
    }
}

fn list(memory: &[u8], address: u32) -> Option<Instruction> {
    let start = address as usize;
    let end = memory.len().min(start + 4);
    let mut out = [0; 4 * LISTING_ROOM];
    let length = manik::list(memory, start, end, &mut out).ok()?;
    let listing = std::str::from_utf8(&out[..length]).ok()?;
    // Address, bits, and the rest of the first line.
    let mut fields = listing.lines().next()?.splitn(3, '\t').skip(1);
    let is_long = fields.next()?.len() == 8;
    let text = fields.next()?.to_string();
    let second = if is_long { half(memory, start + 2) } else { None };
    let effect = Effect::of(&text);
    Some(Instruction { address, bits: (half(memory, start)?, second), text, effect })
}

#[cfg(test)]
mod tests {
    use super::*;

    #[test]
    fn listed_anew_where_bits_change() {
        let mut memory = vec![0x71, 0x10, 0xf8, 0x00, 0x00, 0x02, 0xf8, 0x00];
        let mut listing = Listing::new(memory.len());
        let mut words = |memory: &[u8], at| listing.at(memory, at).map(|found| found.words());
        assert_eq!(words(&memory, 0).as_deref(), Some("movi r1 16"));
        assert_eq!(words(&memory, 2).as_deref(), Some("jl 6"));
        memory[5] = 0;
        assert_eq!(words(&memory, 2).as_deref(), Some("jl 2"));
        assert_eq!(words(&memory, 6).as_deref(), Some("half 0xf800"));
        assert_eq!(
            (words(&memory, 1), words(&memory, 8), words(&memory, u32::MAX)),
            (None, None, None)
        );
    }
}
