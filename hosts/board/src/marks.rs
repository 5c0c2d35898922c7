//! Memory's marks: one bit for each byte, the lowest address in the lowest bit (document 02,
//! ticket 7).

use std::ops::Range;

#[derive(Clone, Debug, PartialEq, Eq)]
pub struct Marks {
    bits: Vec<u8>,
}

impl Marks {
    /// No mark on a memory of this length.
    pub fn none(length: usize) -> Marks {
        Marks { bits: vec![0; length.div_ceil(8)] }
    }

    /// The bits as the library takes them.
    pub fn bits(&self) -> &[u8] {
        &self.bits
    }

    pub fn bits_mut(&mut self) -> &mut [u8] {
        &mut self.bits
    }

    pub fn get(&self, at: usize) -> bool {
        self.bits[at / 8] >> (at % 8) & 1 != 0
    }

    pub fn set(&mut self, range: Range<usize>) {
        for at in range {
            self.bits[at / 8] |= 1 << (at % 8);
        }
    }

    /// Whether a byte of the range is marked.
    pub fn any(&self, mut range: Range<usize>) -> bool {
        range.any(|at| self.get(at))
    }

    /// How many bytes of the range are marked.
    pub fn count(&self, range: Range<usize>) -> usize {
        range.filter(|&at| self.get(at)).count()
    }

    /// The ranges of marked bytes in a memory of this length, from the lowest address on.
    pub fn ranges(&self, length: usize) -> Vec<Range<usize>> {
        let mut ranges: Vec<Range<usize>> = Vec::new();
        for at in (0..length).filter(|&at| self.get(at)) {
            match ranges.last_mut() {
                Some(last) if last.end == at => last.end += 1,
                _ => ranges.push(at..at + 1),
            }
        }
        ranges
    }
}

#[cfg(test)]
mod tests {
    use super::*;

    #[test]
    fn lowest_address_in_the_lowest_bit() {
        let mut marks = Marks::none(12);
        marks.set(0..1);
        marks.set(7..10);
        assert_eq!(marks.bits(), [0x81, 0x03]);
        assert_eq!(
            (marks.get(0), marks.get(1), marks.get(9), marks.get(10)),
            (true, false, true, false)
        );
        assert_eq!(marks.count(1..12), 3);
        assert!(marks.any(9..12) && !marks.any(10..12));
        assert_eq!(marks.ranges(12), [0..1, 7..10]);
    }
}
