//! The marks of memory (document 02, ticket 7): "Store one bit for each byte, lowest address in the
//! lowest bit, so the mark slice is the memory length divided by 8, rounded up."

use std::ops::Range;

use crate::word::Width;

/// The marks in a byte of the mark slice.
const IN_A_BYTE: usize = 8;

/// The length of the mark slice of a memory.
pub const fn room(memory_length: usize) -> usize {
    memory_length.div_ceil(IN_A_BYTE)
}

/// The mark slice of a memory whose bytes have these marks, address 0 first.
pub fn packed(marks: &[bool]) -> Vec<u8> {
    let byte = |eight: &[bool]| {
        eight.iter().rev().fold(0, |higher, &marked| higher << 1 | u8::from(marked))
    };
    marks.chunks(IN_A_BYTE).map(byte).collect()
}

/// Whether the byte at an address is marked. Past the slice none is.
pub fn is_marked(marks: &[u8], address: usize) -> bool {
    marks.get(address / IN_A_BYTE).is_some_and(|byte| byte >> (address % IN_A_BYTE) & 1 == 1)
}

/// Marks the bytes at these addresses, all of which have a bit in the slice.
pub fn mark(marks: &mut [u8], addresses: Range<usize>) {
    for address in addresses {
        marks[address / IN_A_BYTE] |= 1 << (address % IN_A_BYTE);
    }
}

/// Whether "a set bit past the memory's end" is there, in a slice as long as it should be, whose last
/// byte this is: no other byte has such bits.
pub const fn any_past_end(last: u8, memory_length: usize) -> bool {
    let used = memory_length % IN_A_BYTE;
    used > 0 && last >> used != 0
}

/// The place of an access's marks and their bits there. An aligned access has them in one byte,
/// since its size divides 8.
#[inline]
const fn bits(address: u32, width: Width) -> (usize, u8) {
    let all = (1_u8 << width.bytes()) - 1;
    (address as usize / IN_A_BYTE, all << (address as usize % IN_A_BYTE))
}

/// Whether any byte of an access at an aligned address in memory is marked.
#[inline]
pub(crate) fn any_marked(marks: &[u8], address: u32, width: Width) -> bool {
    let (place, bits) = bits(address, width);
    marks[place] & bits != 0
}

/// Gives each byte of an access at an aligned address in memory this mark.
#[inline]
pub(crate) fn set(marks: &mut [u8], address: u32, width: Width, marked: bool) {
    let (place, bits) = bits(address, width);
    if marked {
        marks[place] |= bits;
    } else {
        marks[place] &= !bits;
    }
}
