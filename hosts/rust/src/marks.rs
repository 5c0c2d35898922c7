//! The marks of memory: one bit for each byte, the lowest address in the lowest bit.
//!
//! The byte at address `a` is marked if bit `a % 8` of `marks[a / 8]` is 1. Where the memory's length
//! is no multiple of 8, the upper four bits of the last mark byte are past the memory's end and must
//! be 0, or a run is refused ([`Reply::MarkPastEnd`](crate::Reply::MarkPastEnd)).
//!
//! ```
//! use manik::marks;
//!
//! let memory = *b"code, then a key: NOTARY";
//! let mut marks = vec![0; marks::room(memory.len())];
//! marks::mark(&mut marks, 18..24);
//! assert_eq!(marks, [0, 0, 0xfc]);
//! assert!(marks::is_marked(&marks, 18) && !marks::is_marked(&marks, 17));
//! marks::clear(&mut marks, 18..20);
//! assert_eq!(marks, [0, 0, 0xf0]);
//! ```

use std::ops::Range;

/// The length of the mark slice of a memory: its length divided by 8, rounded up.
pub const fn room(memory_length: usize) -> usize {
    memory_length.div_ceil(8)
}

/// Whether the byte at this address is marked.
///
/// # Panics
///
/// If the slice has no bit for the address.
pub fn is_marked(marks: &[u8], address: usize) -> bool {
    marks[address / 8] & bit(address) != 0
}

/// Marks the bytes at these addresses, and leaves the marks of others.
///
/// # Panics
///
/// If the slice has no bit for one of them.
pub fn mark(marks: &mut [u8], addresses: Range<usize>) {
    for address in addresses {
        marks[address / 8] |= bit(address);
    }
}

/// Takes the marks of the bytes at these addresses away, and leaves the marks of others.
///
/// # Panics
///
/// If the slice has no bit for one of them.
pub fn clear(marks: &mut [u8], addresses: Range<usize>) {
    for address in addresses {
        marks[address / 8] &= !bit(address);
    }
}

/// The bit of an address in its mark byte.
const fn bit(address: usize) -> u8 {
    1 << (address % 8)
}
