//! Words of 32 bits and their bytes in memory.
//!
//! Document 01: "Arithmetic wraps modulo 2^32". A signed number is held as the word of its bits.
//! Memory is big-endian (document 00).

/// How many bytes a load or a store moves.
#[derive(Clone, Copy, Debug, PartialEq, Eq, Hash)]
pub enum Width {
    /// One byte.
    Byte,
    /// A half: two bytes.
    Half,
    /// A word: four bytes.
    Word,
}

impl Width {
    /// Every width, the narrowest first.
    pub const ALL: [Width; 3] = [Width::Byte, Width::Half, Width::Word];

    /// The number of bytes: 1, 2 or 4.
    #[inline]
    pub const fn bytes(self) -> u32 {
        match self {
            Width::Byte => 1,
            Width::Half => 2,
            Width::Word => 4,
        }
    }
}

/// `x + y + carry` and the carry out, which add and addc put in CY.
#[inline]
pub const fn add(x: u32, y: u32, carry: bool) -> (u32, bool) {
    let (partial, over) = x.overflowing_add(y);
    let (sum, over_by_carry) = partial.overflowing_add(carry as u32);
    (sum, over || over_by_carry)
}

/// `x - y - borrow` and the borrow out, which sub and subc put in CY.
///
/// The guide speaks of "carry out from the subtract"; document 01 says that it is the borrow.
#[inline]
pub const fn sub(x: u32, y: u32, borrow: bool) -> (u32, bool) {
    let (partial, under) = x.overflowing_sub(y);
    let (difference, under_by_borrow) = partial.overflowing_sub(borrow as u32);
    (difference, under || under_by_borrow)
}

/// The low 32 bits of `x * y`; they are the same for signed and unsigned numbers.
#[inline]
pub const fn mult(x: u32, y: u32) -> u32 {
    x.wrapping_mul(y)
}

/// The low 6 bits of an amount: "A shift by register uses its low 6 bits" (document 01).
#[inline]
pub const fn shift_amount(amount: u32) -> u32 {
    amount & 0x3f
}

/// `x` shifted left by the low 6 bits of `amount`; over 31 gives 0.
#[inline]
pub const fn lsl(x: u32, amount: u32) -> u32 {
    match x.checked_shl(shift_amount(amount)) {
        Some(shifted) => shifted,
        None => 0,
    }
}

/// `x` shifted right by the low 6 bits of `amount`, zeros from the left; over 31 gives 0.
#[inline]
pub const fn lsr(x: u32, amount: u32) -> u32 {
    match x.checked_shr(shift_amount(amount)) {
        Some(shifted) => shifted,
        None => 0,
    }
}

/// `x` shifted right by the low 6 bits of `amount`, copies of the sign from the left; over 31
/// gives 32 of them.
#[inline]
pub const fn asr(x: u32, amount: u32) -> u32 {
    match (x as i32).checked_shr(shift_amount(amount)) {
        Some(shifted) => shifted as u32,
        None => (x as i32 >> 31) as u32,
    }
}

/// Whether `x < y` as signed numbers.
#[inline]
pub const fn less(x: u32, y: u32) -> bool {
    (x as i32) < (y as i32)
}

/// The low `bits` bits of `x` (1 to 32 of them), sign extended to a word.
#[inline]
pub const fn sign_extend(x: u32, bits: u32) -> u32 {
    let above = 32 - bits;
    ((x << above) as i32 >> above) as u32
}

/// The address aligned down to the access size.
#[inline]
pub const fn align(address: u32, width: Width) -> u32 {
    address & !(width.bytes() - 1)
}

/// The number at `address`, zero-extended; none if any of its bytes is outside `memory`.
#[inline]
pub fn load(memory: &[u8], address: u32, width: Width) -> Option<u32> {
    match width {
        Width::Byte => bytes(memory, address).map(|[byte]| byte.into()),
        Width::Half => bytes(memory, address).map(|half| u16::from_be_bytes(half).into()),
        Width::Word => bytes(memory, address).map(u32::from_be_bytes),
    }
}

/// The `N` bytes from `address` on, if all are inside `memory`.
#[inline]
fn bytes<const N: usize>(memory: &[u8], address: u32) -> Option<[u8; N]> {
    let start = usize::try_from(address).ok()?;
    memory.get(start..start.checked_add(N)?)?.first_chunk().copied()
}

/// Stores the low bytes of `value` at `address`. If any of their places is outside `memory`, the
/// answer is false and nothing changes.
#[inline]
#[must_use]
pub fn store(memory: &mut [u8], address: u32, width: Width, value: u32) -> bool {
    match width {
        Width::Byte => put(memory, address, [value as u8]),
        Width::Half => put(memory, address, (value as u16).to_be_bytes()),
        Width::Word => put(memory, address, value.to_be_bytes()),
    }
    .is_some()
}

/// Puts bytes from `address` on, if all places are inside `memory`.
#[inline]
fn put<const N: usize>(memory: &mut [u8], address: u32, bytes: [u8; N]) -> Option<()> {
    let start = usize::try_from(address).ok()?;
    *memory.get_mut(start..start.checked_add(N)?)?.first_chunk_mut()? = bytes;
    Some(())
}
