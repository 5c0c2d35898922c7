//! The listing of an image (document 02, ticket 1), and all that is unsafe about its call.

use std::fmt;

extern "C" {
    /// As `include/manik.h` documents it.
    fn manik_list(
        image: *const u8,
        image_len: usize,
        start: usize,
        end: usize,
        out: *mut u8,
        out_len: usize,
        written: *mut usize,
    ) -> u32;
}

/// So many bytes of a buffer for each byte of the range have room for its listing, whatever the
/// image holds. With a shorter buffer the library goes through the range twice.
pub const LISTING_ROOM: usize = 24;

/// Lists the image from `start` to before `end`: a line for each instruction, in document 01's
/// written form. Gives the listing's length; it begins at `out[0]`, and no byte behind it changes.
///
/// Refusals are errors, and then no byte of `out` changes.
///
/// ```
/// // movi r1,16; add r1,r1; a jump to itself.
/// let image = [0x71, 0x10, 0x21, 0x11, 0xf4, 0x00];
/// let mut out = [0; 6 * manik::LISTING_ROOM];
/// let length = manik::list(&image, 0, 4, &mut out)?;
/// assert_eq!(out[..length], *b"00000000\t7110\tmovi\tr1\t16\n00000002\t2111\tadd\tr1\tr1\n");
/// # Ok::<(), manik::ListError>(())
/// ```
pub fn list(image: &[u8], start: usize, end: usize, out: &mut [u8]) -> Result<usize, ListError> {
    let room = out.len();
    match call(image, start, end, out) {
        (0, written) if written <= room => Ok(written),
        (20, 0) => Err(ListError::Range),
        (21, 0) => Err(ListError::Room),
        (number, written) => Err(ListError::UnknownReply { number, written }),
    }
}

/// The reply's number and the listing's length, as the library gives them.
fn call(image: &[u8], start: usize, end: usize, out: &mut [u8]) -> (u32, usize) {
    // The library writes it whatever it replies; this value would show if it didn't.
    let mut written = usize::MAX;
    // SAFETY: both pointers come with their lengths from slices, so they aren't null, even if a
    // slice is empty, and their bytes are initialized and live for the call. `out` and `written`
    // are borrowed for this call alone, so nothing overlaps them. The library keeps no pointer, and
    // it stays within the slices by its proof, whatever `start` and `end` are.
    let number = unsafe {
        manik_list(
            image.as_ptr(),
            image.len(),
            start,
            end,
            out.as_mut_ptr(),
            out.len(),
            &mut written,
        )
    };
    (number, written)
}

/// Why there is no listing.
#[derive(Clone, Copy, Debug, PartialEq, Eq, Hash)]
pub enum ListError {
    /// The image is over 65,536 bytes, or the range is outside it, odd or reversed.
    Range,
    /// The listing is longer than the buffer.
    Room,
    /// The library gave an answer that it never gives.
    UnknownReply { number: u32, written: usize },
}

impl ListError {
    /// Document 02's number of the refusal, or the unknown one.
    pub const fn number(self) -> u32 {
        match self {
            ListError::Range => 20,
            ListError::Room => 21,
            ListError::UnknownReply { number, .. } => number,
        }
    }
}

/// The refusal by number and in words.
impl fmt::Display for ListError {
    fn fmt(&self, formatter: &mut fmt::Formatter) -> fmt::Result {
        let fact = match self {
            ListError::Range => {
                "the image is over 65,536 bytes, or the range is outside it, odd or reversed"
            }
            ListError::Room => "the listing is longer than the buffer",
            ListError::UnknownReply { number, written } => {
                return write!(formatter, "unknown reply {number} with a length of {written}");
            }
        };
        write!(formatter, "refusal {}: {fact}", self.number())
    }
}

impl std::error::Error for ListError {}
