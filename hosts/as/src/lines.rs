//! The `at` lines of the small program (`docs/PROGRAM.md`).

use std::fmt::Write;

/// The most bytes of a line.
const MOST: usize = 16;

/// The lines that put these bytes from an address on.
pub fn lines(start: usize, bytes: &[u8]) -> String {
    let mut text = String::new();
    for (place, bytes) in bytes.chunks(MOST).enumerate() {
        let digits: String = bytes.iter().map(|byte| format!("{byte:02x}")).collect();
        writeln!(text, "at\t{:08x}\t{digits}", start + place * MOST).expect("a string takes all");
    }
    text
}

#[cfg(test)]
mod tests {
    use super::*;

    #[test]
    fn up_to_16_bytes_a_line() {
        let bytes: Vec<u8> = (0xf0..=0xff).chain([0]).collect();
        let first = "at\t0000001c\tf0f1f2f3f4f5f6f7f8f9fafbfcfdfeff\n";
        assert_eq!(lines(0x1c, &[]), "");
        assert_eq!(lines(0x1c, &bytes[..1]), "at\t0000001c\tf0\n");
        assert_eq!(lines(0x1c, &bytes[..16]), first);
        assert_eq!(lines(0x1c, &bytes), format!("{first}at\t0000002c\t00\n"));
    }
}
