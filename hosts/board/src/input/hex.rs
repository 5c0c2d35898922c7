//! Intel HEX. The start address of its records 03 and 05 is not taken: a core begins at 0.

use super::Filling;

/// A text that begins with a colon. Code may begin with that byte too, but is no text.
pub fn is_hex(bytes: &[u8]) -> bool {
    let is_text = |byte: &u8| matches!(byte, b'\t' | b'\n' | b'\r' | b' '..=b'~');
    bytes.first() == Some(&b':') && bytes.iter().all(is_text)
}

/// Puts the data of all records into memory.
pub fn load(bytes: &[u8], filling: &mut Filling) -> Result<(), String> {
    let text = std::str::from_utf8(bytes).map_err(|error| error.to_string())?;
    let mut base = 0;
    let mut ended = false;
    for (line, text) in text.lines().enumerate().filter(|(_, text)| !text.trim().is_empty()) {
        let at = |why: String| format!("line {}: {why}", line + 1);
        if ended {
            return Err(at("something stands behind the end record".into()));
        }
        let record = Record::read(text.trim_end()).map_err(at)?;
        match (record.kind, &record.data[..]) {
            (0, data) => filling.put(base + u64::from(record.address), data).map_err(at)?,
            (1, []) => ended = true,
            (2, &[high, low]) => base = u64::from(u16::from_be_bytes([high, low])) << 4,
            (4, &[high, low]) => base = u64::from(u16::from_be_bytes([high, low])) << 16,
            (3 | 5, [_, _, _, _]) => (),
            (kind, data) => {
                return Err(at(format!("no record of type {kind} has {} bytes", data.len())));
            }
        }
    }
    if ended {
        Ok(())
    } else {
        Err("truncated: there is no end record".into())
    }
}

struct Record {
    address: u16,
    kind: u8,
    data: Vec<u8>,
}

impl Record {
    /// Colon, length, address, type, data and checksum.
    fn read(text: &str) -> Result<Record, String> {
        let digits = text.strip_prefix(':').ok_or("a record begins with a colon")?;
        let bytes = octets(digits)?;
        let &[length, high, low, kind, ref rest @ ..] = &bytes[..] else {
            return Err("truncated: a record has at least five bytes".into());
        };
        let Some((sum, data)) = rest.split_last() else {
            return Err("truncated: a record has at least five bytes".into());
        };
        if data.len() != usize::from(length) {
            return Err(format!("truncated: {} data bytes where {length} are told", data.len()));
        }
        let expected =
            bytes[..bytes.len() - 1].iter().fold(0u8, |sum, &byte| sum.wrapping_sub(byte));
        if *sum != expected {
            return Err(format!("checksum {sum:02x} where the bytes give {expected:02x}"));
        }
        Ok(Record { address: u16::from_be_bytes([high, low]), kind, data: data.to_vec() })
    }
}

/// The bytes of pairs of hex digits.
fn octets(digits: &str) -> Result<Vec<u8>, String> {
    let wrong = || "truncated or damaged: not all are pairs of hex digits".to_string();
    if !digits.len().is_multiple_of(2) || !digits.bytes().all(|digit| digit.is_ascii_hexdigit()) {
        return Err(wrong());
    }
    (0..digits.len())
        .step_by(2)
        .map(|at| u8::from_str_radix(&digits[at..at + 2], 16).map_err(|_| wrong()))
        .collect()
}

#[cfg(test)]
mod tests {
    use super::*;

    fn loaded(text: &str) -> Result<Vec<u8>, String> {
        assert!(is_hex(text.as_bytes()));
        let mut filling = Filling::new(16);
        load(text.as_bytes(), &mut filling).map(|()| filling.memory)
    }

    #[test]
    fn records() {
        let memory =
            loaded(":0200000471106f0a\n:00000001FF\n".replace("0471106f0a", "0071107D").as_str());
        assert_eq!(memory.unwrap()[..4], [0x71, 0x10, 0, 0]);
        // Bases by segment and by upper half, a start address, and Windows' line ends.
        let text = ":020000020000FC\r\n:020000040000FA\r\n:0400000500000000F7\r\n:01000F00AA46\r\n:00000001FF\r\n";
        assert_eq!(loaded(text).unwrap()[15], 0xaa);
    }

    #[test]
    fn damage() {
        let cases = [
            (":0100000000FF\n", "truncated: there is no end record"),
            (":01000000", "line 1: truncated: a record has at least five bytes"),
            (":0200000000FE\n", "line 1: truncated: 1 data bytes where 2 are told"),
            (":0100000000FE\n", "line 1: checksum fe where the bytes give ff"),
            (":0100000000F\n", "line 1: truncated or damaged: not all are pairs of hex digits"),
            (":00000001FF\n:00000001FF\n", "line 2: something stands behind the end record"),
            (":00000006FA\n", "line 1: no record of type 6 has 0 bytes"),
            (":0100100000EF\n", "line 1: 1 bytes from 0x10 on don't fit a memory of 16 bytes"),
            (
                ":0100000000FF\n:0100000000FF\n",
                "line 2: overlapping: the byte at 0x0 is there already",
            ),
        ];
        for (text, why) in cases {
            assert_eq!(loaded(text).unwrap_err(), why);
        }
    }

    #[test]
    fn code_that_begins_with_a_colon() {
        assert!(!is_hex(b":\x01\x00\x00"));
        assert!(!is_hex(b"0:"));
    }
}
