//! Numbers as a user writes them: decimal, or hexadecimal after 0x.

/// The number, or why it is none.
pub fn number(word: &str) -> Result<u64, String> {
    let (digits, radix) = match word.strip_prefix("0x") {
        Some(digits) => (digits, 16),
        None => (word, 10),
    };
    // The library would take a sign too.
    if digits.is_empty() || !digits.chars().all(|digit| digit.is_digit(radix)) {
        return Err("no decimal number, nor a hex one after 0x".into());
    }
    u64::from_str_radix(digits, radix).map_err(|_| "a number above 2^64 - 1".into())
}

/// As `number`, for an address or a word.
pub fn word(text: &str) -> Result<u32, String> {
    number(text)?.try_into().map_err(|_| "a number above 2^32 - 1".into())
}

#[cfg(test)]
mod tests {
    use super::*;

    #[test]
    fn decimal_and_hex() {
        assert_eq!(number("010"), Ok(10));
        assert_eq!(number("0xfF"), Ok(255));
        assert_eq!(number("18446744073709551615"), Ok(u64::MAX));
        assert_eq!(word("0xffffffff"), Ok(u32::MAX));
    }

    #[test]
    fn words_that_are_no_number() {
        for word in ["", " ", "+2", "-2", "0x", "0x+2", "0X2", "1a", "2.0", "2 ", "1_0"] {
            assert_eq!(number(word), Err("no decimal number, nor a hex one after 0x".into()));
        }
        assert!(number("18446744073709551616").is_err());
        assert!(word("0x100000000").is_err());
    }
}
