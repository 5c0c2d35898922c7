//! The words of a call.

use std::ffi::OsString;
use std::path::PathBuf;

/// What is to be done.
#[derive(Debug, PartialEq)]
pub struct Call {
    pub source: PathBuf,
    pub start: usize,
    pub image: Option<PathBuf>,
}

impl Call {
    /// The call with these words, or why one of them is wrong; none for another number of words.
    pub fn read(words: impl Iterator<Item = OsString>) -> Option<Result<Call, String>> {
        let words: Vec<OsString> = words.collect();
        let (source, start, image) = match &words[..] {
            [source] => (source, None, None),
            [source, start] => (source, Some(start), None),
            [source, start, image] => (source, Some(start), Some(image)),
            _ => return None,
        };
        let start = start.map_or(Some(0), |word| number(word.to_str()?));
        let call = |start| Call { source: source.into(), start, image: image.map(PathBuf::from) };
        Some(start.map(call).ok_or_else(|| {
            format!("START is no decimal number, nor a hex one after 0x: {:?}", words[1])
        }))
    }
}

/// A number in decimal, or in hex after 0x.
fn number(word: &str) -> Option<usize> {
    let (digits, radix) = match word.strip_prefix("0x") {
        Some(digits) => (digits, 16),
        None => (word, 10),
    };
    // The library would take a sign too.
    let is_number = !digits.is_empty() && digits.chars().all(|digit| digit.is_digit(radix));
    usize::from_str_radix(digits, radix).ok().filter(|_| is_number)
}

#[cfg(test)]
mod tests {
    use super::*;

    fn read(words: &[&str]) -> Option<Result<Call, String>> {
        Call::read(words.iter().map(OsString::from))
    }

    #[test]
    fn one_to_three_words() {
        let call = |start, image: Option<&str>| {
            Some(Ok(Call { source: "a.s".into(), start, image: image.map(PathBuf::from) }))
        };
        assert_eq!(read(&["a.s"]), call(0, None));
        assert_eq!(read(&["a.s", "0x1fE"]), call(510, None));
        assert_eq!(read(&["a.s", "010", "b"]), call(10, Some("b")));
        assert_eq!(read(&[]), None);
        assert_eq!(read(&["a.s", "0", "b", "c"]), None);
    }

    #[test]
    fn words_that_are_no_number() {
        let words =
            ["", " ", "+2", "-2", "0x", "0x+2", "0X2", "x2", "1a", "2.0", "2 ", "0xg", "1_0"];
        for word in words.into_iter().chain(["18446744073709551616", "0x10000000000000000"]) {
            let error = read(&["a.s", word]).and_then(Result::err).expect("an error");
            assert!(error.ends_with(&format!(": {word:?}")), "{error}");
        }
    }
}
