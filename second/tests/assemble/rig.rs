//! What the tests share: calls of the assembler that look at the whole image.

use std::fmt::Write;

use second::assemble::{assemble, Assembled, Refused};

/// What a byte of the image holds before the call.
pub const UNTOUCHED: u8 = 0xa5;

/// The bytes that a text becomes in an image of this length; nothing else of it changes.
pub fn assembled(text: &str, start: usize, length: usize) -> Result<Vec<u8>, (usize, u32)> {
    let mut image = vec![UNTOUCHED; length];
    let answer = assemble(text.as_bytes(), start, &mut image);
    let Assembled { lines, end } = match answer {
        Ok(assembled) => assembled,
        Err(Refused { line, number }) => {
            assert!(image.iter().all(|&byte| byte == UNTOUCHED), "{text:?}");
            return Err((line, number));
        }
    };
    assert_eq!(lines, text.lines().count(), "{text:?}");
    let (before, after) = (&image[..start], &image[end..]);
    assert!([before, after].concat().iter().all(|&byte| byte == UNTOUCHED), "{text:?}");
    Ok(image[start..end].to_vec())
}

/// The same as hex, from address 0x100 on, with room to spare.
pub fn hex(text: &str) -> Result<String, (usize, u32)> {
    let bytes = assembled(text, 0x100, 0x100 + 4 * text.lines().count())?;
    Ok(bytes.iter().map(|byte| format!("{byte:02x}")).collect())
}

/// The refusal of the one line of a text; 0 if it is assembled.
pub fn refusal(line: &str) -> u32 {
    match hex(&format!("{line}\n")) {
        Ok(_) => 0,
        Err((number, refusal)) => {
            assert_eq!(number, 1, "{line:?}");
            refusal
        }
    }
}

/// The value of an expression in a `word`, in which `here` is 0x100 and `there` 0x104; or else the
/// refusal.
pub fn value(expression: &str) -> Result<i32, u32> {
    let text = format!("here\tword\t{expression}\nthere\tjr\tr0\n");
    let bytes = assembled(&text, 0x100, 0x106).map_err(|(line, number)| {
        assert_eq!(line, 1, "{expression:?}");
        number
    })?;
    Ok(i32::from_be_bytes(*bytes.first_chunk().expect("a word")))
}

/// So many lines, each with a label of its own.
pub fn labelled(lines: usize) -> String {
    (0..lines).fold(String::new(), |mut text, line| {
        writeln!(text, "l{line}\tjr\tr0").expect("a string takes all");
        text
    })
}
