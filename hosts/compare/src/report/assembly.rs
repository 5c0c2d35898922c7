//! The text of one case in full.

use second::corpus::AssemblyCase;

use super::{hex, shortened};
use crate::assembly::{by_library, by_second, Assembled};

/// A case's text and start, and what both programs make of each call.
pub fn assembly(calls: &[AssemblyCase]) -> String {
    let AssemblyCase { text, start, .. } = &calls[0];
    let begin = format!("Text\n{}from {start:#x}\n", lines(text));
    begin + &calls.iter().map(ends).collect::<String>() + "\n"
}

/// The lines, each behind its number; a byte that is no character of a text behind a backslash.
fn lines(text: &[u8]) -> String {
    let lines = text.split_inclusive(|&byte| byte == b'\n').zip(1..);
    let shown = lines.map(|(line, number)| format!("line {number}: {}\n", line.escape_ascii()));
    shortened(shown.collect(), "lines")
}

/// A call's image and what both programs left.
fn ends(case: &AssemblyCase) -> String {
    let image = &case.image;
    format!("image {} bytes {}\n", image.len(), hex(image))
        + &end("library", case, &by_library(case))
        + &end("second program", case, &by_second(case))
}

/// The answer, and the bytes of the image from the first that was changed to the last.
fn end(name: &str, case: &AssemblyCase, after: &Assembled) -> String {
    let Assembled { reply, line, end, image } = after;
    let answer = format!("{name}: reply {reply}, line {line}, end {end:#x}\n");
    let is_changed = |&place: &usize| case.image[place] != image[place];
    let mut changed = (0..image.len()).filter(is_changed);
    let Some(first) = changed.next() else {
        return answer + "  image as it was\n";
    };
    let last = changed.next_back().unwrap_or(first);
    answer + &format!("  image changed from {first:#x} on: {}\n", hex(&image[first..=last]))
}
