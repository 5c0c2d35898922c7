//! The listing of one case in full.

use second::corpus::ListCase;
use second::listing::list;

use super::{hex, shortened, MOST_BYTES};
use crate::listing::{by_library, by_second, Call, Listed};

/// A case's image and range, the listing by the second program, and what both programs make of
/// each call.
pub fn listing(calls: &[Call]) -> String {
    let ListCase { image, start, end, .. } = &calls[0].case;
    let begin = format!(
        "Listing\nimage {} bytes {}\nfrom {start:#x} to {end:#x}\n",
        image.len(),
        hex(image)
    );
    begin + &lines(&calls[0].case) + &calls.iter().map(ends).collect::<String>() + "\n"
}

/// The lines, whatever room the case has for them.
fn lines(ListCase { image, start, end, .. }: &ListCase) -> String {
    let mut buffer = vec![0; second::listing::LONGEST_LISTING];
    match list(image, *start, *end, &mut buffer) {
        Err(refusal) => format!("{refusal}\n"),
        Ok(length) => {
            let text = String::from_utf8_lossy(&buffer[..length]);
            shortened(text.split_inclusive('\n').map(String::from).collect(), "lines")
        }
    }
}

/// A call and what both programs left.
fn ends(call: &Call) -> String {
    let Call { case, filler } = call;
    format!("buffer {} bytes full of {filler:02x}\n", case.room)
        + &end("library", *filler, &by_library(call))
        + &end("second program", *filler, &by_second(call))
}

/// The answer, what was written as the listing, and what stands behind it.
fn end(name: &str, filler: u8, Listed { reply, length, buffer }: &Listed) -> String {
    let (written, behind) = buffer.split_at(buffer.len().min(*length));
    let behind = match behind {
        unchanged if unchanged.iter().all(|&byte| byte == filler) => {
            format!("{} bytes as they were", unchanged.len())
        }
        changed => escaped(changed),
    };
    let written = escaped(written);
    format!("{name}: reply {reply}, length {length}\n  listing {written}\n  behind it {behind}\n")
}

/// Bytes as text, those that are none behind a backslash.
fn escaped(bytes: &[u8]) -> String {
    let more = if bytes.len() > MOST_BYTES { "..." } else { "" };
    format!("{}{more}", bytes[..bytes.len().min(MOST_BYTES)].escape_ascii())
}
