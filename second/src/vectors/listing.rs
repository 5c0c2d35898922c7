//! The vectors of the listing, as `docs/VECTORS.md` defines them.

use super::{second_halves, Tally};
use crate::isa::mnemonics;
use crate::listing::line_at;

/// The length of the image.
const IMAGE: usize = 65_536;

/// The address of the first half `h` with its second half number `k`, and the listing's end.
fn range(h: usize, k: usize) -> (usize, usize) {
    let s = (h * 6 + h / 512) % 512;
    let at = match k {
        3 => 65_534 - 2 * s,
        4 => 2 * s,
        _ => (h * 10 + k * 21_846) % IMAGE,
    };
    let end = match k {
        1 => at + 2,
        2 => IMAGE.min(at + 4),
        _ => IMAGE,
    };
    (at, end)
}

/// Puts bytes at an address; those past the image are left out.
fn put(image: &mut [u8], at: usize, bytes: [u8; 4]) {
    image[at..].iter_mut().zip(bytes).for_each(|(place, byte)| *place = byte);
}

/// Shows every line, with the end of its listing.
pub fn for_each_line(mut show: impl FnMut(&str, usize)) {
    let mut image = vec![0; IMAGE];
    for first in 0..=u16::MAX {
        for (k, second) in second_halves(first).into_iter().enumerate() {
            let (at, end) = range(first.into(), k);
            let [[a, b], [c, d]] = [first, second].map(u16::to_be_bytes);
            put(&mut image, at, [a, b, c, d]);
            show(line_at(&image, at, end).0.as_str(), end);
            put(&mut image, at, [0; 4]);
        }
    }
}

/// The lines of the listing in `docs/VECTORS.md`.
pub fn vectors() -> String {
    let mnemonics = mnemonics();
    let names: Vec<&str> = mnemonics.iter().map(|instr| instr.mnemonic()).chain(["half"]).collect();
    let mut tallies = vec![Tally::EMPTY; names.len()];
    for_each_line(|line, _| {
        let name = line.split('\t').nth(2);
        let index = names.iter().position(|&each| Some(each) == name);
        tallies[index.expect("every mnemonic is listed")].count(line.as_bytes());
    });
    let line =
        |(name, tally): (&str, Tally)| format!("{name}\t{}\t{}\n", tally.cases, tally.digest);
    names.into_iter().zip(tallies).map(line).collect()
}
