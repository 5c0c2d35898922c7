//! The way back from listings.

use second::assemble::{assemble, Assembled};
use second::listing::{list, LONGEST_IMAGE, LONGEST_LISTING};
use second::vectors::listing::for_each_line;

use crate::rig::UNTOUCHED;

/// The lines of a listing, as the assembler's: without address and bits.
fn text_of(listing: &str) -> String {
    let lines = listing.lines().map(|line| line.splitn(3, '\t').nth(2).expect("three columns"));
    lines.fold(String::new(), |text, line| text + "\t" + line + "\n")
}

/// "Mnemonic and operands of a Ticket 1 listing assemble to the same bits at the same address."
fn check_listed(image: &[u8], start: usize, end: usize) {
    let mut listing = vec![0; LONGEST_LISTING];
    let length = list(image, start, end, &mut listing).expect("a good range");
    let text = text_of(str::from_utf8(&listing[..length]).expect("plain text"));
    let mut out = vec![UNTOUCHED; image.len()];
    let lines = text.lines().count();
    assert_eq!(assemble(text.as_bytes(), start, &mut out), Ok(Assembled { lines, end }));
    assert!(out[start..end] == image[start..end]);
}

/// Every first half, and behind it a half that is none, so that each begins a line.
#[test]
fn the_listing_of_every_first_half_gives_its_bytes_back() {
    let all: Vec<u8> =
        (0..=u16::MAX).flat_map(|first| [first, 0]).flat_map(u16::to_be_bytes).collect();
    for image in all.chunks(LONGEST_IMAGE) {
        check_listed(image, 0, image.len());
        // From here on each line has another address, and the last may be cut.
        check_listed(&[&[0; 6], &image[..LONGEST_IMAGE - 8]].concat(), 6, LONGEST_IMAGE - 4);
    }
    let halves: Vec<u8> = (0..=u16::MAX).flat_map(u16::to_be_bytes).collect();
    for image in halves.chunks(LONGEST_IMAGE) {
        check_listed(image, 0, image.len());
    }
}

/// With several second halves, at many addresses, up to the image's end.
#[test]
fn the_listed_vectors_give_their_bytes_back() {
    let mut image = vec![0; LONGEST_IMAGE];
    for_each_line(|line, _| {
        let fields: Vec<&str> = line.trim_end().split('\t').collect();
        let at = usize::from_str_radix(fields[0], 16).expect("the address");
        let text = format!("\t{}\n", fields[2..].join("\t"));
        let end = at + fields[1].len() / 2;
        let answer = assemble(text.as_bytes(), at, &mut image);
        assert_eq!(answer, Ok(Assembled { lines: 1, end }), "{line:?}");
        let digits: String = image[at..end].iter().map(|byte| format!("{byte:02x}")).collect();
        assert_eq!(digits, fields[1], "{line:?}");
    });
}
