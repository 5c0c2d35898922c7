//! The assembler's page: every text becomes what stands beside it.

use std::collections::BTreeSet;

use second::assemble::{assemble, Assembled, Refused};
use second::isa::mnemonics;
use second::listing::{list, LONGEST_LINE};
use second::script::answer;

use crate::markdown::{blocks, file, page, rows};

const START: usize = 0x100;
const LENGTH: usize = 1_024;

/// The bytes of a text in hex, or its refusal.
fn bytes(text: &str, start: usize, length: usize) -> Result<String, Refused> {
    let mut image = vec![0; length];
    let Assembled { end, .. } = assemble(text.as_bytes(), start, &mut image)?;
    Ok(image[start..end].iter().map(|byte| format!("{byte:02x}")).collect())
}

/// The words of a refusal, by the page's table.
fn words(number: u32) -> String {
    let row = |[row, words, _]: [String; 3]| (row == number.to_string()).then_some(words);
    let mut rows = rows(&page("ASSEMBLER.md"), ["Number", "Words", "When"]).into_iter();
    rows.find_map(row).unwrap_or_else(|| panic!("{number} is not in the table"))
}

/// What the page says that a text becomes.
fn told(text: &str, start: usize, length: usize) -> String {
    bytes(text, start, length)
        .unwrap_or_else(|Refused { line, number }| format!("{line}: {number} {}", words(number)))
}

/// The text that the page's stand-ins mean.
fn meant(text: &str) -> String {
    let text = [("→", "\t"), ("⏎", "\n"), ("␣", " ")]
        .into_iter()
        .fold(text.to_string(), |text, (shown, byte)| text.replace(shown, byte));
    let Some((first, last)) = text.split_once('…') else { return text };
    let lines: Vec<String> =
        (0..257).map(|number| first.replace("l0", &format!("l{number}"))).collect();
    assert_eq!(lines[256], last, "the page leaves out the lines between");
    lines.concat()
}

/// The cells of the lines of all blocks of a kind. A note may stand behind what a text becomes.
fn cells(kind: &str) -> Vec<Vec<String>> {
    let lines = blocks(&page("ASSEMBLER.md"), kind).concat();
    let trimmed = |cell: &str| Some(cell.trim().to_string()).filter(|cell| !cell.is_empty());
    lines.lines().map(|line| line.split("  ").filter_map(trimmed).collect()).collect()
}

#[test]
fn every_case_becomes_what_stands_beside_it() {
    for line in cells("cases") {
        let [text, expected, ..] = &line[..] else { panic!("{line:?} is no case") };
        assert_eq!(told(&meant(text), START, LENGTH), *expected, "{text}");
    }
    for line in cells("rooms") {
        let [start, length, text, expected, _] = &line[..] else { panic!("{line:?} is no case") };
        let [start, length] = [start, length].map(|cell| cell.parse().expect("a decimal"));
        assert_eq!(told(&meant(text), start, length), *expected, "{text}");
    }
}

#[test]
fn every_refusal_is_shown() {
    let all = [cells("cases"), cells("rooms")].concat().concat().join("\n");
    for number in 29..=36 {
        assert!(all.contains(&format!(": {number} {}", words(number))), "{number}");
    }
}

#[test]
fn a_whole_text_becomes_its_bytes() {
    let page = page("ASSEMBLER.md");
    let (sources, made) = (blocks(&page, "source"), blocks(&page, "bytes"));
    assert_eq!(sources.len(), made.len());
    for (source, made) in sources.iter().zip(&made) {
        assert_eq!(bytes(source, 0, 256).as_deref(), Ok(made.trim_end()), "{source:?}");
    }
    assert!(file("examples/first.txt").contains(&format!("at\t00000000\t{}", made[0])));
}

/// Every mnemonic has one row, and its line has the row's fields and bytes.
#[test]
fn every_mnemonic_has_its_fields() {
    let mut named = Vec::new();
    for [names, fields, size] in
        rows(&page("ASSEMBLER.md"), ["Mnemonics", "Operand fields", "Bytes"])
    {
        let fields: Vec<&str> = fields
            .split(", ")
            .map(|field| match field {
                "register" => "r15",
                "SFR" => "sfr3",
                "value" => "0",
                "address" => "0x100",
                _ => panic!("{field:?} is no field"),
            })
            .collect();
        for name in names.split(' ') {
            let made = bytes(&format!("\t{name}\t{}\n", fields.join("\t")), START, LENGTH);
            assert_eq!(made.map(|bytes| (bytes.len() / 2).to_string()), Ok(size.clone()), "{name}");
            named.push(name.to_string());
        }
    }
    let known = mnemonics().into_iter().map(|each| each.mnemonic().to_string());
    let known: BTreeSet<String> = known.chain(["half".into(), "word".into()]).collect();
    assert_eq!(named.len(), known.len());
    assert_eq!(named.into_iter().collect::<BTreeSet<_>>(), known);
}

/// The `at` lines of a source, 16 bytes each.
fn at_lines(source: &str) -> String {
    let bytes = bytes(source, 0, 256).expect("it is assembled");
    let parts = bytes.as_bytes().chunks(32).map(String::from_utf8_lossy);
    (0..).step_by(16).zip(parts).map(|(at, part)| format!("at\t{at:08x}\t{part}\n")).collect()
}

#[test]
fn a_snippet_runs_as_the_page_says() {
    let (page, lines) = (page("ASSEMBLER.md"), at_lines(&file("examples/build32.s")));
    let first: String = lines.split_inclusive('\n').take(2).collect();
    assert!(page.contains(&format!("examples/build32.s | head -n 2\n\n```\n{first}```\n")));
    let input = format!("mem\t256\n{lines}mark\t000000d0\t16\nrun\t200\n");
    let answer = answer(input.as_bytes());
    assert!(page.contains(&format!("| tools/manik\n\n```\n{answer}```\n")), "{answer}");
}

/// The page's `cut` and `sed`.
#[test]
fn a_listing_assembles_back() {
    let image: Vec<u8> = assembled_image("examples/build31.s");
    let mut out = vec![0; LONGEST_LINE * image.len()];
    let length = list(&image, 0, image.len(), &mut out).expect("a range");
    let listing = String::from_utf8_lossy(&out[..length]);
    let columns = |line: &str| format!("\t{}\n", line.splitn(3, '\t').nth(2).expect("columns"));
    let text: String = listing.lines().map(columns).collect();
    let mut again = vec![0xa5; image.len()];
    let end = assemble(text.as_bytes(), 0, &mut again).map(|assembled| assembled.end);
    assert_eq!(end, Ok(image.len()));
    assert!(again == image);
}

fn assembled_image(source: &str) -> Vec<u8> {
    let mut image = vec![0; 256];
    assemble(file(source).as_bytes(), 0, &mut image).expect("it is assembled");
    image
}
