//! Builds 31 and 32 at the board's full size.

use std::fs;

use crate::rig::{assembled, call, repository};

const KEY: usize = 0xff40;

fn source(name: &str) -> String {
    fs::read_to_string(repository().join("examples/board").join(name)).expect("a source")
}

/// Intel HEX of some bytes, 16 in a record.
fn records(start: usize, bytes: &[u8]) -> String {
    let record = |(n, data): (usize, &[u8])| {
        let mut record = vec![data.len() as u8];
        record.extend(((start + 16 * n) as u16).to_be_bytes());
        record.push(0);
        record.extend(data);
        let sum = record.iter().fold(0u8, |sum, &byte| sum.wrapping_sub(byte));
        record.push(sum);
        let digits: String = record.iter().map(|byte| format!("{byte:02x}")).collect();
        format!(":{digits}\n")
    };
    bytes.chunks(16).enumerate().map(record).collect()
}

/// `WRITE_EXAMPLES=1` writes the stored files anew.
#[test]
fn the_stored_images_are_what_their_sources_become() {
    let key = records(KEY, &assembled(&source("key.s"), KEY));
    for name in ["build31", "build32", "leak"] {
        let code = records(0, &assembled(&source(&format!("{name}.s")), 0));
        let made = format!("{code}{key}:00000001ff\n");
        let path = repository().join(format!("examples/board/{name}.hex"));
        if std::env::var_os("WRITE_EXAMPLES").is_some() {
            fs::write(&path, &made).expect("the image is written");
        }
        assert_eq!(fs::read_to_string(path).unwrap_or_default(), made, "{name}");
    }
}

/// A line more in the source gives a label's address.
#[test]
fn the_stored_symbols_are_the_labels() {
    for line in source("symbols").lines().filter(|line| !line.starts_with('#')) {
        let (address, name) = line.split_once('\t').expect("address and name");
        for build in ["build31.s", "build32.s"] {
            let bytes = assembled(&format!("{}\tword\t{name}\n", source(build)), 0);
            let word: [u8; 4] = bytes[bytes.len() - 4..].try_into().unwrap();
            assert_eq!(format!("{:#06x}", u32::from_be_bytes(word)), address, "{name}");
        }
    }
}

const RUN: &str = "--symbols examples/board/symbols --lines examples/board/lines \
                   --mark key=0xff40:64 --budget 400";

#[test]
fn build_31_is_told_by_step_address_and_instruction() {
    let answer = call(&format!("examples/board/build31.hex {RUN} --keep key --expect 10"));
    assert_eq!((answer.status, answer.error.as_str()), (Some(1), ""));
    assert_eq!(answer.line("reply"), "reply    10: budget used up");
    let first = "step 131, 00000054 recipe+0x10: str r5 12 r0, address 0000ff7c";
    assert_eq!(answer.line("FAILED"), format!("FAILED   --keep key: {first}"));
    assert_eq!(answer.line("holds"), "holds    --expect 10");
    assert!(answer.has(&format!("contents stored to, first in {first}\n")));
    assert!(answer.has(&format!("marks 16 of 64 left; lost first in {first}\n")));
    // The twenty steps before it and its own, which is the last of them.
    assert!(answer.has("the 20 steps up to the first check that failed\n"));
    assert!(answer.out.lines().last().is_some_and(|line| line.starts_with("  131 ")));
}

#[test]
fn build_32_passes() {
    let asked = "--keep key --expect 10 --floor 0xff80 --reach stay --never buserror";
    let answer = call(&format!("examples/board/build32.hex {RUN} {asked}"));
    assert_eq!((answer.status, answer.error.as_str()), (Some(0), ""));
    assert!(answer.has("contents kept: no store came there\n"));
    assert!(answer.has("marks all 64 kept\n"));
    assert_eq!(answer.out.matches("\nholds ").count(), 5);
    assert!(!answer.has("FAILED"));
}

#[test]
fn the_leak_is_told_back_to_the_key() {
    let answer = call(
        &format!("examples/board/leak.hex {RUN} --expect 10")
            .replace("--symbols examples/board/symbols", ""),
    );
    assert_eq!(answer.status, Some(1));
    assert_eq!(answer.line("reply"), "reply    14: a marked operand where none may be");
    assert_eq!(answer.line("FAILED"), "FAILED   --expect 10: it is 14");
    let why = answer.out.split("why it ended: ").nth(1).expect("a reason");
    let lines: Vec<&str> = why.lines().skip(1).take(4).map(str::trim).collect();
    assert!(lines[0].ends_with(": sjt 54"), "{why}");
    assert!(
        lines[1].starts_with("tf, last written in step ") && lines[1].ends_with(": cmpeqi r8 0")
    );
    assert!(
        lines[2].starts_with("from r8, last written in step ")
            && lines[2].ends_with(": xor r8 r10")
    );
    assert!(lines[3].ends_with(": ldr r10 0 r7, address 0000ff40 of key"), "{why}");
}

/// Each line of a picture, its points by x and y.
fn polylines(svg: &str) -> Vec<Vec<(i32, i32)>> {
    let points = |text: &str| {
        let numbers = text.split_whitespace().filter_map(|pair| pair.split_once(','));
        numbers.map(|(x, y)| (x.parse().unwrap(), y.parse().unwrap())).collect()
    };
    let lines = svg.split("<polyline").skip(1).filter_map(|line| line.split("points=\"").nth(1));
    lines.map(|text| points(text.split('"').next().unwrap_or_default())).collect()
}

/// The picture of a build: how far down the stack line goes, and the band's upper edge.
fn picture(build: &str) -> (i32, i32) {
    let folder = crate::rig::Folder::new();
    let plot = folder.path("plot.svg");
    call(&format!("examples/board/{build}.hex {RUN} --plot {}", plot.display()));
    let svg = fs::read_to_string(plot).expect("a picture");
    assert!(svg.contains(">\nkey\n<") && svg.contains(">\nentry\n<"), "{svg}");
    assert!(svg.contains("r0, the stack pointer") && svg.contains("reply 10 after 400 steps"));
    let longest = polylines(&svg).into_iter().max_by_key(Vec::len).expect("a line");
    let lowest = longest.iter().map(|point| point.1).max().unwrap();
    let mut shapes = svg.split("<rect").filter_map(|shape| shape.split('>').next());
    let band = shapes.find(|shape| shape.contains("opacity=\"0.2\"")).expect("a band");
    let edge = band.split(" y=\"").nth(1).and_then(|text| text.split('"').next()).unwrap();
    (lowest, edge.parse().unwrap())
}

#[test]
fn the_picture_shows_the_fault() {
    // Pictures have y downwards.
    let (stack, band) = picture("build31");
    assert!(stack > band + 20, "{stack} {band}");
    let (stack, band) = picture("build32");
    assert_eq!(stack, band);
}
