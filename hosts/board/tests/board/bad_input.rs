//! What cannot be taken: one clear line, status 2, and nothing is written.

use crate::forms::{elf, Segment};
use crate::rig::{code, Folder};

/// A folder with a good image of six bytes.
fn folder() -> Folder {
    let folder = Folder::new();
    folder.write("good", code(" movi r1 16/ add r1 r1/stay sj stay"));
    folder
}

/// The one line that is said of a call; the call also asks for every kind of file, and gets none.
fn said(folder: &Folder, words: &str) -> String {
    let before = folder.names();
    let answer =
        folder.call(&format!("{words} --json j --trace t --plot p --save-state s --save-memory m"));
    assert_eq!((answer.status, answer.out.as_str()), (Some(2), ""), "{words}: {answer:?}");
    assert_eq!(folder.names(), before, "{words}");
    let line = answer.error.strip_prefix("manik-board: ").expect("the program's name");
    assert!(line.ends_with('\n') && line.matches('\n').count() == 1, "{words}: {line}");
    line.trim_end().to_string()
}

fn expect(folder: &Folder, cases: &[(&str, &str)]) {
    for (words, why) in cases {
        assert_eq!(said(folder, words), *why, "{words}");
    }
}

#[test]
fn images() {
    let folder = folder();
    folder.write("empty", "");
    folder.write("long", [0; 65_537]);
    expect(
        &folder,
        &[
            ("missing", "missing: No such file or directory (os error 2)"),
            (".", ".: Is a directory (os error 21)"),
            ("empty", "empty: it is empty"),
            ("long", "long: 65537 bytes from 0x0 on don't fit a memory of 65536 bytes"),
            ("good --size 4", "good: 6 bytes from 0x0 on don't fit a memory of 4 bytes"),
            ("good --at 0xfffc", "good: 6 bytes from 0xfffc on don't fit a memory of 65536 bytes"),
            ("good --size 6", "--size 6: memory length is 0, above 65,536, or no multiple of 4"),
            (
                "good --size 65540",
                "--size 65540: memory length is 0, above 65,536, or no multiple of 4",
            ),
        ],
    );
    assert!(said(&folder, "/dev/zero").starts_with("/dev/zero: it has more than "));
}

#[test]
fn hex() {
    let folder = folder();
    folder.write("cut", ":0600000071102111\n");
    folder.write("end", ":0600000071102111f40053\n");
    folder.write("sum", ":0600000071102111f40052\n:00000001ff\n");
    folder.write("twice", ":0100000000ff\n:0100000000ff\n:00000001ff\n");
    folder.write("far", ":020000040001f9\n:0100000000ff\n:00000001ff\n");
    expect(
        &folder,
        &[
            ("cut", "cut: line 1: truncated: 3 data bytes where 6 are told"),
            ("end", "end: truncated: there is no end record"),
            ("sum", "sum: line 1: checksum 52 where the bytes give 53"),
            ("twice", "twice: line 2: overlapping: the byte at 0x0 is there already"),
            ("far", "far: line 2: 1 bytes from 0x10000 on don't fit a memory of 65536 bytes"),
            (
                "end --at 4",
                "end: it is Intel HEX, which has its own addresses: --at is for raw bytes",
            ),
        ],
    );
}

/// Eight bytes at an address, and so much room in memory.
fn at(address: u32, memory: u32) -> Segment<'static> {
    Segment { physical: address, virtual_: address, bytes: &[0; 8], memory }
}

#[test]
fn elf_of_another_kind() {
    let folder = folder();
    let changed = |place: usize, byte: u8| {
        let mut bytes = elf(&[at(0, 8)]);
        bytes[place] = byte;
        bytes
    };
    folder.write("little", changed(5, 1));
    folder.write("wide", changed(4, 2));
    folder.write("object", changed(17, 1));
    folder.write("nothing", elf(&[]));
    expect(
        &folder,
        &[
            ("little", "little: little-endian ELF, where big-endian is needed"),
            ("wide", "wide: ELF of 64 bits, where 32 are needed"),
            ("object", "object: ELF that is not linked to fixed addresses"),
            ("nothing", "nothing: ELF without a segment to load"),
        ],
    );
}

#[test]
fn elf_that_does_not_fit() {
    let folder = folder();
    folder.write("twice", elf(&[at(0, 8), at(4, 8)]));
    folder.write("outside", elf(&[at(0xfffc, 8)]));
    folder.write("grown", elf(&[at(0xfff0, 32)]));
    let length = "bytes from 0xfff0 on don't fit a memory of 65536 bytes";
    expect(
        &folder,
        &[
            ("twice", "twice: segment 1: overlapping: the byte at 0x4 is there already"),
            ("outside", &format!("outside: segment 0: 8 {}", length.replace("fff0", "fffc"))),
            ("grown", &format!("grown: segment 0: 32 {length}")),
        ],
    );
}

#[test]
fn elf_that_is_cut() {
    let folder = folder();
    let good = elf(&[at(0, 8)]);
    for (name, length) in [("header", 40), ("segments", 60), ("symbols", 100)] {
        folder.write(name, &good[..length]);
        let line = said(&folder, name);
        assert!(line.starts_with(&format!("{name}: truncated or damaged ELF: ")), "{line}");
    }
    folder.write("data", &good[..88]);
    let why = "data: segment 0: truncated: the file ends before it does";
    expect(&folder, &[("data", why)]);
}

#[test]
fn tapes() {
    let folder = folder();
    folder.write("short", [0; 9]);
    folder.write("high", [0, 63, 64]);
    folder.write("lines", "1\t2\t0\n3\t4\n");
    folder.write("zero", "0\t2\t0\n");
    folder.write("six", "1\t2\t6\n");
    expect(
        &folder,
        &[
            ("good --tape missing", "missing: No such file or directory (os error 2)"),
            ("good --tape .", ".: a tape is a plain file"),
            ("good --tape short --budget 10", "short: 9 bytes, shorter than the budget of 10"),
            ("good --tape high", "high: step 3: byte 64 is above 63"),
            (
                "good --lines lines",
                "lines: line 2: no three fields: from step, to step and line, parted by tabs",
            ),
            (
                "good --lines zero",
                "zero: line 1: steps count from 1 on, and the first is not above the last",
            ),
            ("good --lines six", "six: line 1: lines are 0 to 5"),
        ],
    );
    // Bytes behind the budget are not looked at.
    assert_eq!(folder.call("good --tape high --budget 2").status, Some(0));
}

#[test]
fn states_and_symbols() {
    let folder = folder();
    folder.write("odd", "pc\t1\n");
    folder.write("state", "pc\t0\nr16\t1\n");
    folder.write("marks", "mark\t0xfff0\t17\n");
    folder.write("symbols", "0x4 stay\n");
    let form =
        "odd: state out of form: odd program counter; PSW bit 12 set; HWDBG bits 0, 1 not both \
                set or a bit of 9 to 31 set; timer pending with TIMER not 0";
    expect(
        &folder,
        &[
            ("good --state odd", form),
            ("good --state state", "state: line 2: the state has no r16"),
            (
                "good --state marks",
                "marks: line 1: 17 bytes from 0xfff0 on are not in memory of 65536 bytes",
            ),
            ("good --symbols symbols", "symbols: line 1: no address, tab and name"),
            ("good --reach stay", "--reach: stay is no address, and no symbol has this name"),
            (
                "good --mark k=0xfff0:17",
                "--mark: 17 bytes from 0xfff0 on are no part of 65536 bytes of memory",
            ),
            (
                "good --mark 0x100:1 --size 256",
                "--mark: 1 bytes from 0x100 on are no part of 256 bytes of memory",
            ),
            ("good --keep key", "--keep: no --mark names key"),
        ],
    );
}

#[test]
fn calls() {
    let folder = folder();
    for words in [
        "",
        "good more",
        "good --what",
        "good --budget",
        "good --budget 1k",
        "good --budget 18446744073709551616",
    ] {
        said(&folder, words);
    }
    let help = folder.call("--help");
    assert_eq!((help.status, help.error.as_str()), (Some(0), ""));
    assert!(help.out.starts_with("usage: tools/manik-board IMAGE [OPTIONS]\n"));
}
