//! The forms of an image: the same firmware as raw bytes, Intel HEX and ELF.

use crate::rig::{code, Folder};

/// movi r1,16; add r1,r1; and a jump to itself, which is at 4.
fn firmware() -> Vec<u8> {
    code(" movi r1 16/ add r1 r1/stay sj stay")
}

/// A segment: where its bytes go, where it lies when it runs, its bytes and its length in memory.
pub struct Segment<'a> {
    pub physical: u32,
    pub virtual_: u32,
    pub bytes: &'a [u8],
    pub memory: u32,
}

/// A big-endian ELF of 32 bits with these segments and one symbol, `stay` at 4.
pub fn elf(segments: &[Segment]) -> Vec<u8> {
    const HEADER: usize = 52;
    let tables = HEADER + 32 * segments.len();
    let mut data = Vec::new();
    let mut headers = Vec::new();
    for segment in segments {
        let offset = (tables + data.len()) as u32;
        let length = segment.bytes.len() as u32;
        let fields = [1, offset, segment.virtual_, segment.physical, length, segment.memory, 7, 4];
        headers.extend(fields.iter().flat_map(|field: &u32| field.to_be_bytes()));
        data.extend_from_slice(segment.bytes);
    }
    let symbols = tables + data.len();
    data.extend([0; 16]);
    data.extend([0, 0, 0, 1, 0, 0, 0, 4, 0, 0, 0, 0, 0, 0, 0, 1]);
    let strings = tables + data.len();
    data.extend(b"\0stay\0\0\0");
    let sections = tables + data.len();
    let section = |kind: u32, offset: usize, size: u32, link: u32, entry: u32| {
        [0, kind, 0, 0, offset as u32, size, link, 1, 0, entry].map(u32::to_be_bytes).concat()
    };
    data.extend([0; 40]);
    data.extend(section(2, symbols, 32, 2, 16));
    data.extend(section(3, strings, 6, 0, 0));
    let mut file = b"\x7fELF\x01\x02\x01\0\0\0\0\0\0\0\0\0".to_vec();
    file.extend([0, 2, 0, 171, 0, 0, 0, 1, 0, 0, 0, 0]);
    file.extend([HEADER as u32, sections as u32, 0].map(u32::to_be_bytes).concat());
    file.extend(
        [HEADER as u16, 32, segments.len() as u16, 40, 3, 2].map(u16::to_be_bytes).concat(),
    );
    file.extend(headers);
    file.extend(data);
    file
}

fn whole(bytes: &[u8]) -> Segment<'_> {
    Segment { physical: 0, virtual_: 0, bytes, memory: bytes.len() as u32 }
}

#[test]
fn raw_hex_and_elf_are_told_by_content() {
    let folder = Folder::new();
    folder.write("raw", firmware());
    folder.write("hex", ":0600000071102111f40053\n:00000001ff\n");
    folder.write("elf", elf(&[whole(&firmware())]));
    let answers =
        ["raw", "hex", "elf"].map(|name| folder.call(&format!("{name} --budget 3 --expect 10")));
    for answer in &answers {
        assert_eq!((answer.status, answer.error.as_str()), (Some(0), ""), "{answer:?}");
        assert!(answer.line("r1").starts_with("r1       00000020"));
    }
    assert_eq!(answers[0].line("pc"), "pc       00000004: sj 4");
    // An ELF brings its names.
    assert_eq!(answers[2].line("pc"), "pc       00000004 stay: sj 4");
    assert_eq!(folder.call("elf --budget 3 --reach stay --never 0x6").status, Some(0));
}

#[test]
fn raw_bytes_go_where_they_are_told() {
    let folder = Folder::new();
    folder.write("code", code(" j 0x200"));
    folder.write("later", firmware());
    let answer = folder.call("later --at 0x200 --size 1024 --budget 2");
    // Zeros before it are no instruction.
    assert_eq!(answer.line("reply"), "reply    13: bits that are no instruction");
    folder.write("state", "pc\t0x200\n");
    let answer = folder.call("later --at 512 --size 0x400 --state state --budget 3");
    assert_eq!(answer.line("pc"), "pc       00000204: sj 516");
}

#[test]
fn elf_segments_go_to_their_physical_addresses() {
    let folder = Folder::new();
    let data = Segment { physical: 0x40, virtual_: 0x80, bytes: &[1, 2, 3, 4], memory: 16 };
    folder.write("elf", elf(&[whole(&firmware()), data]));
    assert_eq!(folder.call("elf --size 256 --budget 3 --save-memory memory").status, Some(0));
    let memory = std::fs::read(folder.path("memory")).unwrap();
    assert_eq!(
        (memory.len(), &memory[..6], &memory[0x40..0x44]),
        (256, &firmware()[..], &[1, 2, 3, 4][..])
    );
}

#[test]
fn code_that_begins_with_a_colon_is_raw() {
    let folder = Folder::new();
    // 0x3a is `addif`.
    folder.write("raw", code(" addif r1 1/stay sj stay"));
    let answer = folder.call("raw --size 16 --budget 2");
    assert_eq!(answer.line("pc"), "pc       00000002: sj 2");
}
