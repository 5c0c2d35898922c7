//! Listings through the static library: lines, buffers of every length, and each refusal.

use std::error::Error;

use manik::{list, ListError, LISTING_ROOM};

/// add r1,r2; a jl, +4 bytes; addi r0,-8; bits that are no instruction; and a byte that no range
/// takes in.
const IMAGE: [u8; 11] = [0x21, 0x12, 0xf8, 0x00, 0x00, 0x02, 0x6f, 0x08, 0xfc, 0x00, 0x71];

/// Its listing, by hand.
const LISTING: &str = "00000000\t2112\tadd\tr1\tr2\n\
                       00000002\tf8000002\tjl\t6\n\
                       00000006\t6f08\taddi\tr0\t-8\n\
                       00000008\tfc00\thalf\t0xfc00\n";

/// What a lent buffer is full of. No byte of a listing is this one.
const FILLER: u8 = 0xa5;

/// Lists into a buffer of this length; what was written, if nothing behind it changed.
fn listed(image: &[u8], start: usize, end: usize, room: usize) -> Result<String, ListError> {
    let mut out = vec![FILLER; room];
    let answer = list(image, start, end, &mut out);
    let behind = out.split_off(answer.unwrap_or(0));
    assert!(behind.iter().all(|&byte| byte == FILLER), "{answer:?}: {behind:x?}");
    answer.map(|_| String::from_utf8(out).expect("a listing is plain ASCII"))
}

/// As `listed`, with room for any listing.
fn listed_with_room(image: &[u8], start: usize, end: usize) -> Result<String, ListError> {
    listed(image, start, end, image.len() * LISTING_ROOM)
}

#[test]
fn a_whole_listing() {
    assert_eq!(listed_with_room(&IMAGE, 0, 10).as_deref(), Ok(LISTING));
}

#[test]
fn every_form_of_an_operand() {
    let lines = [
        ([0x40, 0x11], "4011\tldrpc\tr1\t4"),
        ([0xb3, 0xa4], "b3a4\tstrh\tr10\t6\tr4"),
        ([0x12, 0x1a], "121a\tmfsfr\tr1\tsfr10"),
        ([0x13, 0x03], "1303\tmtsfr\tsfr0\tr3"),
        ([0x10, 0x0f], "100f\tswint\t15"),
        ([0xf6, 0x00], "f600\tsj\t-1024"),
    ];
    for (image, fields) in lines {
        assert_eq!(listed_with_room(&image, 0, 2), Ok(format!("00000000\t{fields}\n")));
    }
}

#[test]
fn a_part_of_an_image() {
    let lines: Vec<&str> = LISTING.split_inclusive('\n').collect();
    assert_eq!(listed_with_room(&IMAGE, 2, 8), Ok(lines[1..3].concat()));
    // In the middle of the jl stands what is none by itself.
    let middle = "00000004\t0002\thalf\t0x0002\n".to_string() + lines[2];
    assert_eq!(listed_with_room(&IMAGE, 4, 8), Ok(middle));
}

#[test]
fn an_instruction_that_the_end_cuts() {
    let cut = "00000002\tf800\thalf\t0xf800\n";
    assert_eq!(listed_with_room(&IMAGE, 2, 4).as_deref(), Ok(cut));
    assert_eq!(listed_with_room(&IMAGE[..4], 2, 4).as_deref(), Ok(cut));
}

/// Two passes are made in a buffer that is too short for any listing.
#[test]
fn the_buffer_may_be_as_long_as_the_listing() {
    for room in [LISTING.len(), LISTING.len() + 1, 10 * LISTING_ROOM - 1, 10 * LISTING_ROOM] {
        assert_eq!(listed(&IMAGE, 0, 10, room).as_deref(), Ok(LISTING), "{room} bytes");
    }
}

#[test]
fn refusal_21_room() {
    for room in [0, 1, LISTING.len() / 2, LISTING.len() - 1] {
        assert_eq!(listed(&IMAGE, 0, 10, room), Err(ListError::Room), "{room} bytes");
    }
}

#[test]
fn refusal_20_range() {
    let ranges = [
        (1, 10),
        (0, 9),
        (1, 9),
        (4, 2),
        (0, 12),
        (12, 12),
        (0, usize::MAX),
        (0, usize::MAX - 1),
        (usize::MAX - 1, usize::MAX - 1),
        (usize::MAX - 1, 0),
        (0, (1 << 32) + 10),
    ];
    for (start, end) in ranges {
        for room in [0, LISTING.len(), 1_000] {
            let answer = listed(&IMAGE, start, end, room);
            assert_eq!(answer, Err(ListError::Range), "{start} to {end}, {room} bytes");
        }
    }
}

#[test]
fn refusal_20_size() {
    for length in [65_537, 65_538, 131_072] {
        let image = vec![0; length];
        assert_eq!(listed(&image, 0, 2, 1_000), Err(ListError::Range), "{length} bytes");
        assert_eq!(listed(&image, 0, 0, 0), Err(ListError::Range), "{length} bytes");
    }
}

#[test]
fn the_longest_image() {
    let image = IMAGE[6..8].repeat(32_768);
    let text = listed_with_room(&image, 0, 65_536).expect("it can be listed");
    assert_eq!(text.lines().count(), 32_768);
    assert!(text.ends_with("\n0000fffe\t6f08\taddi\tr0\t-8\n"));
    assert_eq!(listed(&image, 0, 65_536, text.len()).as_ref(), Ok(&text));
    assert_eq!(listed(&image, 0, 65_536, text.len() - 1), Err(ListError::Room));
}

#[test]
fn an_empty_range_has_an_empty_listing() {
    for start in [0, 4, 10] {
        assert_eq!(listed(&IMAGE, start, start, 0).as_deref(), Ok(""), "{start}");
        assert_eq!(listed(&IMAGE, start, start, 9).as_deref(), Ok(""), "{start}");
    }
    assert_eq!(listed(&[], 0, 0, 0).as_deref(), Ok(""));
}

#[test]
fn an_error_says_why() {
    assert_eq!((ListError::Range.number(), ListError::Room.number()), (20, 21));
    let unknown = ListError::UnknownReply { number: 7, written: 3 };
    assert_eq!(unknown.number(), 7);
    let error: Box<dyn Error> = Box::new(unknown);
    assert_eq!(error.to_string(), "unknown reply 7 with a length of 3");
    assert_eq!(ListError::Room.to_string(), "refusal 21: the listing is longer than the buffer");
}

/// The words of `include/manik.h`, behind each number, and its room.
#[test]
fn the_header_says_the_same() {
    let header = include_str!("../../../include/manik.h");
    let header = header.split_whitespace().collect::<Vec<_>>().join(" ");
    for error in [ListError::Range, ListError::Room] {
        let (number, text) = (error.number(), error.to_string());
        let (_, fact) = text.split_once(": ").expect("a number and a fact");
        let line = [format!(" = {number}, /* {fact} */"), format!(" = {number} /* {fact} */")];
        assert!(line.iter().any(|line| header.contains(line)), "{text}");
    }
    let room = format!("#define MANIK_LISTING_ROOM(bytes) ({LISTING_ROOM} * (bytes)) ");
    assert!(header.contains(&room));
}
