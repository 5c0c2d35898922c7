//! Texts through the static library's assembler: lines, images, and each refusal.

use std::error::Error;

use manik::{assemble, list, AssembleError, AssembleRefusal, Assembled, LISTING_ROOM};

/// Each kind of line: a label and none, a label that comes later, a long jump, both kinds of data.
const TEXT: &str = "\tldrpc\tr1\tkey\n\
                    loop\tadd\tr1\tr2\n\
                    \tjl\tloop+4*(2-1)\n\
                    \thalf\t0xfc00\n\
                    \tjr\tr1\n\
                    key\tword\t-key\n";

/// Its bytes from address 4 on, by hand.
const CODE: [u8; 16] = [
    0x40, 0x13, 0x21, 0x12, 0xf8, 0x00, 0x00, 0x01, 0xfc, 0x00, 0x1c, 0x01, 0xff, 0xff, 0xff, 0xf0,
];

/// What a lent image is full of.
const FILLER: u8 = 0xa5;

/// Assembles into an image of this length; the assembled bytes, if no other changed.
fn assembled(text: &str, start: usize, length: usize) -> Result<Vec<u8>, AssembleError> {
    let mut image = vec![FILLER; length];
    let answer = assemble(text.as_bytes(), start, &mut image);
    let range = match answer {
        Ok(Assembled { lines, end }) => {
            assert_eq!(lines, text.matches('\n').count());
            start..end
        }
        Err(_) => 0..0,
    };
    let bytes = image.splice(range, []).collect();
    assert!(image.iter().all(|&byte| byte == FILLER), "{answer:?}: {image:x?}");
    answer.map(|_| bytes)
}

/// The text is refused in this line with this number, in a roomy image and from another start too.
fn refuses(text: &str, line: usize, number: u32) {
    let refusal = AssembleRefusal::from_number(number).expect("a refusal");
    for start in [0, 40] {
        let answer = assembled(text, start, 4_096);
        assert_eq!(answer, Err(AssembleError::Refused { line, refusal }), "{text:?} at {start}");
    }
}

#[test]
fn a_whole_text() {
    for length in [20, 21, 22, 1_000] {
        assert_eq!(assembled(TEXT, 4, length).as_deref(), Ok(&CODE[..]), "{length} bytes");
    }
}

#[test]
fn every_form_of_an_operand() {
    let lines = [
        ("ldrpc\tr1\t4", [0x40, 0x11]),
        ("strh\tr10\t2*3\tr4", [0xb3, 0xa4]),
        ("mfsfr\tr1\tsfr10", [0x12, 0x1a]),
        ("mtsfr\tsfr0\tr3", [0x13, 0x03]),
        ("swint\t0xf", [0x10, 0x0f]),
        ("sj\t-1024", [0xf6, 0x00]),
        ("addi\tr0\t-(2+6)", [0x6f, 0x08]),
    ];
    for (line, bytes) in lines {
        assert_eq!(assembled(&format!("\t{line}\n"), 0, 2).as_deref(), Ok(&bytes[..]), "{line}");
    }
}

/// Mnemonic and operands of a listing become the listed bytes.
#[test]
fn a_listing_assembles_back() {
    let mut image = vec![0x21, 0x12, 0xf8, 0x00, 0x00, 0x02, 0x6f, 0x08, 0xfc, 0x00, 0x40, 0x11];
    let mut out = vec![0; image.len() * LISTING_ROOM];
    let length = list(&image, 2, 12, &mut out).expect("it can be listed");
    let listing = String::from_utf8(out[..length].to_vec()).expect("plain text");
    let fields = listing.lines().map(|line| line.splitn(3, '\t').nth(2).expect("three fields"));
    let text: String = fields.map(|fields| format!("\t{fields}\n")).collect();
    assert_eq!(assembled(&text, 2, 12), Ok(image.split_off(2)));
}

#[test]
fn no_line_is_no_byte() {
    for (start, length) in [(0, 0), (0, 5), (4, 4), (4, 5)] {
        assert_eq!(assembled("", start, length).as_deref(), Ok(&[][..]), "{start} of {length}");
    }
}

#[test]
fn refusal_29_start() {
    let expected = AssembleError::Refused { line: 0, refusal: AssembleRefusal::Start };
    for start in [1, 15, 18, 20, usize::MAX, usize::MAX - 1, 1 << 32] {
        for text in [TEXT, "", "nothing that is known\n"] {
            assert_eq!(assembled(text, start, 16), Err(expected), "{start}");
        }
    }
}

#[test]
fn refusal_30_unknown_form() {
    let lines = [
        "",
        "add\tr1\tr2",
        "\tadd\tr1",
        "\tadd\tr1\tr2\t",
        "\tadd\tr1\tr16",
        "\tadd\tr1\t2",
        "\tnop",
        "\tADD\tr1\tr2",
        "\tadd r1\tr2",
        "1\tjr\tr1",
        "La\tjr\tr1",
        "abcdefghijklm\tjr\tr1",
        "\tjsfr\tsfr4",
        "\tmovi\tr1\t",
        "\tmovi\tr1\t01",
        "\tmovi\tr1\t0xA",
        "\tmovi\tr1\t(1",
        "\tmovi\tr1\t--1",
        "\tmovi\tr1\t1+",
        "\tjr\tr1\r",
    ];
    for line in lines {
        refuses(&format!("{line}\n"), 1, 30);
        refuses(&format!("{TEXT}{line}\n{TEXT}"), 7, 30);
    }
    refuses("\tjr\tr1", 1, 30);
    refuses(&format!("{TEXT}\tjr\tr1"), 7, 30);
}

#[test]
fn refusal_31_ninth_parenthesis() {
    let open = |count| format!("\tmovi\tr1\t{}1{}\n", "(".repeat(count), ")".repeat(count));
    assert_eq!(assembled(&open(8), 0, 2).as_deref(), Ok(&[0x70, 0x11][..]));
    refuses(&open(9), 1, 31);
    refuses(&(open(8) + &open(100)), 2, 31);
}

#[test]
fn refusals_of_labels() {
    refuses("\tsj\there\n", 1, 32);
    refuses("here\tsj\there\nhere\tjr\tr1\n", 2, 33);
    let many = |count| (0..count).map(|n| format!("l{n}\tjr\tr1\n")).collect::<String>();
    assert!(assembled(&many(256), 0, 512).is_ok());
    refuses(&many(257), 257, 34);
    // The first writing counts, and one after the 256th is unknown.
    refuses(&("\tword\tl256\n".to_string() + &many(257)), 1, 32);
}

#[test]
fn refusal_35_value() {
    let lines = [
        "movi\tr1\t512",
        "half\t65536",
        "half\t-1",
        "word\t2147483648",
        "word\t0x7fffffff+1-1",
        "word\t65536*65536*0",
        "ldr\tr1\t2\tr2",
        "ldr\tr1\t64\tr2",
        "ldr\tr1\t-4\tr2",
        "sj\t1",
        "sj\t2048",
        "ldrpc\tr1\t-4",
        "addi\tr1\t-513",
    ];
    for line in lines {
        refuses(&format!("\t{line}\n"), 1, 35);
    }
}

#[test]
fn refusal_36_room() {
    let refused = |line| Err(AssembleError::Refused { line, refusal: AssembleRefusal::Room });
    for (length, line) in
        [(4, 1), (5, 1), (6, 2), (8, 3), (11, 3), (12, 4), (14, 5), (16, 6), (19, 6)]
    {
        assert_eq!(assembled(TEXT, 4, length), refused(line), "{length} bytes");
    }
}

/// The first line counts, and within it the lowest number.
#[test]
fn the_first_refusal_is_given() {
    refuses("\tword\tnone\n\tjr\n", 1, 32);
    refuses("\tjr\n\tword\tnone\n", 1, 30);
    refuses("a\tjr\tr0\na\tword\tnone+((((((((()))))))))\n", 2, 30);
    refuses("a\tjr\tr0\na\tword\tnone+(((((((((1)))))))))\n", 2, 31);
    refuses("a\tjr\tr0\na\tword\tnone\n", 2, 32);
    refuses("a\tjr\tr0\na\thalf\t-1\n", 2, 33);
    refuses("a\tjr\tr0\nb\thalf\t-1\n", 2, 35);
}

#[test]
fn a_refusal_has_its_number() {
    for number in (0..64).chain([u32::MAX]) {
        let known = matches!(number, 29..=36);
        let refusal = AssembleRefusal::from_number(number);
        assert_eq!(refusal.map(AssembleRefusal::number), known.then_some(number));
    }
}

#[test]
fn an_error_says_why() {
    let refused = AssembleError::Refused { line: 3, refusal: AssembleRefusal::UnknownLabel };
    assert_eq!(refused.number(), 32);
    assert_eq!(refused.to_string(), "line 3: refusal 32: unknown label");
    let unknown = AssembleError::UnknownReply { number: 7, line: 3, end: 2 };
    assert_eq!(unknown.number(), 7);
    let error: Box<dyn Error> = Box::new(unknown);
    assert_eq!(error.to_string(), "unknown reply 7 with line 3 and end 2");
}

/// The words of `include/manik.h`, behind each number.
#[test]
fn the_header_says_the_same() {
    let header = include_str!("../../../include/manik.h");
    let header = header.split_whitespace().collect::<Vec<_>>().join(" ");
    for refusal in (29..=36).filter_map(AssembleRefusal::from_number) {
        let number = refusal.number();
        let line =
            [format!(" = {number}, /* {refusal} */"), format!(" = {number} /* {refusal} */")];
        assert!(line.iter().any(|line| header.contains(line)), "{number}: {refusal}");
    }
}
