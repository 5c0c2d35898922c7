//! The listing against documents 01 and 02: lines typed by hand from their rules, the bytes that
//! the bits give back, refusals, and the lent buffer.

mod generator;

use generator::Generator;
use second::listing::{line_at, list, Refusal};
use second::listing::{LONGEST_IMAGE, LONGEST_LINE, LONGEST_LINE_OF_A_HALF, LONGEST_LISTING};
use second::vectors::listing::for_each_line;

/// What a byte of a lent buffer holds before the call: no listing has it.
const UNTOUCHED: u8 = 0xa5;

/// The listing, in a buffer with room to spare.
fn listing(image: &[u8], start: usize, end: usize) -> String {
    let mut out = vec![UNTOUCHED; (end - start) / 2 * LONGEST_LINE + 100];
    let length = list(image, start, end, &mut out).expect("a good range");
    assert!(
        out[length..].iter().all(|&byte| byte == UNTOUCHED),
        "bytes behind the listing changed"
    );
    String::from_utf8(out[..length].to_vec()).expect("plain text")
}

/// The bytes that hex digits show.
fn bytes(digits: &str) -> Vec<u8> {
    let pairs = digits.as_bytes().as_chunks().0.iter();
    let byte = |&[high, low]: &[u8; 2]| (digit(high) << 4) | digit(low);
    assert!(digits.len().is_multiple_of(2), "{digits:?}");
    pairs.map(byte).collect()
}

fn digit(digit: u8) -> u8 {
    match digit {
        b'0'..=b'9' => digit - b'0',
        b'a'..=b'f' => digit - b'a' + 10,
        _ => panic!("{:?} is no lower-case hex digit", digit as char),
    }
}

/// The bytes of a listing's bits columns, one after the other.
fn listed_bytes(listing: &str) -> Vec<u8> {
    listing.lines().flat_map(|line| bytes(line.split('\t').nth(1).expect("the bits"))).collect()
}

/// What stands behind the bits in the line of a half, or of two, at an address of the longest
/// image.
fn fields_at(at: usize, digits: &str) -> String {
    let bits = bytes(digits);
    let mut image = vec![0; LONGEST_IMAGE];
    image[at..at + bits.len()].copy_from_slice(&bits);
    let (line, next) = line_at(&image, at, LONGEST_IMAGE);
    assert_eq!(next, at + bits.len(), "the line of {digits} has all of it");
    let front = format!("{at:08x}\t{digits}\t");
    let fields = line.as_str().strip_prefix(&front).expect("the address and the bits");
    fields.strip_suffix('\n').expect("a newline").replace('\t', " ")
}

/// Every mnemonic, with operands at the ends of their ranges here and there.
const EVERY_MNEMONIC: &str = "\
00000000\t0c5f\tlsli\tr5\t15
00000002\t0da0\tlsri\tr10\t0
00000004\t0ef1\tasri\tr15\t1
00000006\t0f0a\tmulti\tr0\t10
00000008\t100f\tswint\t15
0000000a\t12fa\tmfsfr\tr15\tsfr10
0000000c\t1309\tmtsfr\tsfr0\tr9
0000000e\t1c0e\tjr\tr14
00000010\t1d00\tjrl\tr0
00000012\t1e03\tjsfr\tsfr3
00000014\t2012\tsub\tr1\tr2
00000016\t21f0\tadd\tr15\tr0
00000018\t2299\tsubc\tr9\tr9
0000001a\t23a1\taddc\tr10\tr1
0000001c\t241a\tmov\tr1\tr10
0000001e\t2534\tand\tr3\tr4
00000020\t2645\tor\tr4\tr5
00000022\t2756\txor\tr5\tr6
00000024\t2867\tsxb\tr6\tr7
00000026\t2978\txhw\tr7\tr8
00000028\t2a89\tsxh\tr8\tr9
0000002a\t2b9a\tzxh\tr9\tr10
0000002c\t2cab\tlsl\tr10\tr11
0000002e\t2dbc\tlsr\tr11\tr12
00000030\t2ecd\tasr\tr12\tr13
00000032\t2fde\tmult\tr13\tr14
00000034\t3018\tcmpeqi\tr1\t-8
00000036\t3112\tcmpeq\tr1\tr2
00000038\t3223\tcmphs\tr2\tr3
0000003a\t3334\tcmpls\tr3\tr4
0000003c\t3445\tcmplt\tr4\tr5
0000003e\t3556\tcmpgt\tr5\tr6
00000040\t3667\tcmplti\tr6\t7
00000042\t377f\tcmpgti\tr7\t-1
00000044\t3889\tmovf\tr8\tr9
00000046\t399a\tsubf\tr9\tr10
00000048\t3aa8\taddif\tr10\t-8
0000004a\t3bbc\taddf\tr11\tr12
0000004c\t3ccd\tmovt\tr12\tr13
0000004e\t3dde\tsubt\tr13\tr14
00000050\t3ee1\taddit\tr14\t1
00000052\t3fff\taddt\tr15\tr15
00000054\t4011\tldrpc\tr1\t88
00000056\t5f1f\tandi\tr1\t255
00000058\t6820\taddi\tr2\t-128
0000005a\t773f\tmovi\tr3\t127
0000005c\t8f1e\tldr\tr1\t60\tr14
0000005e\t9120\tstr\tr2\t4\tr0
00000060\taf3d\tldrh\tr3\t30\tr13
00000062\tb141\tstrh\tr4\t2\tr1
00000064\tcf5c\tldrb\tr5\t15\tr12
00000066\td062\tstrb\tr6\t0\tr2
00000068\te0000004\tjf\t112
0000006c\te7ff\tsjf\t106
0000006e\tebffffff\tjt\t108
00000072\tedff\tsjt\t1136
00000074\tf3ffffc6\tj\t0
00000078\tf600\tsj\t-904
0000007a\tfa000000\tjl\t-67108742
";

#[test]
fn every_mnemonic_is_listed_with_its_operands() {
    let image = listed_bytes(EVERY_MNEMONIC);
    assert_eq!(EVERY_MNEMONIC.lines().count(), 59);
    assert_eq!(listing(&image, 0, image.len()), EVERY_MNEMONIC);
}

#[test]
fn signed_immediates_have_a_minus_and_unsigned_ones_none() {
    let lines = [
        ("301f", "cmpeqi r1 -1"),
        ("3010", "cmpeqi r1 0"),
        ("3017", "cmpeqi r1 7"),
        ("3618", "cmplti r1 -8"),
        ("3a1f", "addif r1 -1"),
        ("3e18", "addit r1 -8"),
        ("6f0f", "addi r0 -1"),
        ("6f08", "addi r0 -8"),
        ("6800", "addi r0 -128"),
        ("670f", "addi r0 127"),
        ("7f0f", "movi r0 -1"),
        ("780f", "movi r0 -113"),
        ("7110", "movi r1 16"),
        ("580f", "andi r0 143"),
        ("5f0f", "andi r0 255"),
        ("0c1f", "lsli r1 15"),
        ("0f18", "multi r1 8"),
        ("1008", "swint 8"),
    ];
    for (bits, fields) in lines {
        assert_eq!(fields_at(0x20, bits), fields, "{bits}");
    }
}

/// Document 01: "a load or store as register, byte offset, base register".
#[test]
fn offsets_count_bytes() {
    let lines = [
        ("8110", "ldr r1 4 r0"),
        ("8f10", "ldr r1 60 r0"),
        ("9a1f", "str r1 40 r15"),
        ("a110", "ldrh r1 2 r0"),
        ("b3a4", "strh r10 6 r4"),
        ("c110", "ldrb r1 1 r0"),
        ("dff0", "strb r15 15 r0"),
        ("d0ff", "strb r15 0 r15"),
    ];
    for (bits, fields) in lines {
        assert_eq!(fields_at(0x8000, bits), fields, "{bits}");
    }
}

/// Document 01: "0x4011 at 0x102 loads from 0x104".
#[test]
fn ldrpc_has_the_address_after_alignment() {
    let lines = [
        (0x100, "4011", "ldrpc r1 260"),
        (0x102, "4011", "ldrpc r1 260"),
        (0x104, "4011", "ldrpc r1 264"),
        (0, "4000", "ldrpc r0 0"),
        (2, "4000", "ldrpc r0 0"),
        (2, "40f1", "ldrpc r15 4"),
        (4, "4100", "ldrpc r0 68"),
        (6, "4f0f", "ldrpc r0 1024"),
        (65_532, "4f0f", "ldrpc r0 66552"),
        (65_534, "4f0f", "ldrpc r0 66552"),
        (65_534, "4000", "ldrpc r0 65532"),
    ];
    for (at, bits, fields) in lines {
        assert_eq!(fields_at(at, bits), fields, "{bits} at {at}");
    }
}

/// Document 01: displacements count halfwords, the base is the jump's own address, and targets are
/// signed decimals modulo 2^32.
#[test]
fn jumps_have_their_target() {
    let lines = [
        (0, "e402", "sjf 4"),
        (0, "efff", "sjt -2"),
        (2, "efff", "sjt 0"),
        (0, "f600", "sj -1024"),
        (1_022, "f600", "sj -2"),
        (1_024, "f600", "sj 0"),
        (65_534, "f400", "sj 65534"),
        (65_534, "f401", "sj 65536"),
        (65_534, "f5ff", "sj 66556"),
        (0, "f3ffffff", "j -2"),
        (2, "f3ffffff", "j 0"),
        (0, "f8000002", "jl 4"),
        (0, "e0000000", "jf 0"),
        (0, "e2000000", "jf -67108864"),
        (65_532, "e2000000", "jf -67043332"),
        (0, "e9ffffff", "jt 67108862"),
        (65_532, "f9ffffff", "jl 67174394"),
        (0x126, "f3ffff6c", "j -2"),
        (4, "f0010000", "j 131076"),
        (4, "f00000ff", "j 514"),
    ];
    for (at, bits, fields) in lines {
        assert_eq!(fields_at(at, bits), fields, "{bits} at {at}");
    }
}

#[test]
fn special_function_registers_have_their_numbers() {
    let lines = [
        ("1200", "mfsfr r0 sfr0"),
        ("129a", "mfsfr r9 sfr10"),
        ("1300", "mtsfr sfr0 r0"),
        ("139a", "mtsfr sfr9 r10"),
        ("13af", "mtsfr sfr10 r15"),
        ("1e00", "jsfr sfr0"),
        ("1e02", "jsfr sfr2"),
    ];
    for (bits, fields) in lines {
        assert_eq!(fields_at(2, bits), fields, "{bits}");
    }
}

/// The halves that document 01 takes away, and some that the guide doesn't name.
#[test]
fn two_bytes_that_are_no_instruction_are_a_half() {
    let none = [
        "0000", "0801", "0bff", "1010", "10ff", "1100", "120b", "12ff", "13b0", "1400", "1c10",
        "1d1f", "1e04", "1e10", "1f00", "fc00", "ffff",
    ];
    for bits in none {
        assert_eq!(fields_at(0xfffe, bits), format!("half 0x{bits}"), "{bits}");
    }
    let image = bytes("fc00ffff21120000");
    let expected = "00000000\tfc00\thalf\t0xfc00\n00000002\tffff\thalf\t0xffff\n\
                    00000004\t2112\tadd\tr1\tr2\n00000006\t0000\thalf\t0x0000\n";
    assert_eq!(listing(&image, 0, 8), expected);
}

/// "Two bytes that ... begin one cut by the end, give `half`": by the range's end, wherever the
/// image ends.
#[test]
fn an_instruction_of_four_bytes_that_the_end_cuts_is_a_half() {
    let whole = "00000002\tf8000002\tjl\t6\n";
    let cut = "00000002\tf800\thalf\t0xf800\n";
    let image = bytes("2112f800000221120000");
    assert_eq!(listing(&image, 2, 6), whole, "it just fits");
    assert_eq!(listing(&image, 2, 4), cut, "the range ends");
    assert_eq!(listing(&image[..4], 2, 4), cut, "the image ends");
    assert_eq!(listing(&image[..5], 2, 4), cut, "half a half is left of it");
    for first in ["e000", "e3ff", "e800", "ebff", "f000", "f3ff", "f800", "fbff"] {
        let mut image = bytes(first);
        image.extend([0; 6]);
        assert_eq!(listing(&image, 0, 2), format!("00000000\t{first}\thalf\t0x{first}\n"));
    }
}

#[test]
fn the_second_half_of_a_long_jump_has_no_line() {
    let image = bytes("f000f000f000");
    let expected = "00000000\tf000f000\tj\t122880\n00000004\tf000\thalf\t0xf000\n";
    assert_eq!(listing(&image, 0, 6), expected);
    assert_eq!(listing(&image, 0, 4), expected.split_inclusive('\n').next().expect("a line"));
    let from_the_second = "00000002\tf000f000\tj\t122882\n";
    assert_eq!(listing(&image, 2, 6), from_the_second, "the listing begins where it is told");
}

/// The answer to a call with a buffer of this length, which a refusal must leave as it was.
fn answer(image: &[u8], start: usize, end: usize, room: usize) -> Result<usize, Refusal> {
    let mut out = vec![UNTOUCHED; room];
    let answer = list(image, start, end, &mut out);
    let changed = out.iter().position(|&byte| byte == UNTOUCHED).unwrap_or(room);
    assert_eq!(changed, answer.unwrap_or(0), "only the listing changes");
    assert!(out[changed..].iter().all(|&byte| byte == UNTOUCHED), "nothing behind it changes");
    answer
}

#[test]
fn refusals_have_the_numbers_of_document_02() {
    assert_eq!([Refusal::Range, Refusal::Room].map(Refusal::number), [20, 21]);
    let text = Refusal::Range.to_string();
    assert!(text.starts_with("refusal 20: "), "{text}");
    let text = Refusal::Room.to_string();
    assert!(text.starts_with("refusal 21: "), "{text}");
}

/// A range that is odd, reversed or outside, for an image of six bytes.
const BAD_RANGES: [(usize, usize); 19] = [
    (1, 4),
    (1, 1),
    (5, 6),
    (0, 1),
    (0, 5),
    (1, 5),
    (2, 0),
    (6, 4),
    (4, 3),
    (0, 8),
    (6, 8),
    (8, 8),
    (8, 6),
    (0, 1 << 32),
    (1 << 32, 1 << 32),
    (usize::MAX, usize::MAX),
    (usize::MAX - 1, usize::MAX - 1),
    (0, usize::MAX - 1),
    (usize::MAX - 1, 0),
];

#[test]
fn a_bad_range_is_refused_with_20_whatever_the_buffer_is() {
    let image = bytes("211221122112");
    for (start, end) in BAD_RANGES {
        for room in [0, 1, 20, 63, 64, 1000] {
            let answer = answer(&image, start, end, room);
            assert_eq!(answer, Err(Refusal::Range), "{start} to {end}, room {room}");
        }
    }
}

#[test]
fn an_image_over_the_limit_is_refused_with_20() {
    for length in [65_537, 65_538, 70_000, 131_072] {
        let image = vec![0x21; length];
        for (start, end) in [(0, 0), (0, 2), (65_536, 65_536), (0, 65_536)] {
            for room in [0, 2_000_000] {
                let answer = answer(&image, start, end, room);
                assert_eq!(answer, Err(Refusal::Range), "{length} bytes, {start} to {end}");
            }
        }
    }
    let image = vec![0x21; 65_536];
    assert_eq!(answer(&image, 0, 65_536, 0), Err(Refusal::Room), "no byte over");
    assert_eq!(answer(&image, 65_534, 65_536, 100), Ok("00000000\t2121\tadd\tr2\tr1\n".len()));
}

/// "Then 21 the listing is longer than the buffer", whatever the buffer's length is.
#[test]
fn a_buffer_that_is_too_short_is_refused_with_21() {
    let image = listed_bytes(EVERY_MNEMONIC);
    for (start, end) in [(0, image.len()), (0, 2), (0x68, 0x6c), (0x68, 0x6a), (0x7a, 0x7e)] {
        let length = listing(&image, start, end).len();
        for room in 0..length {
            assert_eq!(answer(&image, start, end, room), Err(Refusal::Room), "{room} of {length}");
        }
        for room in length..length + 100 {
            assert_eq!(answer(&image, start, end, room), Ok(length), "{room} for {length}");
        }
    }
}

/// The buffer's length is looked at only where it decides: with the listing that fits it exactly,
/// or one byte short, for ranges of every length.
#[test]
fn an_exact_buffer_has_the_listing_and_one_byte_less_none() {
    let image = listed_bytes(EVERY_MNEMONIC);
    for start in (0..=image.len()).step_by(2) {
        for end in (start..=image.len()).step_by(2) {
            let expected = listing(&image, start, end);
            let mut out = vec![UNTOUCHED; expected.len()];
            assert_eq!(list(&image, start, end, &mut out), Ok(expected.len()));
            assert_eq!(String::from_utf8(out).as_deref(), Ok(&expected[..]));
            if !expected.is_empty() {
                let refused = answer(&image, start, end, expected.len() - 1);
                assert_eq!(refused, Err(Refusal::Room), "{start} to {end}");
            }
        }
    }
}

#[test]
fn an_empty_range_has_no_line() {
    let image = bytes("21122112f800");
    for at in [0, 2, 4, 6] {
        for room in [0, 1, 100] {
            assert_eq!(answer(&image, at, at, room), Ok(0), "{at}, room {room}");
        }
    }
    assert_eq!(answer(&[], 0, 0, 0), Ok(0), "an empty image");
    assert_eq!(answer(&[], 0, 2, 100), Err(Refusal::Range), "an empty image has no half");
}

#[test]
fn an_image_may_have_an_odd_length() {
    let image = bytes("2112f80000");
    let expected = "00000000\t2112\tadd\tr1\tr2\n00000002\tf800\thalf\t0xf800\n";
    assert_eq!(listing(&image, 0, 4), expected);
    for (start, end) in [(0, 5), (0, 6), (4, 6), (4, 5)] {
        assert_eq!(answer(&image, start, end, 100), Err(Refusal::Range), "{start} to {end}");
    }
    assert_eq!(answer(&image, 4, 4, 0), Ok(0));
    assert_eq!(answer(&[0x21], 0, 0, 0), Ok(0));
    assert_eq!(answer(&[0x21], 0, 2, 99), Err(Refusal::Range));
}

/// Lists a whole image and shows that it is made of `line_at`'s lines, that each begins where the
/// one before it ends, that its length is one that can occur, and that the bits give back the bytes.
fn check_whole(image: &[u8]) {
    let (listing, mut at) = (listing(image, 0, image.len()), 0);
    for text in listing.split_inclusive('\n') {
        let (line, next) = line_at(image, at, image.len());
        assert_eq!(text, line.as_str());
        assert_eq!(text[..8], format!("{at:08x}"));
        let longest = if next - at == 2 { LONGEST_LINE_OF_A_HALF } else { LONGEST_LINE };
        assert!((19..=longest).contains(&text.len()), "{text:?}");
        at = next;
    }
    assert_eq!(at, image.len());
    assert!(listed_bytes(&listing) == image);
}

/// Every first half, and behind it a half that is none, so that each begins a line. They don't fit
/// in one image.
#[test]
fn the_bits_give_back_the_bytes_of_every_first_half() {
    let all: Vec<u8> =
        (0..=u16::MAX).flat_map(|first| [first, 0]).flat_map(u16::to_be_bytes).collect();
    let images = all.chunks(LONGEST_IMAGE);
    assert_eq!(images.len(), 4);
    images.for_each(check_whole);
}

#[test]
fn the_bits_give_back_the_bytes_of_any_image() {
    let mut generator = Generator::new(20);
    for length in [2, 4, 6, 8, 30, 100, 1000, 65_534, 65_536] {
        let image: Vec<u8> = (0..length).map(|_| generator.word() as u8).collect();
        check_whole(&image);
    }
}

/// The longest line has 31 bytes: 8 digits, tab, 8 digits, tab, two letters, tab, nine characters,
/// newline. The longest of two bytes has 30, and so the longest listing 32,768 times as many.
#[test]
fn the_longest_lines_are_where_they_are_said_to_be() {
    let longest = "00000000\te2000000\tjf\t-67108864\n";
    assert_eq!(longest.len(), LONGEST_LINE);
    assert_eq!(listing(&bytes("e2000000"), 0, 4), longest);
    let of_two_bytes = "00000000\t12fa\tmfsfr\tr15\tsfr10\n";
    assert_eq!(of_two_bytes.len(), LONGEST_LINE_OF_A_HALF);
    let image = bytes("12fa").repeat(32_768);
    let whole = listing(&image, 0, LONGEST_IMAGE);
    assert_eq!((whole.len(), LONGEST_LISTING), (983_040, 983_040));
    assert!(whole.starts_with(of_two_bytes));
    let mut lengths = [usize::MAX, 0];
    for_each_line(|line, _| lengths = [lengths[0].min(line.len()), lengths[1].max(line.len())]);
    assert_eq!(lengths, [19, LONGEST_LINE]);
}

#[test]
fn the_lines_of_the_vectors_are_in_the_written_form() {
    for_each_line(|line, end| {
        let fields: Vec<&str> = line.strip_suffix('\n').expect("a newline").split('\t').collect();
        let [address, bits, name, ref operands @ ..] = fields[..] else { panic!("{line:?}") };
        let at = usize::from_str_radix(address, 16).expect("the address");
        assert_eq!(address, format!("{at:08x}"));
        assert!(at + bits.len() / 2 <= end && matches!(bits.len(), 4 | 8), "{line:?}");
        let is_plain =
            |field: &str| field.bytes().all(|byte| matches!(byte, b'0'..=b'9' | b'a'..=b'z'));
        assert!(is_plain(name) && matches!(operands.len(), 1..=3), "{line:?}");
        for operand in operands {
            let number = operand.trim_start_matches(|letter: char| letter.is_ascii_lowercase());
            let is_half = name == "half" && operand.strip_prefix("0x") == Some(bits);
            let is_decimal = number.parse::<i32>().is_ok_and(|n| n.to_string() == number);
            assert!(is_half || is_decimal, "{line:?}");
        }
    });
}

#[test]
fn the_vectors_have_targets_on_both_sides_of_the_image() {
    for name in ["jf", "sjf", "jt", "sjt", "j", "sj", "jl"] {
        let mut targets = Vec::new();
        for_each_line(|line, _| {
            let fields: Vec<&str> = line.trim_end().split('\t').collect();
            if fields[2] == name {
                targets.push(fields[3].parse::<i32>().expect("a target"));
            }
        });
        let below = targets.iter().filter(|&&target| target < 0).count();
        let above = targets.iter().filter(|&&target| target > 65_535).count();
        assert!(below > 200 && above > 200, "{name}: {below} below 0, {above} above the image");
        assert!(targets.len() - below - above > 0, "{name}: none inside");
        if name.starts_with('s') {
            for target in [-4, -2, 0, 2, 65_534, 65_536] {
                assert!(targets.contains(&target), "{name} to {target}");
            }
        }
    }
}

/// Four bytes that just fit and that are cut, by the range and by the image; `ldrpc` at addresses
/// that are a multiple of 4 and at others, for each of its fields.
#[test]
fn the_vectors_have_every_end_and_every_alignment() {
    let (mut ends, mut ldrpc) = ([[0; 2]; 2], [[false; 256]; 2]);
    for_each_line(|line, end| {
        let fields: Vec<&str> = line.trim_end().split('\t').collect();
        let at = usize::from_str_radix(fields[0], 16).expect("the address");
        let bits = u32::from_str_radix(fields[1], 16).expect("the bits");
        let by_image = usize::from(end == LONGEST_IMAGE);
        if fields[1].len() == 8 && at + 4 == end {
            ends[0][by_image] += 1;
        }
        if fields[2] == "half" && matches!(bits >> 10, 0b111000 | 0b111010 | 0b111100 | 0b111110) {
            ends[1][by_image] += 1;
        }
        if fields[2] == "ldrpc" {
            ldrpc[at % 4 / 2][(bits >> 4 & 0xf0 | bits & 0xf) as usize] = true;
        }
    });
    assert_eq!(ends[0], [4096, 8], "just fit");
    assert_eq!(ends[1], [4096, 8], "cut");
    assert!(ldrpc.as_flattened().iter().all(|&reached| reached));
}
