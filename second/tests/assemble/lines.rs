//! Lines: every mnemonic, data, and what is of unknown form.

use second::assemble::{assemble, Assembled, Refused};

use crate::rig::{assembled, hex, refusal, UNTOUCHED};

/// Every mnemonic, its line from address 0x100 on, and its bits.
const EVERY_MNEMONIC: [(&str, &str); 61] = [
    ("lsli\tr5\t15", "0c5f"),
    ("lsri\tr10\t0", "0da0"),
    ("asri\tr15\t1", "0ef1"),
    ("multi\tr0\t0xa", "0f0a"),
    ("swint\t15", "100f"),
    ("mfsfr\tr15\tsfr10", "12fa"),
    ("mtsfr\tsfr10\tr9", "13a9"),
    ("jr\tr14", "1c0e"),
    ("jrl\tr0", "1d00"),
    ("jsfr\tsfr3", "1e03"),
    ("sub\tr1\tr2", "2012"),
    ("add\tr15\tr0", "21f0"),
    ("subc\tr9\tr9", "2299"),
    ("addc\tr10\tr1", "23a1"),
    ("mov\tr1\tr10", "241a"),
    ("and\tr3\tr4", "2534"),
    ("or\tr4\tr5", "2645"),
    ("xor\tr5\tr6", "2756"),
    ("sxb\tr6\tr7", "2867"),
    ("xhw\tr7\tr8", "2978"),
    ("sxh\tr8\tr9", "2a89"),
    ("zxh\tr9\tr10", "2b9a"),
    ("lsl\tr10\tr11", "2cab"),
    ("lsr\tr11\tr12", "2dbc"),
    ("asr\tr12\tr13", "2ecd"),
    ("mult\tr13\tr14", "2fde"),
    ("cmpeqi\tr1\t-8", "3018"),
    ("cmpeq\tr1\tr2", "3112"),
    ("cmphs\tr2\tr3", "3223"),
    ("cmpls\tr3\tr4", "3334"),
    ("cmplt\tr4\tr5", "3445"),
    ("cmpgt\tr5\tr6", "3556"),
    ("cmplti\tr6\t7", "3667"),
    ("cmpgti\tr7\t-1", "377f"),
    ("movf\tr8\tr9", "3889"),
    ("subf\tr9\tr10", "399a"),
    ("addif\tr10\t-8", "3aa8"),
    ("addf\tr11\tr12", "3bbc"),
    ("movt\tr12\tr13", "3ccd"),
    ("subt\tr13\tr14", "3dde"),
    ("addit\tr14\t1", "3ee1"),
    ("addt\tr15\tr15", "3fff"),
    ("ldrpc\tr1\t0x100", "4010"),
    ("andi\tr1\t255", "5f1f"),
    ("addi\tr2\t-128", "6820"),
    ("movi\tr3\t127", "773f"),
    ("ldr\tr1\t60\tr14", "8f1e"),
    ("str\tr2\t4\tr0", "9120"),
    ("ldrh\tr3\t30\tr13", "af3d"),
    ("strh\tr4\t2\tr1", "b141"),
    ("ldrb\tr5\t15\tr12", "cf5c"),
    ("strb\tr6\t0\tr2", "d062"),
    ("jf\t264", "e0000004"),
    ("sjf\t254", "e7ff"),
    ("jt\t254", "ebffffff"),
    ("sjt\t1278", "edff"),
    ("j\t0", "f3ffff80"),
    ("sj\t-768", "f600"),
    ("jl\t-67108608", "fa000000"),
    ("half\t0xfc00", "fc00"),
    ("word\t-1", "ffffffff"),
];

#[test]
fn every_mnemonic_becomes_its_bits() {
    for (line, bits) in EVERY_MNEMONIC {
        assert_eq!(hex(&format!("\t{line}\n")).as_deref(), Ok(bits), "{line:?}");
        assert_eq!(hex(&format!("label\t{line}\n")).as_deref(), Ok(bits), "{line:?}");
    }
}

#[test]
fn the_lines_of_a_text_follow_each_other() {
    let text = "\tldr\tr5\t0\tr0\nloop\tsj\tloop\n\thalf\t0xfc00\nx\tword\t-2\n\tjl\tx\n";
    assert_eq!(hex(text).as_deref(), Ok("8050f400fc00fffffffefbfffffe"));
    let mut image = [UNTOUCHED; 20];
    let answer = assemble(text.as_bytes(), 4, &mut image);
    assert_eq!(answer, Ok(Assembled { lines: 5, end: 18 }));
    assert_eq!(image[..4], [UNTOUCHED; 4]);
    assert_eq!(image[18..], [UNTOUCHED; 2]);
    assert_eq!(image[4..6], [0x80, 0x50]);
}

#[test]
fn an_empty_text_has_no_line() {
    for start in [0, 2, 8] {
        let mut image = [UNTOUCHED; 8];
        assert_eq!(assemble(b"", start, &mut image), Ok(Assembled { lines: 0, end: start }));
        assert_eq!(image, [UNTOUCHED; 8]);
    }
    assert_eq!(assemble(b"", 0, &mut []), Ok(Assembled { lines: 0, end: 0 }));
}

/// Two bytes and four, the highest first; nothing is aligned.
#[test]
fn data_is_big_endian_at_any_even_address() {
    let text =
        "\thalf\t0x1234\n\tword\t0x12345678\n\thalf\t65535\n\tword\t-2147483647-1\n\thalf\t0\n";
    assert_eq!(hex(text).as_deref(), Ok("123412345678ffff800000000000"));
    assert_eq!(assembled("\tword\t1\n", 2, 6), Ok(vec![0, 0, 0, 1]));
}

/// Lines of unknown form, without their newlines.
const UNKNOWN_FORMS: &[&str] = &[
    // The number of fields.
    "",
    "\t",
    "a",
    "a\t",
    "\tadd",
    "\tadd\tr1",
    "\tadd\tr1\t",
    "\tadd\tr1\tr2\t",
    "\tadd\tr1\tr2\tr3",
    "\tadd\t\tr1\tr2",
    "\t\tadd\tr1\tr2",
    "add\tr1\tr2",
    "\tldr\tr1\t0",
    "\tldr\tr1\t0\tr1\t0",
    "\tword",
    "\tword\t1\t2",
    "\thalf\t",
    // The label.
    "A\tjr\tr0",
    "aB\tjr\tr0",
    "1\tjr\tr0",
    "1a\tjr\tr0",
    "a_\tjr\tr0",
    "a:\tjr\tr0",
    "-\tjr\tr0",
    "abcdefghijklm\tjr\tr0",
    "\u{e9}\tjr\tr0",
    // The mnemonic.
    "\tnop",
    "\tudi0\tr1\tr2",
    "\tADD\tr1\tr2",
    "\tad\tr1\tr2",
    "\tadds\tr1\tr2",
    "\tsxtb\tr1\tr2",
    "\tbyte\t1",
    "\tlabel\tword\t1",
    // Registers and SFRs.
    "\tjr\tr16",
    "\tjr\tr20",
    "\tjr\tr00",
    "\tjr\tr01",
    "\tjr\tr010",
    "\tjr\tr",
    "\tjr\tR0",
    "\tjr\tr-0",
    "\tjr\tr+0",
    "\tjr\tr0x1",
    "\tjr\t0",
    "\tjr\tsfr0",
    "\tjr\t(r0)",
    "\tjr\t",
    "\tmovi\t1\tr1",
    "\tmfsfr\tr0\tsfr11",
    "\tmfsfr\tr0\tsfr01",
    "\tmfsfr\tr0\tsfr",
    "\tmfsfr\tr0\tr0",
    "\tmfsfr\tr0\t0",
    "\tmfsfr\tsfr0\tr0",
    "\tmtsfr\tsfr11\tr0",
    "\tmtsfr\tr0\tsfr0",
    "\tjsfr\tsfr4",
    "\tjsfr\tsfr10",
    "\tjsfr\tr0",
    "\tadd\tr1\t2",
    "\tldr\tr1\tr0\t0",
    // A space, and other bytes that no line has.
    " \tjr\tr0",
    "\tjr r0",
    "\tjr\tr0 ",
    "\t jr\tr0",
    "\tword\t1 ",
    "\tword\t1 + 1",
    "\tword\t1\r",
    "\tjr\tr0\r",
    "\tjr\tr0\0",
    "\tjr\tr0;",
];

#[test]
fn lines_of_unknown_form_are_refused_with_30() {
    for line in UNKNOWN_FORMS {
        assert_eq!(refusal(line), 30, "{line:?}");
        // Whatever line it is, it is the first that is refused.
        let text = format!("\tjr\tr0\n{line}\n\tjr\tr0\n");
        assert_eq!(hex(&text), Err((2, 30)), "{line:?}");
    }
}

#[test]
fn a_last_line_without_its_newline_is_refused_with_30() {
    for text in ["\tjr\tr0", "a", "\t", " ", "\tword\t1"] {
        assert_eq!(hex(text), Err((1, 30)), "{text:?}");
        assert_eq!(hex(&format!("\tjr\tr0\n{text}")), Err((2, 30)), "{text:?}");
    }
    assert_eq!(hex("\tjr\tr0\n\n"), Err((2, 30)), "an empty line");
    assert_eq!(hex("\n\tjr\tr0\n"), Err((1, 30)), "an empty line");
    assert_eq!(hex("\tjr\tr0\r\n"), Err((1, 30)));
}

#[test]
fn texts_that_are_no_utf8_are_refused_with_30() {
    for text in [&b"\xff\tjr\tr0\n"[..], b"\tjr\tr0\xff\n", b"\xc3", b"\t\x80\tr0\n", b"\0"] {
        let mut image = [UNTOUCHED; 16];
        assert_eq!(assemble(text, 0, &mut image), Err(Refused { line: 1, number: 30 }));
        assert_eq!(image, [UNTOUCHED; 16]);
    }
}
