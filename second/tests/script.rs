//! "The program": the small program's answers, whole and to damaged inputs.

use second::script::answer;

/// Lines with a space in place of each tab.
fn text(lines: &str) -> String {
    lines.replace(' ', "\t")
}

#[track_caller]
fn assert_answer(input: &str, expected: &str) {
    assert_eq!(answer(text(input).as_bytes()), text(expected), "to {input:?}");
}

/// The input is bad in the line with this number.
#[track_caller]
fn assert_bad(input: &str, line: u32) {
    assert_answer(input, &format!("bad {line}\n"));
}

#[track_caller]
fn assert_good(input: &str) {
    let answer = answer(text(input).as_bytes());
    assert!(answer.starts_with("end\t"), "{answer:?} to {input:?}");
}

const EXAMPLE: &str = "mem 16\nat 00000000 71102111f400\nrun 3\n";

#[test]
fn the_whole_example() {
    assert_answer(EXAMPLE, "end 10 3\npc 00000004\nr1 00000020\n");
}

#[test]
fn the_end_line_has_reply_and_steps_of_every_stop() {
    assert_answer("mem 4\nrun 0\n", "end 10 0\npc 00000000\n");
    assert_answer("mem 4\nmark 00000001 1\nrun 9\n", "end 12 0\npc 00000000\n");
    assert_answer("mem 4\nrun 9\n", "end 13 0\npc 00000000\n");
    // ldr r1 from 4, which is marked; jr r1.
    let marked = "mem 8\nat 00000000 81101c01\nmark 00000007 1\nrun 9\n";
    assert_answer(marked, "end 14 1\npc 00000002\nr1 ********\n");
}

/// IBASE is 0, so bus errors go to 16, which is outside a memory of 4 bytes (document 02, ticket 5).
#[test]
fn an_access_outside_memory_is_an_entry() {
    let fetch = "mem 4\nat 00000000 70107010\nrun ";
    assert_answer(&format!("{fetch}2\n"), "end 10 2\npc 00000004\n");
    assert_answer(&format!("{fetch}3\n"), "end 10 3\npc 00000010\n");
    assert_answer(&format!("{fetch}9\n"), "end 10 9\npc 00000010\n");
    // ldr r1 from 4; in a longer memory the handler is movi r2,1.
    assert_answer("mem 4\nat 00000000 8110\nrun 1\n", "end 10 1\npc 00000010\n");
    let handled = "mem 20\nat 00000000 8510\nat 00000010 7021\nrun 2\n";
    assert_answer(handled, "end 10 2\npc 00000012\nr2 00000001\n");
}

#[test]
fn a_refusal_gives_only_the_end_line() {
    for size in [0, 1, 2, 3, 5, 16_383] {
        assert_answer(&format!("mem {size}\nrun 5\n"), "end 1 0\n");
    }
    assert_answer("mem 6\nat 00000000 701070107010\nmark 00000005 1\nrun 5\n", "end 1 0\n");
}

#[test]
fn each_register_that_is_marked_or_not_zero_is_written() {
    // ldr r2 and r3 from 16 on: zero and marked, then not zero and unmarked. movi r15,-1.
    let input = "mem 32\nat 00000000 842085307fff\nat 00000014 00c0ffee\n\
                 mark 00000010 4\nrun 3\n";
    let expected = "end 10 3\npc 00000006\nr2 ********\nr3 00c0ffee\nr15 ffffffff\n";
    assert_answer(input, expected);
}

#[test]
fn all_sixteen_registers_are_named() {
    let mut input = text("mem 64\n");
    let mut expected = text("end 10 16\npc 00000020\n");
    for n in 0..16_u32 {
        // movi rn,n+16
        input += &format!("at\t{:08x}\t71{n:x}{n:x}\n", 2 * n);
        expected += &format!("r{n}\t{:08x}\n", n + 16);
    }
    assert_eq!(answer((input + "run\t16\n").as_bytes()), expected);
}

#[test]
fn a_later_at_overwrites_bytes_and_leaves_marks() {
    let input = "mem 8\nat 00000000 8110\nat 00000004 11111111\nmark 00000004 1\n\
                 at 00000004 22222222\nrun 1\n";
    assert_answer(input, "end 10 1\npc 00000002\nr1 ********\n");
    let unmarked = "mem 8\nat 00000004 11111111\nat 00000000 8110\nat 00000005 2222\nrun 1\n";
    assert_answer(unmarked, "end 10 1\npc 00000002\nr1 11222211\n");
}

#[test]
fn the_state_is_fresh_and_the_tape_all_zero() {
    // mfsfr r1,hwdbg; mfsfr r2,psw; movi r3,32; mtsfr psw,r3: no line is ever entered.
    let input = "mem 16\nat 00000000 1216122072301303f400\nrun 9\n";
    assert_answer(input, "end 10 9\npc 00000008\nr1 00000003\nr3 00000020\n");
}

#[test]
fn every_line_ends_in_a_newline() {
    assert_bad("mem 16", 1);
    assert_bad("mem 16\nrun 3", 2);
    assert_bad("mem 16\nat 00000000 7110", 2);
    assert_bad("mem 16\nat 00000000 7110\nru", 3);
    assert_bad("mem 16\r\nrun 3\r\n", 1);
}

#[test]
fn an_end_of_input_before_run_names_the_missing_line() {
    assert_bad("", 1);
    assert_bad("mem 16\n", 2);
    assert_bad("mem 16\nat 00000000 7110\n", 3);
    assert_bad("mem 16\nat 00000000 7110\nmark 00000000 1\n", 4);
}

#[test]
fn anything_after_run_is_bad_in_the_next_line() {
    for more in ["\n", "x", "run 3\n", "mem 16\n", "at 00000000 00\n", "\0", " "] {
        assert_bad(&format!("{EXAMPLE}{more}"), 4);
    }
    assert_bad("mem 4\nrun 0\nrun 0\nrun 0\n", 3);
}

#[test]
fn the_first_bad_line_is_named() {
    assert_bad("mem 16\nat 00000000 7110\nbad\nat 00000000 zz\nrun 3\nrun 3\n", 3);
    assert_bad("mem 16385\nbad\n", 1);
}

#[test]
fn mem_is_the_first_line_and_no_other() {
    assert_bad("run 3\n", 1);
    assert_bad("at 00000000 00\nmem 16\nrun 3\n", 1);
    assert_bad("mark 00000000 0\nmem 16\nrun 3\n", 1);
    assert_bad("\nmem 16\nrun 3\n", 1);
    assert_bad("mem 16\nmem 16\nrun 3\n", 2);
}

#[test]
fn sizes_and_budgets_go_up_to_16_384() {
    assert_answer("mem 16384\nrun 1\n", "end 13 0\npc 00000000\n");
    assert_answer("mem 4\nat 00000000 f400\nrun 16384\n", "end 10 16384\npc 00000000\n");
    for number in ["16385", "16388", "20000", "65536", "99999"] {
        assert_bad(&format!("mem {number}\nrun 1\n"), 1);
        assert_bad(&format!("mem 4\nrun {number}\n"), 2);
    }
}

/// Texts that are no decimals of 1 to 5 digits without leading zeros.
const NO_DECIMALS: [&str; 16] = [
    "",
    "00",
    "01",
    "007",
    "00016",
    "000000",
    "100000",
    "123456",
    "+1",
    "-1",
    "1a",
    "0x10",
    "1.0",
    "1,0",
    "\u{661}",
    "4294967300",
];

#[test]
fn decimals_have_1_to_5_digits_and_no_leading_zeros() {
    for text in NO_DECIMALS {
        assert_bad(&format!("mem {text}\nrun 1\n"), 1);
        assert_bad(&format!("mem 4\nrun {text}\n"), 2);
        assert_bad(&format!("mem 4\nmark 00000000 {text}\nrun 1\n"), 2);
    }
    assert_answer("mem 0\nrun 0\n", "end 1 0\n");
    assert_good("mem 16\nmark 00000000 0\nrun 0\n");
}

#[test]
fn an_address_has_8_lower_case_hex_digits() {
    let bad = ["", "0", "0000000", "000000000", "0000000A", "0x000000", "0000000g", "-0000001"];
    for address in bad {
        assert_bad(&format!("mem 16\nat {address} 00\nrun 0\n"), 2);
        assert_bad(&format!("mem 16\nmark {address} 1\nrun 0\n"), 2);
    }
    assert_good("mem 16\nat 0000000a 00\nmark 0000000f 1\nrun 0\n");
}

#[test]
fn hex_is_lower_case_1_to_16_bytes_a_line() {
    for bytes in ["", "0", "000", "0G", "AB", "aB", "0x", "g0", "00 00", "-1"] {
        assert_bad(&format!("mem 64\nat 00000000 {bytes}\nrun 0\n"), 2);
    }
    for count in 1..=20 {
        let input = format!("mem 64\nat 00000000 {}\nrun 0\n", "a5".repeat(count));
        if count <= 16 {
            assert_good(&input);
        } else {
            assert_bad(&input, 2);
        }
    }
}

#[test]
fn a_byte_or_mark_outside_memory_is_bad() {
    assert_good("mem 16\nat 0000000f 00\nrun 0\n");
    assert_good("mem 16\nat 00000000 000102030405060708090a0b0c0d0e0f\nrun 0\n");
    for at in ["00000010 00", "0000000f 0000", "ffffffff 00", "ffffffff 0000", "80000000 00"] {
        assert_bad(&format!("mem 16\nat {at}\nrun 0\n"), 2);
    }
    assert_good("mem 16\nmark 0000000f 1\nmark 00000000 16\nrun 0\n");
    for mark in ["00000010 1", "0000000f 2", "00000000 17", "ffffffff 1", "ffffffff 2"] {
        assert_bad(&format!("mem 16\nmark {mark}\nrun 0\n"), 2);
    }
    assert_bad("mem 0\nat 00000000 00\nrun 0\n", 2);
    assert_bad("mem 16\nmark 00000000 99999\nrun 0\n", 2);
}

/// The mark slice of these memories has bits past their end, also of such as the run refuses.
#[test]
fn a_mark_past_the_end_is_bad_where_its_mark_byte_goes_on() {
    for (size, reply) in [(4, 10), (12, 10), (20, 10), (60, 10), (1, 1), (6, 1), (15, 1)] {
        let mark = |first: u32, count| format!("mem {size}\nmark {first:08x} {count}\nrun 0\n");
        let end = if reply == 10 { "end 10 0\npc 00000000\n" } else { "end 1 0\n" };
        assert_answer(&mark(size - 1, 1), end);
        assert_answer(&mark(0, size), end);
        assert_bad(&mark(size, 1), 2);
        assert_bad(&mark(size - 1, 2), 2);
        assert_bad(&mark(0, size.next_multiple_of(8)), 2);
    }
}

/// A `mark` line marks the bytes that it names: what is loaded from beside them is unmarked.
#[test]
fn a_mark_is_of_its_own_bytes() {
    for place in 8..16 {
        for other in 8..16 {
            // movi r1; ldrb r2 from r1 + 0, which is 0.
            let code = format!("701{other:x}c021");
            let lines = format!("mem 16\nat 00000000 {code}\nmark {place:08x} 1\nrun 2\n");
            let loaded = if place == other { "r2 ********\n" } else { "" };
            let expected = format!("end 10 2\npc 00000004\nr1 {other:08x}\n{loaded}");
            assert_answer(&lines, &expected);
        }
    }
}

#[test]
fn a_mark_of_0_bytes_marks_nothing_and_is_good_anywhere() {
    for address in ["00000000", "00000010", "00000011", "7fffffff", "ffffffff"] {
        let input = format!("mem 16\nat 00000000 f400\nmark {address} 0\nrun 2\n");
        assert_answer(&input, "end 10 2\npc 00000000\n");
    }
    assert_answer("mem 0\nmark ffffffff 0\nrun 2\n", "end 1 0\n");
}

#[test]
fn lines_of_another_form_are_bad() {
    let lines = [
        "",
        " ",
        "at",
        "at ",
        "at 00000000",
        "at 00000000 ",
        "at 00000000 00 ",
        "at 00000000 00 00",
        " at 00000000 00",
        "At 00000000 00",
        "AT 00000000 00",
        "at  00000000 00",
        "mark",
        "mark ",
        "mark 00000000",
        "mark 00000000 ",
        "mark 00000000 1 ",
        "mark 00000000 1 1",
        "run",
        "run ",
        "run 3 ",
        " run 3",
        "run 3 3",
        "Run 3",
        "rune 3",
        "stop",
        "end 10 3",
        "# comment",
        "\0",
    ];
    for line in lines {
        assert_bad(&format!("mem 16\n{line}\nrun 3\n"), 2);
    }
    for line in ["mem", "mem ", "mem 16 ", " mem 16", "mem 16 16", "MEM 16", "memory 16"] {
        assert_bad(&format!("{line}\nrun 3\n"), 1);
    }
}

#[test]
fn fields_are_parted_by_tabs_and_nothing_else() {
    for input in [
        "mem 16\nrun\t3\n",
        "mem\t16\nrun 3\n",
        "mem\t16\nat 00000000\t00\nrun\t3\n",
        "mem\t16\nat\t00000000 00\nrun\t3\n",
        "mem\t\t16\nrun\t3\n",
        "mem\t16 \nrun\t3\n",
        "mem\t16\nrun\t3 \n",
        "mem\u{b}16\nrun\t3\n",
    ] {
        assert!(answer(input.as_bytes()).starts_with("bad\t"), "{input:?}");
    }
}

#[test]
fn bytes_that_are_no_text_are_bad() {
    for byte in 0..=255_u8 {
        let good = byte == b'\n';
        let mut input = b"mem\t16".to_vec();
        input.push(byte);
        input.extend(b"run\t3\n");
        let bad = answer(&input).starts_with("bad\t1\n");
        assert_eq!(bad, !good, "byte {byte} in place of a newline");
    }
    assert_eq!(answer(&[0xff, 0xfe, b'\n']), "bad\t1\n");
}

/// Every cut and every change of one byte of the example: the answer has its form.
#[test]
fn damaged_inputs_get_an_answer() {
    let input = text(EXAMPLE).into_bytes();
    for end in 0..input.len() {
        let lines = input[..end].iter().filter(|&&byte| byte == b'\n').count();
        assert_eq!(answer(&input[..end]), format!("bad\t{}\n", lines + 1), "cut at {end}");
    }
    for place in 0..input.len() {
        for byte in 0..=255 {
            let mut changed = input.clone();
            changed[place] = byte;
            let answer = answer(&changed);
            let first = answer.split('\t').next();
            assert!(matches!(first, Some("bad" | "end")), "{answer:?}");
            assert!(answer.ends_with('\n'));
            assert_eq!(
                first == Some("bad"),
                answer.lines().count() == 1 && answer != "end\t1\t0\n"
            );
        }
    }
}
