//! Texts: the calls are the same each time, wrong assemblers are found, and a case is shown.

use second::corpus::{assembly_case, AssemblyCase};

use crate::assembly::{by_library, by_second, calls, check, Assembled};
use crate::report;

const SEED: u64 = 7;
const CASES: u64 = 2_000;

fn early_calls() -> impl Iterator<Item = AssemblyCase> {
    (0..CASES).flat_map(|index| calls(SEED, index))
}

#[test]
fn calls_depend_on_their_seed_and_number_alone() {
    for index in [0, 1, 99, 12_345, u64::MAX] {
        assert_eq!(calls(SEED, index), calls(SEED, index));
        assert_ne!(calls(SEED, index), calls(SEED, index ^ 1));
        assert_ne!(calls(SEED, index), calls(SEED + 1, index));
    }
}

/// As drawn, and sometimes with the opposite in the image.
#[test]
fn a_case_is_called_in_two_ways() {
    let mut opposite = 0;
    for index in 0..CASES {
        let calls = calls(SEED, index);
        let (first, more) = calls.split_first().expect("a case has a call");
        assert_eq!(*first, assembly_case(SEED, index));
        for call in more {
            assert_eq!((&call.text, call.start), (&first.text, first.start));
            assert!(call.image.iter().zip(&first.image).all(|(one, other)| *one == !other));
            opposite += 1;
        }
    }
    assert!(opposite > CASES / 10, "{opposite} opposite");
}

/// Whether some early case tells this assembler from the second program.
fn is_found(assembler: impl Fn(&AssemblyCase) -> Assembled) -> bool {
    early_calls().any(|call| check(&call, &assembler).is_err())
}

/// The end of a call that did nothing.
fn untouched(case: &AssemblyCase, reply: u32, line: usize) -> Assembled {
    Assembled { reply, line, end: 0, image: case.image.clone() }
}

/// The library on a case that was changed first.
fn with(case: &AssemblyCase, change: impl Fn(&mut AssemblyCase)) -> Assembled {
    let mut changed = case.clone();
    change(&mut changed);
    by_library(&changed)
}

#[test]
fn the_library_is_not_found_wrong() {
    assert!(!is_found(by_library));
}

#[test]
fn assemblers_without_an_answer_are_found() {
    for reply in [0, 1, 29, 30, 36] {
        assert!(is_found(|case| untouched(case, reply, 1)), "always {reply}");
        assert!(is_found(|case| Assembled { reply, ..by_library(case) }), "the number {reply}");
    }
    assert!(is_found(|case| Assembled { image: case.image.clone(), ..by_library(case) }));
    assert!(is_found(|case| Assembled { line: 0, ..by_library(case) }), "no line");
    assert!(is_found(|case| Assembled { end: 0, ..by_library(case) }), "no end");
}

/// Each makes one kind of small mistake, and only with one answer.
#[test]
fn small_mistakes_are_found() {
    for reply in (29..=36).chain([0]) {
        let changed = |case: &AssemblyCase, change: fn(&mut Assembled)| {
            let mut assembled = by_library(case);
            if assembled.reply == reply {
                change(&mut assembled);
            }
            assembled
        };
        assert!(is_found(|case| changed(case, |end| end.line += 1)), "line of {reply}");
        assert!(is_found(|case| changed(case, |end| end.end += 2)), "end of {reply}");
        assert!(is_found(|case| changed(case, |end| end.reply = 37)), "number {reply}");
        assert!(is_found(|case| changed(case, |end| {
            end.image.first_mut().into_iter().for_each(|byte| *byte ^= 1);
        })));
        assert!(is_found(|case| changed(case, |end| {
            end.image.last_mut().into_iter().for_each(|byte| *byte ^= 1);
        })));
    }
}

/// One that takes texts that are refused, or looks at less than all of a text.
#[test]
fn assemblers_of_another_language_are_found() {
    type Change = fn(&mut AssemblyCase);
    let assemblers: [(&str, Change); 6] = [
        ("odd start", |case| case.start &= !1),
        ("no last newline", |case| {
            if !case.text.is_empty() && !case.text.ends_with(b"\n") {
                case.text.push(b'\n');
            }
        }),
        ("spaces", |case| case.text.retain(|&byte| byte != b' ')),
        ("capitals", |case| case.text.make_ascii_lowercase()),
        ("no parentheses", |case| case.text.retain(|byte| !b"()".contains(byte))),
        ("a roomy image", |case| case.image.resize(70_000, 0)),
    ];
    for (name, change) in assemblers {
        assert!(is_found(|case| with(case, change)), "{name}");
    }
}

/// The image is written up to the line that is refused.
#[test]
fn an_image_that_a_refusal_changes_is_found() {
    assert!(is_found(|case| {
        let refused = by_library(case);
        let lines = case.text.split_inclusive(|&byte| byte == b'\n');
        let before: Vec<u8> =
            lines.take(refused.line.saturating_sub(1)).flatten().copied().collect();
        let part = with(case, |case| case.text = before.clone());
        if refused.reply == 0 || part.reply != 0 {
            return refused;
        }
        Assembled { image: part.image, ..refused }
    }));
}

/// A byte that is what it was in the first call of a case: one image alone would not show it.
#[test]
fn a_byte_that_is_what_it_was_by_chance_is_found() {
    let found = (0..CASES).any(|index| {
        let calls = calls(SEED, index);
        let assembler = |case: &AssemblyCase| {
            let (mut assembled, first) = (by_library(case), &calls[0].image);
            if assembled.reply == 36 {
                assembled.image.copy_from_slice(first);
            }
            assembled
        };
        check(&calls[0], assembler).expect("the first call shows nothing");
        calls.iter().any(|call| check(call, assembler).is_err())
    });
    assert!(found);
}

fn shown(text: &[u8], start: usize) -> String {
    report::assembly(&[AssemblyCase { text: text.to_vec(), start, image: vec![0xa5; 8] }])
}

#[test]
fn a_text_is_shown() {
    let text = shown(b"a\tjr\tr1\n\tsj\ta\n", 2);
    let begin = "Text\nline 1: a\\tjr\\tr1\\n\nline 2: \\tsj\\ta\\n\nfrom 0x2\n\
                 image 8 bytes a5a5a5a5a5a5a5a5\nlibrary: ";
    assert!(text.starts_with(begin), "{text}");
    let end = "reply 0, line 2, end 0x6\n  image changed from 0x2 on: 1c01f7ff\n";
    for name in ["library", "second program"] {
        assert!(text.contains(&format!("\n{name}: {end}")), "{text}");
    }
    assert!(text.ends_with("\n\n"));
}

#[test]
fn a_refused_text_is_shown() {
    let text = shown(b"\tjr\tr1\n\tsj\tno where\xff", 0);
    assert!(text.contains("\nline 2: \\tsj\\tno where\\xff\nfrom 0x0\n"), "{text}");
    let end = ": reply 30, line 2, end 0x0\n  image as it was\n";
    assert_eq!(text.matches(end).count(), 2, "{text}");
}

#[test]
fn a_long_text_shows_its_first_and_its_last_lines() {
    let text = shown(&b"\tjr\tr1\n".repeat(1_000), 0);
    assert_eq!(text.lines().filter(|line| line.starts_with("line ")).count(), 200);
    assert!(text.contains("\nlines 101 to 900 are left out\nline 901: \\tjr"), "{text}");
}

/// What both left is what is counted.
#[test]
fn an_agreement_is_what_the_second_program_left() {
    for call in early_calls().take(100) {
        assert_eq!(check(&call, by_library).ok(), Some(by_second(&call)));
    }
}
