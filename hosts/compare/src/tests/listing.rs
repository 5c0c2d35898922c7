//! Listings: the calls are the same each time, wrong listers are found, and a case is shown.

use second::corpus::ListCase;
use second::listing::{list, LONGEST_IMAGE, LONGEST_LISTING};

use crate::listing::{by_library, by_second, calls, check, room_for_any, Call, Listed};
use crate::report;

const SEED: u64 = 7;
const CASES: u64 = 1_000;

fn early_calls() -> impl Iterator<Item = Call> {
    (0..CASES).flat_map(|index| calls(SEED, index))
}

#[test]
fn calls_depend_on_their_seed_and_number_alone() {
    for index in [0, 1, 99, 12_345, u64::MAX] {
        assert_eq!(calls(SEED, index), calls(SEED, index));
        assert_ne!(calls(SEED, index), calls(SEED, index ^ 1));
        assert_ne!(calls(SEED, index), calls(SEED + 1, index));
    }
}

/// Each kind of call comes often: as drawn, with the opposite in the buffer, with room for any.
#[test]
fn a_case_is_called_in_three_ways() {
    let (mut opposite, mut roomy) = (0, 0);
    for index in 0..CASES {
        let calls = calls(SEED, index);
        let (first, more) = calls.split_first().expect("a case has a call");
        assert_eq!(first.case, second::corpus::list_case(SEED, index));
        for call in more {
            let is_opposite = call.filler == !first.filler && call.case == first.case;
            let is_roomy = room_for_any(&call.case).is_some_and(|least| call.case.room >= least);
            assert!(is_opposite || is_roomy, "case {index}");
            opposite += u64::from(is_opposite);
            roomy += u64::from(!is_opposite);
        }
    }
    assert!(opposite > CASES / 5 && roomy > CASES / 4, "{opposite} opposite, {roomy} roomy");
}

/// Whether some early case tells this lister from the second program.
fn is_found(lister: impl Fn(&Call) -> Listed) -> bool {
    early_calls().any(|call| check(&call, &lister).is_err())
}

/// The end of a call that did nothing.
fn untouched(call: &Call, reply: u32) -> Listed {
    Listed { reply, length: 0, buffer: vec![call.filler; call.case.room] }
}

/// The library, and a change of what it left where the listing was written.
fn changed(call: &Call, change: impl Fn(&mut Listed)) -> Listed {
    let mut listed = by_library(call);
    if listed.length > 0 {
        change(&mut listed);
    }
    listed
}

#[test]
fn the_library_is_not_found_wrong() {
    assert!(!is_found(by_library));
}

#[test]
fn listers_without_an_answer_are_found() {
    for reply in [0, 1, 20, 21] {
        assert!(is_found(|call| untouched(call, reply)), "always {reply}");
        assert!(is_found(|call| Listed { reply, ..by_library(call) }), "the number {reply}");
    }
    assert!(is_found(|call| untouched(call, by_library(call).reply)), "writes nothing");
    assert!(is_found(|call| Listed { length: call.case.room, ..by_library(call) }));
}

/// Each makes one kind of small mistake in what it writes.
#[test]
fn small_mistakes_in_lines_are_found() {
    assert!(is_found(|call| changed(call, |listed| listed.length -= 1)), "no last newline");
    assert!(is_found(|call| changed(call, |listed| listed.buffer[0] = b' ')), "leading blank");
    assert!(is_found(|call| changed(call, |listed| {
        listed.buffer[..listed.length].make_ascii_uppercase();
    })));
    // A zero behind the listing, as C has it.
    assert!(is_found(|call| changed(call, |listed| {
        listed.buffer[listed.length..].iter_mut().take(1).for_each(|byte| *byte = 0);
    })));
    // As much of the listing as there is room for.
    assert!(is_found(|call| {
        let mut listed = by_library(call);
        if listed.reply == 21 {
            listed.buffer.copy_from_slice(&whole(&call.case)[..call.case.room]);
        }
        listed
    }));
}

/// A byte behind the listing becomes what it was in the first call of a case, so one filler alone
/// would not show it.
#[test]
fn a_byte_that_is_what_it_was_by_chance_is_found() {
    let found = (0..CASES).any(|index| {
        let calls = calls(SEED, index);
        let filler = calls[0].filler;
        let lister = |call: &Call| {
            let mut listed = by_library(call);
            listed.buffer[listed.length..].fill(filler);
            listed
        };
        check(&calls[0], lister).expect("the first call shows nothing");
        calls.iter().any(|call| check(call, lister).is_err())
    });
    assert!(found);
}

/// The listing of a case in room enough.
fn whole(case: &ListCase) -> Vec<u8> {
    let mut buffer = vec![0; LONGEST_LISTING];
    let length = list(&case.image, case.start, case.end, &mut buffer).expect("it can be listed");
    buffer.truncate(length);
    buffer
}

/// Listers that don't test one of refusal 20's facts, and take the range for one that they can list.
#[test]
fn a_fact_that_is_not_tested_is_found() {
    type Mend = fn(&mut ListCase);
    let listers: [(&str, Mend); 5] = [
        ("size", |case| case.image.truncate(LONGEST_IMAGE)),
        ("odd start", |case| case.start &= !1),
        ("odd end", |case| case.end &= !1),
        ("reversed", |case| case.start = case.start.min(case.end)),
        ("outside", |case| case.end = case.end.min(case.image.len() & !1)),
    ];
    for (name, mend) in listers {
        let lister = |call: &Call| {
            let mut mended = call.clone();
            mend(&mut mended.case);
            by_library(&mended)
        };
        assert!(is_found(lister), "{name}");
    }
}

#[test]
fn refusals_in_the_other_order_are_found() {
    assert!(is_found(|call| match by_library(call) {
        listed if listed.reply == 20 && call.case.room == 0 => untouched(call, 21),
        listed => listed,
    }));
}

/// A lister that shows a whole instruction where the range's end cuts one: it has as many lines as
/// a listing with a half more.
#[test]
fn a_line_over_the_end_is_found() {
    let lines = |listed: &Listed| {
        listed.buffer[..listed.length].iter().filter(|&&byte| byte == b'\n').count()
    };
    assert!(is_found(|call| {
        let mut longer = call.clone();
        longer.case.end = longer.case.end.saturating_add(2);
        let (cut, whole) = (by_library(call), by_library(&longer));
        if lines(&cut) > 0 && lines(&cut) == lines(&whole) {
            whole
        } else {
            cut
        }
    }));
}

/// add r1,r2; a jl, +4 bytes; and two bytes behind the range.
fn shown(room: usize) -> String {
    let image = vec![0x21, 0x12, 0xf8, 0x00, 0x00, 0x02, 0x71, 0x10];
    report::listing(&[Call { case: ListCase { image, start: 0, end: 6, room }, filler: 0xa5 }])
}

#[test]
fn a_listing_is_shown() {
    let begin = "Listing\nimage 8 bytes 2112f80000027110\nfrom 0x0 to 0x6\n\
                 00000000\t2112\tadd\tr1\tr2\n00000002\tf8000002\tjl\t6\n";
    let text = shown(48);
    assert!(text.starts_with(&format!("{begin}buffer 48 bytes full of a5\nlibrary: ")), "{text}");
    let end = "reply 0, length 47\n  listing 00000000\\t2112\\tadd\\tr1\\tr2\\n\
               00000002\\tf8000002\\tjl\\t6\\n\n  behind it 1 bytes as they were\n";
    for name in ["library", "second program"] {
        assert!(text.contains(&format!("\n{name}: {end}")), "{text}");
    }
    assert!(text.ends_with("\n\n"));
    let short = shown(3);
    assert!(short.starts_with(begin), "the lines are shown without room too: {short}");
    let end = "reply 21, length 0\n  listing \n  behind it 3 bytes as they were\n";
    assert_eq!(short.matches(end).count(), 2, "{short}");
}

#[test]
fn a_refused_listing_is_shown() {
    let case = ListCase { image: vec![0; 4], start: 2, end: 6, room: 0 };
    let text = report::listing(&[Call { case, filler: 0 }]);
    assert!(text.contains("from 0x2 to 0x6\nrefusal 20: "), "{text}");
    assert_eq!(text.matches(": reply 20, length 0\n").count(), 2, "{text}");
}

#[test]
fn a_long_listing_shows_its_first_and_its_last_lines() {
    let case = ListCase { image: vec![0; 2_000], start: 0, end: 2_000, room: 24 * 2_000 };
    let text = report::listing(&[Call { case, filler: 0 }]);
    let lines: Vec<&str> = text.lines().filter(|line| line.starts_with("0000")).collect();
    assert_eq!((lines.len(), lines[99], lines[199]), {
        (200, "000000c6\t0000\thalf\t0x0000", "000007ce\t0000\thalf\t0x0000")
    });
    assert!(text.contains("\nlines 101 to 900 are left out\n"), "{text}");
}

/// What both left is what is counted.
#[test]
fn an_agreement_is_what_the_second_program_left() {
    for call in early_calls().take(100) {
        assert_eq!(check(&call, by_library).ok(), Some(by_second(&call)));
    }
}
