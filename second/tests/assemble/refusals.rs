//! The start, the room in the image, and the order of the refusals.

use crate::rig::{assembled, labelled};

#[test]
fn a_start_that_is_odd_or_past_the_image_is_refused_with_29() {
    for text in ["", "\tjr\tr0\n", "\n", "nothing"] {
        for (start, length) in [(1, 8), (7, 8), (9, 8), (10, 8), (2, 0), (1, 0), (2, 1), (8, 7)]
            .into_iter()
            .chain([(usize::MAX, 8), (usize::MAX - 1, 8), (1 << 32, 8), ((1 << 32) + 2, 8)])
        {
            assert_eq!(assembled(text, start, length), Err((0, 29)), "{start} of {length}");
        }
    }
    assert_eq!(assembled("\tjr\tr0\n", 8, 8), Err((1, 36)), "at the end there is no room");
    assert_eq!(assembled("\n", 8, 8), Err((1, 30)));
    assert_eq!(assembled("\tjr\tr0\n", 6, 9).map(|bytes| bytes.len()), Ok(2));
}

#[test]
fn a_line_that_the_image_has_no_room_for_is_refused_with_36() {
    let text = "\tjr\tr0\n\tword\t1\n\tjr\tr1\n";
    let refused = [(0, 1), (1, 1), (2, 2), (3, 2), (4, 2), (5, 2), (6, 3), (7, 3)];
    for start in [0, 2, 10] {
        for (length, line) in refused {
            assert_eq!(assembled(text, start, start + length), Err((line, 36)), "{length}");
        }
        for length in [8, 9, 10, 100] {
            assert!(assembled(text, start, start + length).is_ok(), "{length}");
        }
    }
    for name in ["jf", "jt", "j", "jl", "word"] {
        let text = format!("\t{name}\t0\n");
        for length in 0..4 {
            assert_eq!(assembled(&text, 0, length), Err((1, 36)), "{name}");
        }
        assert_eq!(assembled(&text, 0, 4).map(|bytes| bytes.len()), Ok(4), "{name}");
    }
    assert_eq!(assembled("\thalf\t-1\n", 0, 0), Err((1, 35)), "35 comes first");
    assert_eq!(assembled("\tjr\tr0\na\n", 0, 0), Err((1, 36)), "the first line first");
    assert_eq!(assembled("a\tjr\tr0\na\tjr\tr0\n", 0, 2), Err((2, 33)), "33 comes first");
    // A label past the image is known to a line before it.
    assert_eq!(assembled("\tswint\tx-x\n\tjr\tr0\nx\tjr\tr0\n", 0, 2), Err((2, 36)));
}

/// A line with all of them; each that is mended gives way to the next.
#[test]
fn the_refusals_of_a_line_come_in_their_order() {
    let full = labelled(256);
    let deep = |inner: &str| format!("((((((((({inner})))))))))");
    let lines = [
        (format!("new\tswint\t{}-", deep("none*2147483648")), 30),
        (format!("new\tswint\t{}", deep("none*2147483648")), 31),
        ("new\tswint\t(none*2147483648)".to_string(), 32),
        ("l7\tswint\t(0*2147483648)".to_string(), 33),
        ("new\tswint\t(0*2147483648)".to_string(), 34),
        ("\tswint\t(0*2147483648)".to_string(), 35),
        ("\tswint\t16".to_string(), 35),
        ("\tswint\t(0*2147483647)".to_string(), 36),
    ];
    for (line, number) in lines {
        let text = format!("{full}{line}\n\tword\t\n");
        assert_eq!(assembled(&text, 0, 512), Err((257, number)), "{line:?}");
        assert_eq!(assembled(&text, 1, 512), Err((0, 29)), "{line:?}");
    }
}
