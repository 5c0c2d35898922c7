//! Labels: what they stand for, and what is wrong with them.

use crate::rig::{hex, labelled, value};

/// Forward and backward, in a line's own expression, and by a name that something else has.
#[test]
fn a_label_is_the_address_of_its_line() {
    let cases = [
        ("a\tword\tb\nb\tword\ta\n", "0000010400000100"),
        ("\tsj\tend\n\tjl\tend\nend\tsj\tend\n", "f403f8000002f400"),
        ("r1\tmovi\tr1\tr1-255\nadd\tadd\tr1\tr1\n\thalf\tadd\n", "701121110102"),
        ("word\tword\tword\nhalf\thalf\thalf\n", "000001000104"),
        ("sfr0\tmfsfr\tr0\tsfr0\n\thalf\tsfr0\n", "12000100"),
        ("x\thalf\tx*0x10-x\n", "0f00"),
        ("abcdefghijkl\thalf\tabcdefghijkl\n", "0100"),
        ("a0123456789z\thalf\ta0123456789z\n", "0100"),
        ("r16\thalf\tr16+r01\nr01\tjr\tr0\n", "02021c00"),
        ("\tjf\tx\n\tjt\tx\n\tj\tx\nx\thalf\tx\n", "e0000006e8000004f0000002010c"),
    ];
    for (text, bits) in cases {
        assert_eq!(hex(text).as_deref(), Ok(bits), "{text:?}");
    }
}

#[test]
fn an_unknown_label_is_refused_with_32() {
    for expression in ["nowhere", "0*nowhere", "here+nowhere", "-(nowhere)", "x", "her", "here1"] {
        assert_eq!(value(expression), Err(32), "{expression:?}");
    }
    assert_eq!(value("2147483648+nowhere"), Err(32), "before 35");
    assert_eq!(value("nowhere+2147483648"), Err(32), "before 35");
    assert_eq!(hex("\tjr\tr0\n\tsj\tx\n"), Err((2, 32)));
    assert_eq!(hex("a\tsj\tx\na\tjr\tr0\n"), Err((1, 32)), "the first line first");
}

/// 33 in the second line that has it, and the label stays what the first one made it.
#[test]
fn a_label_written_twice_is_refused_with_33() {
    assert_eq!(hex("a\tjr\tr0\na\tjr\tr0\n"), Err((2, 33)));
    assert_eq!(hex("a\tjr\tr0\nb\tjr\tr0\n\tjr\tr0\na\tjr\tr0\na\tjr\tr0\n"), Err((4, 33)));
    assert_eq!(hex("a\tjr\tr0\na\thalf\tx\n"), Err((2, 32)), "32 comes first");
    assert_eq!(hex("a\tjr\tr0\na\thalf\t-1\n"), Err((2, 33)), "35 comes later");
    // The first line's value fits with the first address only.
    assert_eq!(hex("\tswint\ta-243\na\tjr\tr0\na\tjr\tr0\n"), Err((3, 33)));
    assert_eq!(hex("\tswint\ta-242\na\tjr\tr0\na\tjr\tr0\n"), Err((1, 35)));
}

/// A line of unknown form takes no bytes and sets no label; every other line does both, whatever
/// else is wrong with it. The first line shows it: in 0 to 15 its value fits.
#[test]
fn refused_lines_count_for_the_labels_of_others() {
    let deep = "(((((((((1)))))))))";
    let texts = [
        ("\tswint\tx-243\n\tnop\nx\tjr\tr0\n".to_string(), (2, 30)),
        ("\tswint\tx-242\n\tnop\nx\tjr\tr0\n".to_string(), (1, 35)),
        (format!("\tswint\tx-245\n\tswint\t{deep}\nx\tjr\tr0\n"), (2, 31)),
        (format!("\tswint\tx-244\n\tswint\t{deep}\nx\tjr\tr0\n"), (1, 35)),
        ("\tswint\tx-247\n\tword\tnone\nx\tjr\tr0\n".to_string(), (2, 32)),
        ("\tswint\tx-246\n\tword\tnone\nx\tjr\tr0\n".to_string(), (1, 35)),
        ("\tswint\tx-247\n\tjl\t1\nx\tjr\tr0\n".to_string(), (2, 35)),
        ("\tswint\tx-246\n\tjl\t1\nx\tjr\tr0\n".to_string(), (1, 35)),
        ("a\tswint\tx-247\na\tjl\ta\nx\tjr\tr0\n".to_string(), (2, 33)),
        ("a\tswint\tx-246\na\tjl\ta\nx\tjr\tr0\n".to_string(), (1, 35)),
        // The label itself.
        ("\tswint\tx-x\nx\tnop\n".to_string(), (1, 32)),
        ("\tswint\tx-x\nx\tjr\tr16\n".to_string(), (1, 32)),
        ("\tswint\tx-x\nx\tjr\tr0".to_string(), (1, 32)),
        (format!("\tswint\tx-x\nx\tword\t{deep}\n"), (2, 31)),
        ("\tswint\tx-x\nx\tword\tnone\n".to_string(), (2, 32)),
        ("\tswint\tx-x\nx\tword\t2147483648\n".to_string(), (2, 35)),
        // One of unknown form didn't write it, so the next one does so first.
        ("\tswint\tx-243\nx\tnop\nx\tjr\tr0\n".to_string(), (2, 30)),
    ];
    for (text, refused) in texts {
        assert_eq!(hex(&text), Err(refused), "{text:?}");
    }
}

#[test]
fn a_label_after_the_256th_is_refused_with_34() {
    for lines in [1, 255, 256] {
        assert_eq!(hex(&labelled(lines)).map(|digits| digits.len()), Ok(4 * lines));
    }
    for lines in [257, 258, 300] {
        assert_eq!(hex(&labelled(lines)), Err((257, 34)), "{lines}");
    }
    let full = labelled(256);
    let texts = [
        ("\tjr\tr0\n\thalf\tl255\n", Ok(())),
        ("l0\tjr\tr0\n", Err((257, 33))),
        ("l255\tjr\tr0\n", Err((257, 33))),
        ("new\tjr\tr0\n", Err((257, 34))),
        ("new\tjr\tr0\nnew\tjr\tr0\n", Err((257, 34))),
        ("new\thalf\t-1\n", Err((257, 34))),
        ("new\thalf\tnew\n", Err((257, 32))),
        ("\thalf\tnew\nnew\tjr\tr0\n", Err((257, 32))),
        ("new\tjr\tr16\n", Err((257, 30))),
        ("\tjr\tr0\nl1\tjr\tr0\nnew\tjr\tr0\n", Err((258, 33))),
    ];
    for (more, expected) in texts {
        assert_eq!(hex(&(full.clone() + more)).map(drop), expected, "{more:?}");
    }
    // Before them it is unknown too; and a line of unknown form takes no place among the 256.
    let before =
        |more: &str| hex(&format!("\thalf\tnew-new\n{}{more}new\tjr\tr0\n", labelled(255)));
    assert!(before("").is_ok());
    assert_eq!(before("l255\tjr\tr0\n"), Err((1, 32)));
    assert_eq!(before("l255\tnop\n"), Err((257, 30)));
    assert_eq!(before("l0\tjr\tr0\n"), Err((257, 33)), "one that is there takes none either");
}
