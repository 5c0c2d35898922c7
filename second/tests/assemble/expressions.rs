//! Expressions: their form, their values, and parentheses.

use crate::rig::value;

/// Malformed expressions.
const MALFORMED: &[&str] = &[
    "",
    "-",
    "--1",
    "---1",
    "-(--1)",
    "3---1",
    "3*--1",
    "+1",
    "3++1",
    "1+",
    "1-",
    "1*",
    "*1",
    "1**1",
    "1+*1",
    "1*+1",
    "1/1",
    "1%1",
    "~1",
    "()",
    "-()",
    "1*()",
    "(",
    ")",
    "(1",
    "1)",
    "(1))",
    "((1)",
    ")1(",
    "1(2)",
    "(1)(2)",
    "(1)2",
    "(-)",
    "(+1)",
    "(1+)",
    "(1*)",
    "01",
    "00",
    "-01",
    "1+01",
    "007",
    "0x",
    "-0x",
    "0x-1",
    "0X1",
    "0xA",
    "0x1G",
    "0xg",
    "0x1g",
    "0x0x1",
    "1a",
    "12ab",
    "1x",
    "0b1",
    "0a",
    "1_0",
    "1.0",
    "A",
    "hereX",
    "here_",
    "$1",
    "abcdefghijklm",
    "1+abcdefghijklm",
    "here here",
    "1 1",
    "here1,",
    "(here",
    "here(1)",
    "1here",
    "-",
    "- 1",
];

#[test]
fn malformed_expressions_are_refused_with_30() {
    for expression in MALFORMED {
        assert_eq!(value(expression), Err(30), "{expression:?}");
    }
}

/// Expressions and their values; `here` is 0x100 and `there` 0x104.
const VALUES: &[(&str, i32)] = &[
    ("0", 0),
    ("-0", 0),
    ("7", 7),
    ("1234567890", 1_234_567_890),
    ("0x0", 0),
    ("0x00", 0),
    ("0x1f", 31),
    ("0x0000000000000000000000000000000000001f", 31),
    ("0xabcdef", 0xabcdef),
    ("0x12345678", 0x1234_5678),
    ("-0x10", -16),
    ("3--1", 4),
    ("3+-1", 2),
    ("3-1", 2),
    ("3*-1", -3),
    ("-3*-1", 3),
    ("-(-1)", 1),
    ("-(-(-(1)))", -1),
    ("1-2-3", -4),
    ("1-(2-3)", 2),
    ("2+3*4", 14),
    ("2*3+4", 10),
    ("(2+3)*4", 20),
    ("2*(3+4)", 14),
    ("-2*3+4", -2),
    ("-(2*3)+4", -2),
    ("2-3*4-5", -15),
    ("2*3*4*5", 120),
    ("10-2*-3*(1-(2-(3)))", 22),
    ("here", 0x100),
    ("there", 0x104),
    ("-here", -0x100),
    ("there-here", 4),
    ("(there-here)*100", 400),
    ("here*here", 0x10000),
    ("-(here)*(-there)", 0x10400),
    ("((((((((1))))))))", 1),
    ("-(-(-(-(-(-(-(-(1))))))))", 1),
    ("(1)+(2)+(3)+(4)+(5)+(6)+(7)+(8)+(9)+(10)", 55),
    ("(((((((1)+1)+1)+1)+1)+1)+1)*(((((((2)))))))", 14),
];

#[test]
fn expressions_have_their_values() {
    for (expression, expected) in VALUES {
        assert_eq!(value(expression), Ok(*expected), "{expression:?}");
    }
}

/// Expressions in which a value is at an end of 32 signed bits, and their values.
const JUST_FITTING: &[(&str, i32)] = &[
    ("2147483647", i32::MAX),
    ("0x7fffffff", i32::MAX),
    ("0x000000007fffffff", i32::MAX),
    ("-2147483647", -i32::MAX),
    ("-2147483647-1", i32::MIN),
    ("-1-2147483647", i32::MIN),
    ("-2147483647+-1", i32::MIN),
    ("(-2147483647-1)", i32::MIN),
    ("(-2147483647-1)*1", i32::MIN),
    ("-65536*32768", i32::MIN),
    ("65536*-32768", i32::MIN),
    ("-1073741824*2", i32::MIN),
    ("32768*65535+32767", i32::MAX),
    ("-2147483647-1+2147483647", -1),
    ("2147483647-2147483647", 0),
    ("0--2147483647", i32::MAX),
    ("46340*46340", 2_147_395_600),
    ("-46340*46341", -2_147_441_940),
];

/// At the ends of 32 signed bits: what just fits.
#[test]
fn values_at_the_ends_of_32_bits_fit() {
    for (expression, expected) in JUST_FITTING {
        assert_eq!(value(expression), Ok(*expected), "{expression:?}");
    }
}

/// Expressions in which a value is past 32 signed bits.
const TOO_FAR: &[&str] = &[
    "2147483648",
    "-2147483648",
    "0x80000000",
    "-0x80000000",
    "0-2147483648",
    "0*2147483648",
    "2147483648*0",
    "0xffffffff",
    "4294967295",
    "4294967296",
    "0x100000000",
    "18446744073709551616",
    "18446744073709551617",
    "0x10000000000000000",
    "0x10000000000000001",
    "340282366920938463463374607431768211456",
    "0x100000000000000000000000000000000000000000000000001",
    "2147483647+1",
    "2147483647+1-1",
    "1+2147483647-1",
    "2147483647--1",
    "-2147483647-2",
    "-2147483647-2+2",
    "-(-2147483647-1)",
    "-(-2147483647-1)-1",
    "(-2147483647-1)*-1",
    "-1*(-2147483647-1)",
    "(2147483647+1)*0",
    "0*(2147483647+1)",
    "65536*32768",
    "-65536*-32768",
    "65536*32768-1",
    "65536*65536*0",
    "-65536*32769",
    "46341*46341",
    "-46341*46341",
    "here*here*here*here",
    "1+2*(3-65536*65536)*0",
];

/// "All values, inner ones too, fit in 32 signed bits": a number as written, what a minus makes of
/// it, and every product and sum from the left.
#[test]
fn values_past_32_bits_are_refused_with_35() {
    for expression in TOO_FAR {
        assert_eq!(value(expression), Err(35), "{expression:?}");
    }
    assert_eq!(value("0*65536*65536"), Ok(0), "from the left, no value here is past them");
}

#[test]
fn a_ninth_parenthesis_is_refused_with_31() {
    let nested = |levels: usize| format!("{}1{}", "(".repeat(levels), ")".repeat(levels));
    for levels in 0..=8 {
        assert_eq!(value(&nested(levels)), Ok(1), "{levels}");
        assert_eq!(value(&format!("({}*2)", nested(levels))).is_ok(), levels < 8);
    }
    for levels in 9..30 {
        assert_eq!(value(&nested(levels)), Err(31), "{levels}");
        assert_eq!(value(&format!("-{}", nested(levels))), Err(31));
    }
    // Whatever else is wrong but the form, which has no limit.
    assert_eq!(value(&nested(9).replace('1', "nowhere")), Err(31));
    assert_eq!(value(&format!("2147483648*{}", nested(9))), Err(31));
    assert_eq!(value(&nested(9).replace('1', "--1")), Err(30));
    assert_eq!(value(&nested(9).replace('1', "")), Err(30));
    assert_eq!(value(&format!("({}", nested(9))), Err(30));
    assert_eq!(value(&format!("{})", nested(9))), Err(30));
    assert_eq!(value(&format!("{}+", nested(20))), Err(30));
}
