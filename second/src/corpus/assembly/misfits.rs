//! Expressions with values at the edges of 32 signed bits and past them, and with unknown labels.

use crate::corpus::random::Generator;

const MAX: i64 = i32::MAX as i64;

impl Generator {
    /// An expression that goes on with a name, which is hardly a label. Its value stays.
    pub(super) fn with_unknown_name(&mut self, text: String) -> String {
        let name = self.any_name();
        match self.below(5) {
            0 => format!("{text}+0*{name}"),
            1 => format!("{text}+{name}-{name}"),
            2 => format!("{name}*0+{text}"),
            3 => format!("{text}-(-{name})*-(0)"),
            _ => name,
        }
    }

    /// An expression in which a value doesn't fit, or just fits. Its own value stays, if all fit.
    pub(super) fn with_inner_misfit(&mut self, text: String) -> String {
        let zero = match self.below(6) {
            0 | 1 => self.sum_at_an_edge(),
            2 => self.product_at_an_edge(),
            3 => self.minus_at_an_edge(),
            4 => format!("0*{}", self.number_at_an_edge()),
            _ => format!("({})*0", self.pick(&AT_THE_EDGES)),
        };
        // In front of the others, behind them, or apart from them in a parenthesis.
        match self.below(4) {
            0 => format!("{zero}+{text}"),
            1 => format!("{text}+{zero}"),
            2 => format!("{text}-({zero})"),
            _ => format!("{text}+({zero})"),
        }
    }

    /// A sum that comes to an edge, or one or two past it, and back to 0.
    fn sum_at_an_edge(&mut self) -> String {
        let past = self.pick(&[0, 0, 1, 1, 2]);
        let first = i64::from(self.word() >> 1);
        let second = MAX - first + past;
        match self.below(4) {
            0 => format!("{first}+{second}-{MAX}-{past}"),
            1 => format!("{first}--{second}-{MAX}-{past}"),
            2 => format!("-{first}-{second}-1+{MAX}+{past}+1"),
            _ => format!("-{first}+-{second}-1+{MAX}+{past}+1"),
        }
    }

    /// A product at an edge or just past it, then times 0.
    fn product_at_an_edge(&mut self) -> String {
        let bits = self.pick(&[2, 8, 16, 24]);
        let first = 2 + i64::from(self.below(1 << bits));
        let second = MAX / first + self.pick(&[0, 1]);
        let [first, second] = [first, second].map(|factor| self.pick(&[factor, -factor]));
        let third = self.pick(&["", "*1", "*-1"]);
        match self.below(3) {
            0 => format!("({first}*{second}{third})*0"),
            _ => format!("{first}*{second}{third}*0"),
        }
    }

    /// A minus before the lowest number, or before one that isn't quite so low; then times 0.
    fn minus_at_an_edge(&mut self) -> String {
        let low = self.pick(&["-2147483647-1", "-2147483647-1+1", "-2147483647", "65536*-32768"]);
        match self.below(3) {
            0 => format!("-({low})*0"),
            1 => format!("0*-({low})"),
            _ => format!("({low})*-1*0"),
        }
    }

    /// A number at an edge or past it, with a minus or without, or a long one.
    fn number_at_an_edge(&mut self) -> String {
        let past = self.pick(&[0, 1, 1, 2]);
        let number = match self.below(5) {
            0 => (MAX + past).to_string(),
            1 => format!("{:#x}", MAX + past),
            2 => format!("0x{}{:x}", "0".repeat(self.below(30) as usize), MAX + past),
            3 => ((1_i128 << self.pick(&[32, 33, 63, 64])) + i128::from(past) - 1).to_string(),
            _ => self.long_number(),
        };
        self.pick(&["", "-"]).to_string() + &number
    }

    /// A number with up to forty digits. After many zeros it may still fit.
    fn long_number(&mut self) -> String {
        let (first, count) = (self.below(9) + 1, self.pick(&[8, 9, 10, 11, 19, 20, 21, 39]));
        let decimals: String = (0..count).map(|_| self.below(10).to_string()).collect();
        match self.below(3) {
            0 => format!("{first}{decimals}"),
            1 => format!("0x{first}{decimals}"),
            _ => format!("0x{}{first}{}", "0".repeat(count), &decimals[..7]),
        }
    }
}

/// Expressions whose values, or values inside, are at an edge of 32 signed bits, or past it.
const AT_THE_EDGES: [&str; 36] = [
    "2147483647",
    "2147483648",
    "-2147483647",
    "-2147483648",
    "-2147483647-1",
    "-2147483647-2",
    "0-2147483648",
    "0x7fffffff",
    "0x80000000",
    "-0x80000000",
    "-0x7fffffff-1",
    "0xffffffff",
    "0x100000000",
    "4294967295",
    "4294967296",
    "-4294967297",
    "18446744073709551616",
    "0x10000000000000000",
    "2147483647+1-1",
    "1+2147483647-1",
    "2147483647-1+1",
    "-2147483647-2+1",
    "-2147483647+-1",
    "-2147483647+-2",
    "65536*32768",
    "-65536*32768",
    "65536*-32768-1",
    "65536*65536*0",
    "0*65536*65536",
    "32768*65535+32768",
    "46340*46340",
    "-46341*46341",
    "-(-2147483647-1)",
    "(-2147483647-1)*-1",
    "-1*(-2147483647-1)",
    "(-2147483647-1)*1",
];
