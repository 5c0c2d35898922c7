//! The vectors of words and instructions, as `docs/VECTORS.md` defines them.

/// The vectors of the listing.
pub mod listing;

use crate::isa::{decode, encode, mnemonics, Halves, Instr};
use crate::word::{self, Width};

/// The corner values V of `docs/VECTORS.md`, in its order.
const CORNERS: [u32; 48] = [
    0, 1, 2, 3, 4, 7, 8, 9, 10, 11, 12, 15, 16, 17, 31, 32, 33, 63, 64, 127, 128, 129, 255, 256,
    257, 511, 512, 513, 65535, 65536, 33554431, 33554432, 33554433, 67108864, 2147483647,
    2147483648, 2147483649, 4261412863, 4261412864, 4294966783, 4294966784, 4294967039, 4294967167,
    4294967168, 4294967287, 4294967288, 4294967294, 4294967295,
];

/// How many cases there were, and the digest of the numbers folded for them.
#[derive(Clone, Copy)]
struct Tally {
    cases: u64,
    digest: u64,
}

impl Tally {
    /// No case yet; a digest starts at 1.
    const EMPTY: Tally = Tally { cases: 0, digest: 1 };

    /// Counts one case and folds its numbers.
    fn count<T: Copy + Into<u64>>(&mut self, numbers: &[T]) {
        self.cases += 1;
        for &number in numbers {
            self.digest = (self.digest * 1_000_003 + number.into()) % 4_294_967_291;
        }
    }
}

/// The second halves that follow a first half, in the page's order.
fn second_halves(first: u16) -> [u16; 6] {
    let mixed = first.wrapping_mul(40503).wrapping_add(12345);
    [0, 1, 32767, 32768, 65535, mixed]
}

/// The operands as numbers: "those that it lacks count as 0".
fn operand_numbers(instr: Instr) -> [u32; 3] {
    instr.operands().map(|operand| operand.unwrap_or(0))
}

/// Bits as three numbers: how many halves, the first, the second; 0 where there is none.
fn halves_numbers(halves: Option<Halves>) -> [u32; 3] {
    match halves {
        None => [0, 0, 0],
        Some(Halves::One(first)) => [1, first.into(), 0],
        Some(Halves::Two(first, second)) => [2, first.into(), second.into()],
    }
}

/// The tallies of decoding: one for each of the mnemonics, and that of the bits which are none.
fn decoding(mnemonics: &[Instr]) -> (Vec<Tally>, Tally) {
    let mut tallies = vec![Tally::EMPTY; mnemonics.len()];
    let mut none = Tally::EMPTY;
    for first in 0..=u16::MAX {
        for second in second_halves(first) {
            let pair = [first.into(), second.into()];
            match decode(first, second) {
                Some(instr) => {
                    let mnemonic = instr.with_operands([0; 3]);
                    let index = mnemonics.iter().position(|&each| each == mnemonic);
                    let [a, b, c] = operand_numbers(instr);
                    let [count, one, two] = halves_numbers(encode(&instr));
                    tallies[index.expect("every mnemonic is listed")].count(&[
                        pair[0],
                        pair[1],
                        instr.size(),
                        a,
                        b,
                        c,
                        count,
                        one,
                        two,
                    ]);
                }
                None => none.count(&pair),
            }
        }
    }
    (tallies, none)
}

/// What encoding one mnemonic over V gave.
struct Encoding {
    with_bits: u64,
    tally: Tally,
}

/// Encodes a mnemonic with each operand that it has running over V, and the others 0.
fn encoding(mnemonic: Instr) -> Encoding {
    let [a_values, b_values, c_values] =
        mnemonic.operands().map(|operand| if operand.is_some() { &CORNERS[..] } else { &[0] });
    let mut result = Encoding { with_bits: 0, tally: Tally::EMPTY };
    for &a in a_values {
        for &b in b_values {
            for &c in c_values {
                let halves = encode(&mnemonic.with_operands([a, b, c]));
                let [count, one, two] = halves_numbers(halves);
                result.with_bits += u64::from(halves.is_some());
                result.tally.count(&[a, b, c, count, one, two]);
            }
        }
    }
    result
}

/// The lines of the instructions, and that of the bits which are none.
fn instruction_lines() -> String {
    let mnemonics = mnemonics();
    let (tallies, none) = decoding(&mnemonics);
    let mut lines = String::new();
    for (mnemonic, decoded) in mnemonics.iter().zip(tallies) {
        let Encoding { with_bits, tally } = encoding(*mnemonic);
        let name = mnemonic.mnemonic();
        let refused = tally.cases - with_bits;
        let (decoded, decoding_digest) = (decoded.cases, decoded.digest);
        let encoding_digest = tally.digest;
        lines += &format!(
            "{name}\t{decoded}\t{decoding_digest}\t{with_bits}\t{refused}\t{encoding_digest}\n"
        );
    }
    lines + &format!("none\t{}\t{}\n", none.cases, none.digest)
}

/// All pairs of corner values, the first one slowest.
fn pairs() -> impl Iterator<Item = (u32, u32)> {
    CORNERS.into_iter().flat_map(|x| CORNERS.into_iter().map(move |y| (x, y)))
}

/// The results of an operation with a carry: for each pair and carry the value, then the carry.
fn with_carry(operation: fn(u32, u32, bool) -> (u32, bool)) -> impl Iterator<Item = u32> {
    pairs().flat_map(move |(x, y)| {
        [false, true].into_iter().flat_map(move |carry_in| {
            let (value, carry_out) = operation(x, y, carry_in);
            [value, carry_out.into()]
        })
    })
}

/// The results of sign extending each corner value from each width.
fn extensions() -> impl Iterator<Item = u32> {
    CORNERS.into_iter().flat_map(|x| (1..=32).map(move |bits| word::sign_extend(x, bits)))
}

/// The 16 bytes that are loaded from and stored into.
fn fresh_bytes() -> [u8; 16] {
    std::array::from_fn(|i| (i * 73 + 41) as u8)
}

/// Each width, and each address at which all bytes lie inside the 16.
fn accesses() -> impl Iterator<Item = (Width, u32)> {
    Width::ALL
        .into_iter()
        .flat_map(|width| (0..=16 - width.bytes()).map(move |address| (width, address)))
}

/// The results of all loads.
fn loads() -> impl Iterator<Item = u32> {
    accesses().map(|(width, address)| {
        word::load(&fresh_bytes(), address, width).expect("the access lies inside")
    })
}

/// The bytes after each store.
fn stores() -> impl Iterator<Item = u32> {
    CORNERS.into_iter().flat_map(|x| {
        accesses().flat_map(move |(width, address)| {
            let mut bytes = fresh_bytes();
            assert!(word::store(&mut bytes, address, width, x), "the access lies inside");
            bytes.map(u32::from)
        })
    })
}

/// The line of one operation on words.
fn word_line(name: &str, results: impl Iterator<Item = u32>) -> String {
    let mut tally = Tally::EMPTY;
    results.for_each(|result| tally.count(&[result]));
    format!("word\t{name}\t{}\t{}\n", tally.cases, tally.digest)
}

/// The lines of the words.
fn word_lines() -> String {
    [
        word_line("add", with_carry(word::add)),
        word_line("sub", with_carry(word::sub)),
        word_line("mult", pairs().map(|(x, y)| word::mult(x, y))),
        word_line("lsl", pairs().map(|(x, y)| word::lsl(x, y))),
        word_line("lsr", pairs().map(|(x, y)| word::lsr(x, y))),
        word_line("asr", pairs().map(|(x, y)| word::asr(x, y))),
        word_line("less", pairs().map(|(x, y)| word::less(x, y).into())),
        word_line("extend", extensions()),
        word_line("load", loads()),
        word_line("store", stores()),
    ]
    .concat()
}

/// All lines of `docs/VECTORS.md` but those of the listing.
pub fn vectors() -> String {
    instruction_lines() + &word_lines()
}
