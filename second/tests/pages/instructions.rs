//! The tables of instructions: bits, operands, ranges and flags; and the listing.

use second::isa::{data_address, decode, encode, jump_target, mnemonics, Halves, Instr};
use second::listing::line_at;
use second::state::psw;
use second::word::{sign_extend, Width};

use crate::generator::Generator;
use crate::markdown::{blocks, page, rows};
use crate::rig::{instr, Rig};

/// A row of the page's tables.
struct Row {
    mnemonic: String,
    /// The instruction with this mnemonic and all operands 0.
    zeroed: Instr,
    /// A 0, a 1 or a field's letter for each bit, the highest first: 16 or 32 of them.
    bits: Vec<char>,
    /// The bits that are 0 or 1, and what they are.
    mask: u32,
    fixed: u32,
    /// As the page writes them, in their order.
    operands: Vec<String>,
    /// The least and the greatest value of each field, in the order of the operands.
    ranges: Vec<(i64, i64)>,
    flags: String,
}

/// The letter of the field that an operand of the page shows.
fn letter(operand: &str) -> char {
    match operand {
        "Rd" => 'd',
        "Rb" => 'b',
        _ => operand.chars().last().expect("an operand"),
    }
}

/// The range of a field: that of a register, or the one that a cell like `u 0 to 15` names.
fn range(letter: char, cell: &str) -> (i64, i64) {
    if matches!(letter, 'd' | 'b') {
        return (0, 15);
    }
    let words: Vec<&str> = cell.split(' ').collect();
    let [name, least, "to", greatest] = words[..] else { panic!("{cell:?} is no range") };
    assert_eq!(name, letter.to_string(), "the range of {letter}");
    let number = |text: &str| text.parse().expect("a number");
    (number(least), number(greatest))
}

impl Row {
    fn read([mnemonic, bits, operands, ranges, _, flags]: [String; 6]) -> Row {
        let bits: Vec<char> = bits.chars().filter(|&bit| bit != ' ').collect();
        assert!(matches!(bits.len(), 16 | 32), "{mnemonic} has one half or two");
        let operands: Vec<String> = operands.split(", ").map(str::to_string).collect();
        let letters: Vec<char> = operands.iter().map(|operand| letter(operand)).collect();
        let known = |bit: &char| matches!(bit, '0' | '1') || letters.contains(bit);
        assert!(bits.iter().all(known), "{mnemonic} shows every field");
        let shown = letters.iter().all(|letter| bits.contains(letter));
        assert!(shown, "{mnemonic} has a field for every operand");
        let number = |one: fn(char) -> bool| {
            bits.iter().fold(0, |number, &bit| number << 1 | u32::from(one(bit)))
        };
        let (mask, fixed) = (number(|bit| matches!(bit, '0' | '1')), number(|bit| bit == '1'));
        let ranges = letters.iter().map(|&letter| range(letter, &ranges)).collect();
        let zeroed = instr(&mnemonic, [0; 3]);
        Row { mnemonic, zeroed, bits, mask, fixed, operands, ranges, flags }
    }

    /// The bits of the row's size.
    fn word(&self, first: u16, second: u16) -> u32 {
        match self.bits.len() {
            16 => first.into(),
            _ => u32::from(first) << 16 | u32::from(second),
        }
    }

    /// The value of a field.
    fn field(&self, letter: char, word: u32) -> i64 {
        let (mut value, mut width) = (0, 0);
        for (place, _) in self.bits.iter().rev().enumerate().filter(|(_, &bit)| bit == letter) {
            value |= (word >> place & 1) << width;
            width += 1;
        }
        match letter {
            's' => (sign_extend(value, width) as i32).into(),
            _ => value.into(),
        }
    }

    /// The values of the operands' fields.
    fn values(&self, first: u16, second: u16) -> Vec<i64> {
        let word = self.word(first, second);
        self.operands.iter().map(|operand| self.field(letter(operand), word)).collect()
    }

    /// Whether these halves are the row's instruction.
    fn covers(&self, first: u16, second: u16) -> bool {
        let in_range = |(value, &(least, greatest)): (i64, _)| (least..=greatest).contains(&value);
        self.word(first, second) & self.mask == self.fixed
            && self.values(first, second).into_iter().zip(&self.ranges).all(in_range)
    }

    /// The row's instruction with these values in its fields.
    fn instr(&self, values: &[i64]) -> Instr {
        let value = |place: usize| values.get(place).map_or(0, |&value| value as u32);
        self.zeroed.with_operands([value(0), value(1), value(2)])
    }
}

/// All rows of the page.
fn table() -> Vec<Row> {
    let columns = ["Mnemonic", "Bits", "Operands", "Ranges", "Effect", "Flags"];
    rows(&page("MANIK.md"), columns).into_iter().map(Row::read).collect()
}

#[test]
fn the_mnemonics_are_those_of_the_page() {
    let mut found: Vec<String> = table().into_iter().map(|row| row.mnemonic).collect();
    let mut expected: Vec<&str> = mnemonics().iter().map(|instr| instr.mnemonic()).collect();
    found.sort();
    expected.sort();
    assert_eq!(found, expected);
}

/// Second halves at the ends of their range and around its middle.
const SECONDS: [u16; 8] = [0, 1, 0x00ff, 0x5a5a, 0x7fff, 0x8000, 0xfffe, 0xffff];

#[test]
fn every_first_half_is_covered_by_its_row_alone() {
    let table = table();
    for first in 0..=u16::MAX {
        for second in SECONDS {
            let covering: Vec<&Row> =
                table.iter().filter(|row| row.covers(first, second)).collect();
            let names: Vec<&str> = covering.iter().map(|row| &row.mnemonic[..]).collect();
            let found = decode(first, second);
            let expected: Vec<&str> = found.iter().map(|instr| instr.mnemonic()).collect();
            assert_eq!(names, expected, "{first:04x} {second:04x}");
            if let (Some(instr), [row]) = (found, &covering[..]) {
                let bytes = row.bits.len() / 8;
                assert_eq!(bytes, instr.size() as usize, "{first:04x} {second:04x}");
                assert_eq!(row.instr(&row.values(first, second)), instr, "{}", row.mnemonic);
            }
        }
    }
}

#[test]
fn operands_have_the_ranges_of_the_page() {
    for row in table() {
        let least: Vec<i64> = row.ranges.iter().map(|range| range.0).collect();
        for (place, &(first, last)) in row.ranges.iter().enumerate() {
            for (value, fits) in
                [(first - 1, false), (first, true), (last, true), (last + 1, false)]
            {
                let mut values = least.clone();
                values[place] = value;
                let covered = match encode(&row.instr(&values)) {
                    None => false,
                    Some(Halves::One(first)) => row.covers(first, 0),
                    Some(Halves::Two(first, second)) => row.covers(first, second),
                };
                assert_eq!(covered, fits, "{} {values:?}", row.mnemonic);
            }
        }
    }
}

#[test]
fn offsets_and_displacements_are_scaled_as_the_page_says() {
    for row in table() {
        let scaled = match row.zeroed {
            Instr::Load { width, .. } | Instr::Store { width, .. } => match width {
                Width::Byte => "u",
                Width::Half => "2u",
                Width::Word => "4u",
            },
            Instr::Ldrpc { .. } => "pc+4u",
            Instr::ShortJump { .. } | Instr::LongJump { .. } | Instr::Jl { .. } => "pc+2s",
            _ => continue,
        };
        assert!(row.operands.contains(&scaled.into()), "{} {scaled}", row.mnemonic);
    }
}

/// The halves that a cell like `0x1200 to 0x12ff, last digit b to f` names.
fn halves(cell: &str) -> impl Iterator<Item = u16> {
    let number = |text: &str| u16::from_str_radix(text, 16).expect("a hex number");
    let range = |text: &str| {
        let (least, greatest) = text.split_once(" to ").expect("a range");
        number(least)..=number(greatest)
    };
    let bare = cell.replace("0x", "");
    let (halves, digits) = bare.split_once(", last digit ").unwrap_or((&bare, "0 to f"));
    let digits = range(digits);
    range(halves).filter(move |half| digits.contains(&(half & 0xf)))
}

#[test]
fn bits_that_are_no_instruction_are_named_once() {
    let none = rows(&page("MANIK.md"), ["First halves", "Why"]);
    let mut named: Vec<u16> = none.iter().flat_map(|[cell, _]| halves(cell)).collect();
    named.sort();
    let expected: Vec<u16> = (0..=u16::MAX).filter(|&first| decode(first, 0).is_none()).collect();
    assert_eq!(named, expected);
}

/// The flags that one instruction of a row changes, with other operands and registers each time.
fn flags_changed(row: &Row, generator: &mut Generator) -> u32 {
    let values: Vec<i64> = row
        .ranges
        .iter()
        .map(|(least, greatest)| least + i64::from(generator.word()) % (greatest - least + 1))
        .collect();
    let mut rig = Rig::with(row.instr(&values));
    for register in &mut rig.state.registers {
        // Some are small, so that they are addresses inside memory and often equal.
        let bits = [32, 6][generator.word() as usize % 2];
        register.value = generator.word() >> (32 - bits);
    }
    let flags = psw::TF | psw::CY;
    let before = generator.word() & flags;
    rig.state.psw = before;
    match rig.step(0) {
        Ok(_) => (rig.state.psw ^ before) & flags,
        Err(_) => 0,
    }
}

#[test]
fn flags_change_as_the_page_says() {
    let mut generator = Generator::new(1);
    for row in table() {
        let changed = (0..2000).fold(0, |all, _| all | flags_changed(&row, &mut generator));
        let named = [("CY", psw::CY), ("TF", psw::TF)].into_iter();
        let named = named.filter(|(name, _)| row.flags.contains(name)).map(|(_, bit)| bit);
        assert_eq!(changed, named.sum(), "{}: {}", row.mnemonic, row.flags);
    }
}

/// An operand in the written form.
fn written(operand: &str, value: i64, address: u32) -> String {
    let number = match operand {
        "Rd" | "Rb" => return format!("r{value}"),
        "sfrn" => return format!("sfr{value}"),
        "pc+2s" => (jump_target(address, value as u32) as i32).into(),
        "pc+4u" => (data_address(address, value as u32, Width::Word) as i32).into(),
        "4u" => 4 * value,
        "2u" => 2 * value,
        "u" | "s" => value,
        _ => panic!("{operand:?} is no operand"),
    };
    number.to_string()
}

/// The line of a listing, and the number of bytes that it lists.
fn line(table: &[Row], address: u32, first: u16, second: u16) -> (String, u32) {
    let Some(row) = table.iter().find(|row| row.covers(first, second)) else {
        return (format!("{address:08x}\t{first:04x}\thalf\t0x{first:04x}"), 2);
    };
    let digits = row.bits.len() / 4;
    let bits = row.word(first, second);
    let mut line = format!("{address:08x}\t{bits:0digits$x}\t{}", row.mnemonic);
    for (operand, value) in row.operands.iter().zip(row.values(first, second)) {
        line += &format!("\t{}", written(operand, value, address));
    }
    (line, digits as u32 / 2)
}

#[test]
fn the_listing_is_in_the_written_form() {
    let table = table();
    for block in blocks(&page("MANIK.md"), "listing") {
        let mut next = u32::from_str_radix(&block[..8], 16).expect("an address");
        for shown in block.lines() {
            let bits = shown.split('\t').nth(1).expect("the bits");
            let half = |digits: &str| u16::from_str_radix(digits, 16).expect("a half");
            let second = bits.get(4..8).map_or(0, half);
            let (line, bytes) = line(&table, next, half(&bits[..4]), second);
            assert_eq!(shown, line);
            next += bytes;
        }
    }
}

/// Every first half with some second halves, at the first address of an image, at the last, and in
/// between.
#[test]
fn the_listing_of_this_program_is_made_of_the_page() {
    let (table, mut image) = (table(), vec![0; 65_536]);
    for first in 0..=u16::MAX {
        let place = usize::from(first);
        let seconds = if decode(first, 0).is_some_and(|instr| instr.size() == 4) {
            &SECONDS[..]
        } else {
            &SECONDS[place % 8..=place % 8]
        };
        for &second in seconds {
            let at = [0, 2, place / 2 * 2, 65_530, 65_532][(place + usize::from(second)) % 5];
            let at = at.min(65_532);
            image[at..at + 2].copy_from_slice(&first.to_be_bytes());
            image[at + 2..at + 4].copy_from_slice(&second.to_be_bytes());
            let (expected, bytes) = line(&table, at as u32, first, second);
            let (shown, next) = line_at(&image, at, 65_536);
            assert_eq!(shown.as_str(), expected + "\n");
            assert_eq!(next, at + bytes as usize);
        }
    }
}
