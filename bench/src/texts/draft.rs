//! How a text is made: first what each line is, so that the addresses are known, then its operands.

use second::isa::{mnemonics, Instr};

use crate::random::Random;

/// As many as there may be.
const LABELS: usize = 256;

/// What a line is, but for its operands.
#[derive(Clone, Copy)]
enum Content {
    Instruction(Instr),
    Half,
    Word,
}

impl Content {
    fn name(self) -> &'static str {
        match self {
            Content::Instruction(instr) => instr.mnemonic(),
            Content::Half => "half",
            Content::Word => "word",
        }
    }

    fn size(self) -> usize {
        match self {
            Content::Instruction(instr) => instr.size() as usize,
            Content::Half => 2,
            Content::Word => 4,
        }
    }
}

/// The lines of a text, from address 0 on.
pub struct Draft {
    contents: Vec<Content>,
    /// The address of each line.
    addresses: Vec<usize>,
    /// The line of each label. The first line has one.
    labels: Vec<usize>,
}

impl Draft {
    pub fn new(lines: usize) -> Draft {
        let mut each: Vec<Content> = mnemonics().into_iter().map(Content::Instruction).collect();
        each.extend([Content::Half, Content::Word]);
        let mut random = Random(lines as u64);
        let contents: Vec<Content> = (0..lines).map(|_| each[random.below(each.len())]).collect();
        let mut next = 0;
        let mut address = |content: &Content| {
            next += content.size();
            next - content.size()
        };
        let addresses = contents.iter().map(&mut address).collect();
        let labels = (0..LABELS).map(|number| number * lines / LABELS).collect();
        Draft { contents, addresses, labels }
    }

    pub fn text(&self) -> String {
        let mut random = Random(1);
        (0..self.contents.len()).map(|line| self.line(&mut random, line)).collect()
    }

    fn line(&self, random: &mut Random, line: usize) -> String {
        let label = self.labels.binary_search(&line).map_or(String::new(), label);
        let content = self.contents[line];
        let operands = self.operands(random, line);
        format!("{label}\t{}\t{operands}\n", content.name())
    }

    /// The operands of a line, with an expression wherever there may be one.
    fn operands(&self, random: &mut Random, line: usize) -> String {
        let (one, other) = (random.below(16), random.below(16));
        let Content::Instruction(instr) = self.contents[line] else {
            return self.number(random, line, 0..65_536);
        };
        match instr {
            Instr::Andi { .. } => format!("r{one}\t{}", self.number(random, line, 0..256)),
            Instr::Addi { .. } | Instr::Movi { .. } => {
                format!("r{one}\t{}", self.number(random, line, -128..128))
            }
            Instr::MultShiftImmediate { .. } => {
                format!("r{one}\t{}", self.number(random, line, 0..16))
            }
            Instr::CompareImmediate { .. } | Instr::ConditionalAddImmediate { .. } => {
                format!("r{one}\t{}", self.number(random, line, -8..8))
            }
            // Multiples of 4 up to 12 fit for every size of an access.
            Instr::Load { .. } | Instr::Store { .. } => {
                format!("r{one}\t4*{}\tr{other}", random.below(4))
            }
            Instr::Ldrpc { .. } => format!("r{one}\t{}", self.near(random, line)),
            Instr::Swint { .. } => self.number(random, line, 0..16),
            Instr::ShortJump { .. } => self.target(random, line, self.label_before(line)),
            Instr::LongJump { .. } | Instr::Jl { .. } => {
                let number = random.below(LABELS);
                self.target(random, line, number)
            }
            Instr::Mfsfr { .. } => format!("r{one}\tsfr{}", other % 11),
            Instr::Mtsfr { .. } => format!("sfr{}\tr{one}", other % 11),
            Instr::Jsfr { .. } => format!("sfr{}", other % 4),
            Instr::Jr { .. } | Instr::Jrl { .. } => format!("r{one}"),
            _ => format!("r{one}\tr{other}"),
        }
    }

    /// The last label that is written by this line or before it.
    fn label_before(&self, line: usize) -> usize {
        self.labels.partition_point(|&place| place <= line) - 1
    }

    /// An expression whose value is in a range.
    fn number(&self, random: &mut Random, line: usize, range: std::ops::Range<i64>) -> String {
        let value = range.start + random.below((range.end - range.start) as usize) as i64;
        let (near, any) = (label(self.label_before(line)), label(random.below(LABELS)));
        let parts = random.below(7) as i64 + 1;
        let (quotient, rest) = (value.div_euclid(parts), value.rem_euclid(parts));
        match random.below(6) {
            0 => format!("{value}"),
            1 if value >= 0 => format!("0x{value:x}"),
            1 | 2 => format!("{quotient}*{parts}+{rest}"),
            3 => format!("{near}-({near}-({quotient}*{parts}))+{rest}"),
            4 => format!("(({value}+{any})*2-({any}+{any}))-({value})"),
            _ => format!("-(-({value}))"),
        }
    }

    /// A jump's target: a label, or an even address shortly behind it.
    fn target(&self, random: &mut Random, line: usize, number: usize) -> String {
        let name = label(number);
        match random.below(4) {
            0 | 1 => name,
            2 => format!("{name}+2*({}+1)", random.below(4)),
            _ => {
                let near = label(self.label_before(line));
                format!("({near}+{name})-{near}")
            }
        }
    }

    /// An address that `ldrpc` reaches from this line.
    fn near(&self, random: &mut Random, line: usize) -> String {
        let number = self.label_before(line);
        let from = self.addresses[line] / 4 * 4;
        let at = self.addresses[self.labels[number]];
        let words = random.below(200);
        let distance = from + 4 - at;
        format!("{}+{distance}+4*({words})", label(number))
    }
}

/// A label's name. They have two to eleven characters.
fn label(number: usize) -> String {
    format!("{}{number}", ["l", "loop", "handler", "longword"][number % 4])
}
