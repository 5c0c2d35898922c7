//! Lines: their form, and what they stand for.

use std::collections::HashMap;
use std::sync::LazyLock;

use super::expression::{is_label, Expression};
use super::labels::Labels;
use crate::isa::{encode, mnemonics, Halves, Instr};

/// A line of known form.
pub(super) struct Line<'t> {
    pub(super) label: Option<&'t [u8]>,
    pub(super) content: Content,
    /// The numbers of registers and SFRs, each at its operand's place.
    numbers: [u32; 3],
    /// The expression and its place. No line has two.
    expression: Option<(usize, Expression<'t>)>,
}

/// What a mnemonic stands for.
#[derive(Clone, Copy)]
pub(super) enum Content {
    /// An instruction; its own operands don't count.
    Instruction(Instr),
    Half,
    Word,
}

/// The form of an operand.
#[derive(Clone, Copy)]
enum Operand {
    /// r0 to r15.
    Register,
    /// sfr0 to sfr10.
    Sfr,
    /// sfr0 to sfr3: those that jsfr takes.
    JumpSfr,
    Expression,
}

/// Every mnemonic with its operands all 0.
static CONTENTS: LazyLock<HashMap<&[u8], Content>> = LazyLock::new(|| {
    let named = |instr: Instr| (instr.mnemonic().as_bytes(), Content::Instruction(instr));
    let data = [(&b"half"[..], Content::Half), (b"word", Content::Word)];
    mnemonics().into_iter().map(named).chain(data).collect()
});

impl<'t> Line<'t> {
    /// The line with this text, which is without its newline; none if its form is unknown.
    pub(super) fn read(text: &'t [u8]) -> Option<Line<'t>> {
        let mut fields = text.split(|&byte| byte == b'\t');
        let label = Some(fields.next()?).filter(|label| !label.is_empty());
        if !label.is_none_or(is_label) {
            return None;
        }
        let content = *CONTENTS.get(fields.next()?)?;
        let (mut numbers, mut expression) = ([0; 3], None);
        for (place, operand) in content.operands().iter().enumerate() {
            let field = fields.next()?;
            match operand {
                Operand::Register => numbers[place] = numbered(field, b"r", 15)?,
                Operand::Sfr => numbers[place] = numbered(field, b"sfr", 10)?,
                Operand::JumpSfr => numbers[place] = numbered(field, b"sfr", 3)?,
                Operand::Expression => expression = Some((place, Expression::read(field)?)),
            }
        }
        let line = Line { label, content, numbers, expression };
        fields.next().is_none().then_some(line)
    }

    pub(super) fn expression(&self) -> Option<&Expression<'t>> {
        self.expression.as_ref().map(|(_, expression)| expression)
    }

    /// The halves at an address; none if a value doesn't fit. Only for an expression that isn't too
    /// deep.
    pub(super) fn halves(&self, labels: &Labels, address: u32) -> Option<Halves> {
        let mut numbers = self.numbers;
        if let Some((place, expression)) = self.expression {
            numbers[place] = self.content.field(expression.value(labels)?, address)?;
        }
        match self.content {
            Content::Instruction(instr) => encode(&instr.with_operands(numbers)),
            Content::Half => u16::try_from(numbers[0]).ok().map(Halves::One),
            Content::Word => Some(Halves::Two((numbers[0] >> 16) as u16, numbers[0] as u16)),
        }
    }
}

impl Content {
    /// The number of bytes.
    pub(super) const fn size(self) -> usize {
        match self {
            Content::Instruction(instr) => instr.size() as usize,
            Content::Half => 2,
            Content::Word => 4,
        }
    }

    /// The operands in the order of the written form.
    const fn operands(self) -> &'static [Operand] {
        use Operand::{Expression, JumpSfr, Register, Sfr};
        let Content::Instruction(instr) = self else { return &[Expression] };
        match instr {
            Instr::Alu { .. }
            | Instr::MultShift { .. }
            | Instr::Compare { .. }
            | Instr::Conditional { .. } => &[Register, Register],
            Instr::Andi { .. }
            | Instr::Addi { .. }
            | Instr::Movi { .. }
            | Instr::MultShiftImmediate { .. }
            | Instr::CompareImmediate { .. }
            | Instr::ConditionalAddImmediate { .. }
            | Instr::Ldrpc { .. } => &[Register, Expression],
            Instr::Load { .. } | Instr::Store { .. } => &[Register, Expression, Register],
            Instr::Mfsfr { .. } => &[Register, Sfr],
            Instr::Mtsfr { .. } => &[Sfr, Register],
            Instr::Jr { .. } | Instr::Jrl { .. } => &[Register],
            Instr::Jsfr { .. } => &[JumpSfr],
            Instr::Swint { .. }
            | Instr::ShortJump { .. }
            | Instr::LongJump { .. }
            | Instr::Jl { .. } => &[Expression],
        }
    }
}

/// The number of a register or an SFR: its name, then a decimal up to `last` without leading zeros.
fn numbered(field: &[u8], name: &[u8], last: u32) -> Option<u32> {
    let number = match *field.strip_prefix(name)? {
        [digit @ b'0'..=b'9'] => digit - b'0',
        [b'1', digit @ b'0'..=b'9'] => 10 + digit - b'0',
        _ => return None,
    };
    Some(number.into()).filter(|&number| number <= last)
}
