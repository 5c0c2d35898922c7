//! One instruction on state and memory (document 01, "Instructions" and "Marks").
//!
//! Every stop is found before anything changes, so a stopping step changes nothing.

use crate::cost;
use crate::isa::{data_address, decode, jump_target, needs_second};
use crate::isa::{AluOp, CompareImmediateOp, CompareOp, ConditionalOp, Instr, MultShiftOp, When};
use crate::marks;
use crate::reply::Reply;
use crate::state::{hwdbg, psw, sfr, Register, State};
use crate::word::{self, sign_extend, Width};

/// What an instruction asks of the rest of its step.
pub(crate) enum Effect {
    /// Nothing besides so many cycles.
    Cost(u32),
    /// It loaded or stored at this address, which the watchpoints are compared with.
    Data(u32),
    /// A half of it is outside memory, and nothing is done.
    FetchOutside,
    /// It would load or store at this address, outside memory, and does nothing but go on.
    DataOutside(u32),
    /// It is a swint with these four bits.
    Swint(u32),
    /// It wrote TIMER, and the write was accepted.
    TimerWritten,
}

/// Memory and its marks, a bit for each byte.
struct Memory<'m> {
    bytes: &'m mut [u8],
    marks: &'m mut [u8],
}

/// Does the instruction at the program counter, or stops and changes nothing.
#[inline]
pub(crate) fn instruction(
    state: &mut State,
    memory: &mut [u8],
    marks: &mut [u8],
) -> Result<Effect, Reply> {
    let mut memory = Memory { bytes: memory, marks };
    match fetch(state.pc, &memory) {
        Ok(instr) => execute(instr, state, &mut memory),
        Err(Unfetched::Outside) => Ok(Effect::FetchOutside),
        Err(Unfetched::Stops(reply)) => Err(reply),
    }
}

/// Why there is no instruction.
enum Unfetched {
    /// A half of it is outside memory.
    Outside,
    Stops(Reply),
}

/// Stop 12. Mostly it doesn't come, and the compiler is told so.
#[cold]
fn fetch_marked() -> Unfetched {
    Unfetched::Stops(Reply::FetchMarked)
}

/// The instruction at `pc`. "A program counter found odd inside a run answers 13, before all
/// these."
#[inline]
fn fetch(pc: u32, memory: &Memory) -> Result<Instr, Unfetched> {
    if pc & 1 != 0 {
        return Err(Unfetched::Stops(Reply::NoInstruction));
    }
    let first = memory.half(pc)?;
    // A half that needs a second one begins an instruction whatever that is, so stop 13 still
    // comes before what the second half brings.
    let second = if needs_second(first) { memory.half(pc.wrapping_add(2))? } else { 0 };
    decode(first, second).ok_or(Unfetched::Stops(Reply::NoInstruction))
}

/// Does one instruction, or stops and changes nothing.
#[inline]
fn execute(instr: Instr, state: &mut State, memory: &mut Memory) -> Result<Effect, Reply> {
    let mut next = state.pc.wrapping_add(instr.size());
    let mut effect = Effect::Cost(cost::ALU);
    match instr {
        Instr::Alu { op, rd, rb } => alu(state, op, rd, rb),
        Instr::Andi { rd, uimm8 } => state.change(rd, |value| value & uimm8),
        Instr::Addi { rd, simm8 } => state.change(rd, |value| value.wrapping_add(simm8)),
        Instr::Movi { rd, simm8 } => state.set(rd, simm8, false),
        Instr::MultShift { op, rd, rb } => effect = by_register(state, op, rd, rb)?,
        Instr::MultShiftImmediate { op, rd, uimm4 } => effect = by_immediate(state, op, rd, uimm4),
        Instr::Compare { op, rd, rb } => compare(state, op, rd, rb),
        Instr::CompareImmediate { op, rd, simm4 } => compare_immediate(state, op, rd, simm4),
        Instr::Conditional { tf, op, rd, rb } => conditional(state, tf, op, rd, rb),
        Instr::ConditionalAddImmediate { tf, rd, simm4 } => conditional_add(state, tf, rd, simm4),
        Instr::Load { width, rd, uimm4, rb } => {
            effect = load(state, memory, rd, state.unmarked(rb)?, uimm4, width);
        }
        Instr::Store { width, rd, uimm4, rb } => {
            effect = store(state, memory, rd, state.unmarked(rb)?, uimm4, width);
        }
        Instr::Ldrpc { rd, uimm8 } => {
            effect = load(state, memory, rd, state.pc, uimm8, Width::Word);
        }
        Instr::Mfsfr { rd, sfr } => effect = read_sfr(state, rd, sfr),
        Instr::Mtsfr { sfr, rb } => effect = write_sfr(state, sfr, state.unmarked(rb)?),
        Instr::Swint { code } => effect = Effect::Swint(code),
        Instr::Jr { rb } => effect = jump(&mut next, register_target(state.unmarked(rb)?)),
        Instr::Jrl { rb } => effect = link(state, &mut next, register_target(state.unmarked(rb)?)),
        Instr::Jsfr { sfr } => effect = jump_to_sfr(state, &mut next, sfr)?,
        Instr::ShortJump { when, displacement } | Instr::LongJump { when, displacement } => {
            effect = branch(state, &mut next, when, displacement)?;
        }
        Instr::Jl { displacement } => {
            effect = link(state, &mut next, jump_target(state.pc, displacement));
        }
    }
    state.pc = next;
    Ok(effect)
}

/// The twelve ALU instructions on two registers. Only the sums and differences touch PSW.
#[inline]
fn alu(state: &mut State, op: AluOp, rd: u32, rb: u32) {
    let (d, b) = (state.register(rd), state.register(rb));
    let either = d.marked | b.marked;
    let with_cy = either | state.cy_marked;
    match op {
        AluOp::Sub => state.set_with_cy(rd, word::sub(d.value, b.value, false), either),
        AluOp::Add => state.set_with_cy(rd, word::add(d.value, b.value, false), either),
        AluOp::Subc => state.set_with_cy(rd, word::sub(d.value, b.value, state.cy()), with_cy),
        AluOp::Addc => state.set_with_cy(rd, word::add(d.value, b.value, state.cy()), with_cy),
        AluOp::Mov => state.set(rd, b.value, b.marked),
        AluOp::And => state.set(rd, d.value & b.value, either),
        AluOp::Or => state.set(rd, d.value | b.value, either),
        // "xor of a register with itself stays marked."
        AluOp::Xor => state.set(rd, d.value ^ b.value, either),
        AluOp::Sxb => state.set(rd, sign_extend(b.value, 8), b.marked),
        AluOp::Xhw => state.set(rd, b.value.rotate_left(16), b.marked),
        AluOp::Sxh => state.set(rd, sign_extend(b.value, 16), b.marked),
        AluOp::Zxh => state.set(rd, b.value & 0xffff, b.marked),
    }
}

/// The multiply and the shifts by a register. "The amount now shows: a register shift with its
/// amount register marked becomes stop 14" (document 02, ticket 6).
#[inline]
fn by_register(state: &mut State, op: MultShiftOp, rd: u32, rb: u32) -> Result<Effect, Reply> {
    let (d, b) = (state.register(rd), state.register(rb));
    if b.marked && op != MultShiftOp::Mult {
        return Err(Reply::OperandMarked);
    }
    state.set(rd, mult_or_shift(op, d.value, b.value), d.marked | b.marked);
    Ok(Effect::Cost(cost::mult_shift(op, b.value)))
}

/// The multiply and the shifts by UIMM4.
#[inline]
fn by_immediate(state: &mut State, op: MultShiftOp, rd: u32, uimm4: u32) -> Effect {
    state.change(rd, |value| mult_or_shift(op, value, uimm4));
    Effect::Cost(cost::mult_shift(op, uimm4))
}

/// `x` multiplied or shifted by `y`.
#[inline]
fn mult_or_shift(op: MultShiftOp, x: u32, y: u32) -> u32 {
    match op {
        MultShiftOp::Lsl => word::lsl(x, y),
        MultShiftOp::Lsr => word::lsr(x, y),
        MultShiftOp::Asr => word::asr(x, y),
        MultShiftOp::Mult => word::mult(x, y),
    }
}

/// The compares of two registers.
#[inline]
fn compare(state: &mut State, op: CompareOp, rd: u32, rb: u32) {
    let (d, b) = (state.register(rd), state.register(rb));
    let (x, y) = (d.value, b.value);
    let tf = match op {
        CompareOp::Eq => x == y,
        CompareOp::Hs => x >= y,
        CompareOp::Ls => x <= y,
        CompareOp::Lt => word::less(x, y),
        CompareOp::Gt => word::less(y, x),
    };
    state.set_tf(tf, d.marked | b.marked);
}

/// The compares with SIMM4. Both are signed: Appendix B calls cmpgti's Rd unsigned, but the
/// guide's table decides.
#[inline]
fn compare_immediate(state: &mut State, op: CompareImmediateOp, rd: u32, simm4: u32) {
    let Register { value, marked } = state.register(rd);
    let tf = match op {
        CompareImmediateOp::Eq => value == simm4,
        CompareImmediateOp::Lt => word::less(value, simm4),
        CompareImmediateOp::Gt => word::less(simm4, value),
    };
    state.set_tf(tf, marked);
}

/// The conditional instructions on two registers.
#[inline]
fn conditional(state: &mut State, tf: bool, op: ConditionalOp, rd: u32, rb: u32) {
    let (d, b) = (state.register(rd), state.register(rb));
    let either = d.marked | b.marked;
    let result = match op {
        ConditionalOp::Mov => b,
        ConditionalOp::Sub => Register { value: d.value.wrapping_sub(b.value), marked: either },
        ConditionalOp::Add => Register { value: d.value.wrapping_add(b.value), marked: either },
    };
    state.set_if(tf, rd, result);
}

/// addif and addit.
#[inline]
fn conditional_add(state: &mut State, tf: bool, rd: u32, simm4: u32) {
    let Register { value, marked } = state.register(rd);
    state.set_if(tf, rd, Register { value: value.wrapping_add(simm4), marked });
}

/// Loads Rd from so many units behind a base.
#[inline]
fn load(
    state: &mut State,
    memory: &Memory,
    rd: u32,
    base: u32,
    units: u32,
    width: Width,
) -> Effect {
    let address = data_address(base, units, width);
    let Some(Register { value, marked }) = memory.load(address, width) else {
        return Effect::DataOutside(address);
    };
    state.set(rd, value, marked);
    Effect::Data(address)
}

/// Stores Rd so many units behind a base.
#[inline]
fn store(
    state: &State,
    memory: &mut Memory,
    rd: u32,
    base: u32,
    units: u32,
    width: Width,
) -> Effect {
    let address = data_address(base, units, width);
    if memory.store(address, width, state.register(rd)) {
        Effect::Data(address)
    } else {
        Effect::DataOutside(address)
    }
}

/// mfsfr. "mfsfr psw is marked if TF or CY is; other mfsfr results are not."
#[inline]
fn read_sfr(state: &mut State, rd: u32, number: u32) -> Effect {
    let marked = number == sfr::PSW && state.flag_marked();
    state.set(rd, state.sfr(number), marked);
    Effect::Cost(cost::SFR)
}

/// The bits that mtsfr psw keeps: 12 and 26 to 31. "mtsfr psw may now write bits 14 and 15"
/// (document 02, ticket 5).
const PSW_KEPT: u32 = psw::TR | psw::STATUS;

/// mtsfr. "Writes take effect at once."
#[inline]
fn write_sfr(state: &mut State, number: u32, value: u32) -> Effect {
    match number {
        sfr::PSW => {
            state.psw = state.psw & PSW_KEPT | value & !PSW_KEPT;
            (state.tf_marked, state.cy_marked) = (false, false);
        }
        sfr::RA => state.ra = value,
        sfr::IPC => state.ipc = value,
        sfr::TIMER => return write_timer(state, value),
        sfr::IBASE => state.ibase = value,
        sfr::USREG => state.usreg = value,
        sfr::HWDBG => {
            state.hwdbg = state.hwdbg & !hwdbg::ENABLES | value & hwdbg::ENABLES;
        }
        sfr::BP0 => state.bp0 = value,
        sfr::BP1 => state.bp1 = value,
        sfr::WP0 => state.wp0 = value,
        sfr::WP1 => state.wp1 = value,
        _ => panic!("SFR 11 and above are none"),
    }
    Effect::Cost(cost::SFR)
}

/// "Writing TIMER is ignored if IP is 1 and TI is 0; an accepted write clears pending and takes
/// the place of that step's fall."
#[inline]
fn write_timer(state: &mut State, value: u32) -> Effect {
    if state.psw & (psw::IP | psw::TI) == psw::IP {
        return Effect::Cost(cost::SFR);
    }
    state.timer = value;
    state.pending = false;
    Effect::TimerWritten
}

/// jsfr. On jsfr of IPC "BIP goes to IP, and BIP becomes 0" (document 02, ticket 3, and
/// the guide's interrupt chapter; document 01 and Appendix B only clear IP).
#[inline]
fn jump_to_sfr(state: &mut State, next: &mut u32, number: u32) -> Result<Effect, Reply> {
    if number == sfr::PSW && state.flag_marked() {
        return Err(Reply::OperandMarked);
    }
    if number == sfr::IPC {
        let in_progress = state.psw & psw::BIP != 0;
        state.psw &= !(psw::IP | psw::BIP);
        if in_progress {
            state.psw |= psw::IP;
        }
    }
    Ok(jump(next, register_target(state.sfr(number))))
}

/// "jl and jrl set RA to the program counter + 4", and go to their target.
#[inline]
fn link(state: &mut State, next: &mut u32, target: u32) -> Effect {
    state.ra = state.pc.wrapping_add(4);
    jump(next, target)
}

/// A jump that is taken.
#[inline]
const fn jump(next: &mut u32, target: u32) -> Effect {
    *next = target;
    Effect::Cost(cost::TAKEN)
}

/// "Register jumps, jsfr among them, drop bit 0."
#[inline]
const fn register_target(value: u32) -> u32 {
    value & !1
}

/// A relative jump, taken or not; a conditional one stops if TF is marked.
#[inline]
fn branch(state: &State, next: &mut u32, when: When, displacement: u32) -> Result<Effect, Reply> {
    let taken = match when {
        When::Always => true,
        _ if state.tf_marked => return Err(Reply::OperandMarked),
        When::False => !state.tf(),
        When::True => state.tf(),
    };
    if taken {
        Ok(jump(next, jump_target(state.pc, displacement)))
    } else {
        Ok(Effect::Cost(cost::NOT_TAKEN))
    }
}

/// Memory as the instructions are fetched from it, and as they read and write it.
impl Memory<'_> {
    /// Half an instruction.
    #[inline(always)]
    fn half(&self, address: u32) -> Result<u16, Unfetched> {
        let half = word::load(self.bytes, address, Width::Half).ok_or(Unfetched::Outside)?;
        if marks::any_marked(self.marks, address, Width::Half) {
            return Err(fetch_marked());
        }
        Ok(half as u16)
    }

    /// What is loaded from an aligned address: marked if any byte is. None if it is outside.
    #[inline]
    fn load(&self, address: u32, width: Width) -> Option<Register> {
        let value = word::load(self.bytes, address, width)?;
        Some(Register { value, marked: marks::any_marked(self.marks, address, width) })
    }

    /// Stores at an aligned address. "A stored byte takes the register's mark, so an unmarked
    /// store clears one." If it is outside, the answer is false and nothing changes.
    #[inline]
    fn store(&mut self, address: u32, width: Width, register: Register) -> bool {
        let inside = word::store(self.bytes, address, width, register.value);
        if inside {
            marks::set(self.marks, address, width, register.marked);
        }
        inside
    }
}

/// Registers and flags as the instructions read and write them.
impl State {
    #[inline]
    fn register(&self, number: u32) -> Register {
        self.registers[number as usize]
    }

    #[inline]
    fn set(&mut self, number: u32, value: u32, marked: bool) {
        self.registers[number as usize] = Register { value, marked };
    }

    /// The value of a register that must not be marked, else stop 14.
    #[inline]
    fn unmarked(&self, number: u32) -> Result<u32, Reply> {
        let register = self.register(number);
        if register.marked {
            return Err(Reply::OperandMarked);
        }
        Ok(register.value)
    }

    /// Rd from Rd alone: an immediate is unmarked.
    #[inline]
    fn change(&mut self, rd: u32, operation: impl FnOnce(u32) -> u32) {
        let register = self.register(rd);
        self.set(rd, operation(register.value), register.marked);
    }

    /// Rd and CY of a sum or difference.
    #[inline]
    fn set_with_cy(&mut self, rd: u32, (value, cy): (u32, bool), marked: bool) {
        self.set(rd, value, marked);
        self.psw = self.psw & !psw::CY | if cy { psw::CY } else { 0 };
        self.cy_marked = marked;
    }

    #[inline]
    fn set_tf(&mut self, tf: bool, marked: bool) {
        self.psw = self.psw & !psw::TF | if tf { psw::TF } else { 0 };
        self.tf_marked = marked;
    }

    /// Rd of a conditional instruction, which is done if TF is `tf`. "Under a marked TF \[it\]
    /// marks Rd; under an unmarked TF that says no, Rd keeps value and mark."
    #[inline]
    fn set_if(&mut self, tf: bool, rd: u32, result: Register) {
        let chosen = if self.tf() == tf { result } else { self.register(rd) };
        self.set(rd, chosen.value, chosen.marked | self.tf_marked);
    }

    /// Whether TF or CY is marked.
    #[inline]
    const fn flag_marked(&self) -> bool {
        self.tf_marked | self.cy_marked
    }
}
