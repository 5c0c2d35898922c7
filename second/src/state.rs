//! The state of the machine (document 01, "What the model has").

/// The bits of PSW, by the guide's table.
pub mod psw {
    /// Soft interrupt in progress.
    pub const SW: u32 = 1 << 0;
    /// External interrupt in progress.
    pub const EI: u32 = 1 << 1;
    /// Timer interrupt in progress.
    pub const TI: u32 = 1 << 2;
    /// Some interrupt in progress.
    pub const IP: u32 = 1 << 3;
    /// Enable timer interrupt.
    pub const TE: u32 = 1 << 4;
    /// Interrupt enable.
    pub const IE: u32 = 1 << 5;
    /// Backup of IP.
    pub const BIP: u32 = 1 << 6;
    /// True/false flag.
    pub const TF: u32 = 1 << 8;
    /// Carry flag.
    pub const CY: u32 = 1 << 9;
    /// Timer reload or underflow: counter mode, which isn't built. Clear in every state in form.
    pub const TR: u32 = 1 << 12;
    /// Data bus error.
    pub const DBER: u32 = 1 << 14;
    /// Instruction bus error.
    pub const IBER: u32 = 1 << 15;
    /// The lowest of bits 19:16, which hold the four bits of swint.
    pub const SWI_SHIFT: u32 = 16;
    /// Bits 19:16.
    pub const SWI: u32 = 0xf << SWI_SHIFT;
    /// The lowest of bits 25:20: bit 20+i enables line i.
    pub const ENABLE_SHIFT: u32 = 20;
    /// The lowest of bits 31:26: bit 26+i shows line i.
    pub const STATUS_SHIFT: u32 = 26;
    /// Bits 31:26.
    pub const STATUS: u32 = 0x3f << STATUS_SHIFT;
}

/// The bits of HWDBG, by the guide's table.
pub mod hwdbg {
    /// Breakpoints and watchpoints are available: read-only ones.
    pub const AVAILABLE: u32 = 0b11;
    /// Enable BP0.
    pub const BP0: u32 = 1 << 2;
    /// Enable BP1.
    pub const BP1: u32 = 1 << 3;
    /// Enable WP0.
    pub const WP0: u32 = 1 << 4;
    /// Enable WP1.
    pub const WP1: u32 = 1 << 5;
    /// All four enable bits.
    pub const ENABLES: u32 = BP0 | BP1 | WP0 | WP1;
    /// The lowest of bits 8:6, which show a hit.
    pub const HITS_SHIFT: u32 = 6;
    /// A breakpoint is hit.
    pub const BP_HIT: u32 = 1 << 6;
    /// WP0 is hit.
    pub const WP0_HIT: u32 = 1 << 7;
    /// WP1 is hit.
    pub const WP1_HIT: u32 = 1 << 8;
    /// All three hit bits.
    pub const HITS: u32 = BP_HIT | WP0_HIT | WP1_HIT;
}

/// The numbers of the special function registers.
pub mod sfr {
    pub const PSW: u32 = 0;
    pub const RA: u32 = 1;
    pub const IPC: u32 = 2;
    pub const TIMER: u32 = 3;
    pub const IBASE: u32 = 4;
    pub const USREG: u32 = 5;
    pub const HWDBG: u32 = 6;
    pub const BP0: u32 = 7;
    pub const BP1: u32 = 8;
    pub const WP0: u32 = 9;
    pub const WP1: u32 = 10;
}

/// A register of 32 bits with its mark.
#[derive(Clone, Copy, Debug, Default, PartialEq, Eq, Hash)]
pub struct Register {
    pub value: u32,
    pub marked: bool,
}

/// The whole state. PSW is one word with TF and CY at their bits; their marks stand beside it.
#[derive(Clone, Debug, PartialEq, Eq, Hash)]
pub struct State {
    /// r0 to r15.
    pub registers: [Register; 16],
    /// The program counter.
    pub pc: u32,
    pub psw: u32,
    pub tf_marked: bool,
    pub cy_marked: bool,
    pub ra: u32,
    pub ipc: u32,
    pub timer: u32,
    pub ibase: u32,
    pub usreg: u32,
    pub hwdbg: u32,
    pub bp0: u32,
    pub bp1: u32,
    pub wp0: u32,
    pub wp1: u32,
    /// Timer pending.
    pub pending: bool,
    /// "a cycle count modulo 2^32" (document 02, ticket 6). It is no SFR: no instruction reads it.
    pub cycles: u32,
}

impl State {
    /// "Fresh: all zero and unmarked, HWDBG 3."; the cycle count is "0 when fresh".
    pub const fn fresh() -> State {
        State {
            registers: [Register { value: 0, marked: false }; 16],
            pc: 0,
            psw: 0,
            tf_marked: false,
            cy_marked: false,
            ra: 0,
            ipc: 0,
            timer: 0,
            ibase: 0,
            usreg: 0,
            hwdbg: hwdbg::AVAILABLE,
            bp0: 0,
            bp1: 0,
            wp0: 0,
            wp1: 0,
            pending: false,
            cycles: 0,
        }
    }

    /// Whether the state is in form: the opposite of refusal 4.
    pub const fn in_form(&self) -> bool {
        let beside_enables_and_hits = self.hwdbg & !(hwdbg::ENABLES | hwdbg::HITS);
        self.pc & 1 == 0
            && self.psw & psw::TR == 0
            && beside_enables_and_hits == hwdbg::AVAILABLE
            && !(self.pending && self.timer != 0)
    }

    /// Whether TF is 1.
    pub const fn tf(&self) -> bool {
        self.psw & psw::TF != 0
    }

    /// Whether CY is 1.
    pub const fn cy(&self) -> bool {
        self.psw & psw::CY != 0
    }

    /// The SFR with this number, 0 to 10; the decoder lets no other through.
    pub const fn sfr(&self, number: u32) -> u32 {
        match number {
            sfr::PSW => self.psw,
            sfr::RA => self.ra,
            sfr::IPC => self.ipc,
            sfr::TIMER => self.timer,
            sfr::IBASE => self.ibase,
            sfr::USREG => self.usreg,
            sfr::HWDBG => self.hwdbg,
            sfr::BP0 => self.bp0,
            sfr::BP1 => self.bp1,
            sfr::WP0 => self.wp0,
            sfr::WP1 => self.wp1,
            _ => panic!("SFR 11 and above are none"),
        }
    }
}
