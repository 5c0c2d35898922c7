//! The tables of marks: what an instruction marks, and what stops it.

use second::isa::{mnemonics, Instr};
use second::reply::Reply;
use second::state::psw;
use second::word::Width;

use crate::markdown::{page, rows};
use crate::rig::Rig;

/// Where the data lies that is loaded, and the base of loads and stores. A mark byte begins there.
const DATA: usize = 64;

/// The marks that instructions read and write, by the page's names.
#[derive(Clone, Copy, Debug, PartialEq)]
struct Marks {
    rd: bool,
    rb: bool,
    tf: bool,
    cy: bool,
    /// The four bytes from `DATA` on.
    data: [bool; 4],
}

impl Marks {
    /// Every way to mark registers and flags, with each byte of the data alone or none.
    fn all() -> impl Iterator<Item = Marks> {
        (0..16_u32).flat_map(|bits| {
            let on = move |bit: u32| bits >> bit & 1 == 1;
            (0..5).map(move |place| Marks {
                rd: on(0),
                rb: on(1),
                tf: on(2),
                cy: on(3),
                data: std::array::from_fn(|byte| byte == place),
            })
        })
    }

    /// Whether one of the sources in a cell of the page is marked.
    fn any(&self, sources: &str, bytes: usize) -> bool {
        sources.split(", ").any(|source| match source {
            "Rd" => self.rd,
            "Rb" => self.rb,
            "TF" => self.tf,
            "CY" => self.cy,
            "a byte loaded" => self.data[..bytes].contains(&true),
            "nothing" => false,
            _ => panic!("{source:?} is no source of marks"),
        })
    }

    /// Sets the marks of what a cell of the page names.
    fn set(&mut self, places: &str, bytes: usize, mark: bool) {
        for place in places.split(", ") {
            match place {
                "Rd" => self.rd = mark,
                "TF" => self.tf = mark,
                "CY" => self.cy = mark,
                "each byte stored" => self.data[..bytes].fill(mark),
                _ => panic!("{place:?} has no mark"),
            }
        }
    }
}

/// The case of an instruction, by the page's words.
fn case(instr: Instr, tf: bool) -> &'static str {
    match instr {
        Instr::Conditional { tf: wanted, .. }
        | Instr::ConditionalAddImmediate { tf: wanted, .. } => {
            if tf == wanted {
                "done"
            } else {
                "not done"
            }
        }
        Instr::Mfsfr { sfr, .. } | Instr::Mtsfr { sfr, .. } | Instr::Jsfr { sfr } => {
            if sfr == 0 {
                "of PSW"
            } else {
                "of another SFR"
            }
        }
        _ => "-",
    }
}

/// How many bytes a load or store moves.
fn bytes(instr: Instr) -> usize {
    match instr {
        Instr::Load { width, .. } | Instr::Store { width, .. } => width.bytes() as usize,
        Instr::Ldrpc { .. } => Width::Word.bytes() as usize,
        _ => 0,
    }
}

/// The rows of a table, the instructions of each one by one.
fn table<const N: usize>(columns: [&str; N]) -> Vec<(Vec<String>, [String; N])> {
    let split = |row: [String; N]| (row[0].split(' ').map(str::to_string).collect(), row);
    rows(&page("MANIK.md"), columns).into_iter().map(split).collect()
}

/// The row of an instruction in its case, if there is one.
fn row<const N: usize>(
    table: &[(Vec<String>, [String; N])],
    instr: Instr,
    tf: bool,
) -> Option<&[String; N]> {
    let case = case(instr, tf);
    let belongs = |(names, row): &&(Vec<String>, [String; N])| {
        names.iter().any(|name| name == instr.mnemonic()) && ["-", case].contains(&&row[1][..])
    };
    let mut found = table.iter().filter(belongs);
    let row = found.next().map(|(_, row)| row);
    assert!(found.next().is_none(), "{} {case} has one row", instr.mnemonic());
    row
}

/// Every mnemonic with r1 as Rd and r2 as Rb, at `DATA` where it reaches memory; with each SFR.
fn instructions() -> Vec<Instr> {
    let operands = |instr: Instr| match instr {
        Instr::Load { .. } | Instr::Store { .. } => vec![[1, 0, 2]],
        Instr::Ldrpc { .. } => vec![[1, DATA as u32 / 4, 0]],
        Instr::Mfsfr { .. } => (0..=10).map(|sfr| [1, sfr, 0]).collect(),
        Instr::Mtsfr { .. } => (0..=10).map(|sfr| [sfr, 2, 0]).collect(),
        Instr::Jsfr { .. } => (0..=3).map(|sfr| [sfr, 0, 0]).collect(),
        Instr::Jr { .. } | Instr::Jrl { .. } => vec![[2, 0, 0]],
        _ => vec![[1, 2, 0]],
    };
    let with = |instr: Instr| operands(instr).into_iter().map(move |all| instr.with_operands(all));
    mnemonics().into_iter().flat_map(with).collect()
}

/// One step of an instruction: the marks after it, or its stop. No other mark changes.
fn stepped(instr: Instr, before: Marks, tf: bool) -> Result<Marks, Reply> {
    let mut rig = Rig::with(instr);
    rig.state.registers[2].value = DATA as u32;
    rig.state.psw = if tf { psw::TF } else { 0 };
    (rig.state.registers[1].marked, rig.state.registers[2].marked) = (before.rd, before.rb);
    (rig.state.tf_marked, rig.state.cy_marked) = (before.tf, before.cy);
    for (bit, mark) in before.data.into_iter().enumerate() {
        rig.marks[DATA / 8] |= u8::from(mark) << bit;
    }
    rig.step(0)?;
    let data = std::array::from_fn(|bit| rig.marks[DATA / 8] & 1 << bit != 0);
    rig.marks[DATA / 8] &= 0xf0;
    assert!(rig.marks.iter().all(|&marks| marks == 0), "{instr:?} marks no other byte");
    let others = rig.state.registers.iter().enumerate().filter(|(n, _)| !(1..=2).contains(n));
    assert!(
        others.into_iter().all(|(_, other)| !other.marked),
        "{instr:?} marks no other register"
    );
    let [_, rd, rb, ..] = rig.state.registers.map(|register| register.marked);
    Ok(Marks { rd, rb, tf: rig.state.tf_marked, cy: rig.state.cy_marked, data })
}

#[test]
fn instructions_mark_and_stop_as_the_page_says() {
    let set = "Set exactly if one of these is marked, else cleared";
    let marking = table(["Instructions", "Case", "Marks of", set]);
    let stopping = table(["Instructions", "Case", "Stops if one of these is marked"]);
    for (instr, tf) in instructions().into_iter().flat_map(|instr| [(instr, false), (instr, true)])
    {
        let bytes = bytes(instr);
        for before in Marks::all() {
            let stops = row(&stopping, instr, tf).is_some_and(|row| before.any(&row[2], bytes));
            let mut after = before;
            if let Some([_, _, places, sources]) = row(&marking, instr, tf) {
                after.set(places, bytes, before.any(sources, bytes));
            }
            let expected = if stops { Err(Reply::OperandMarked) } else { Ok(after) };
            assert_eq!(stepped(instr, before, tf), expected, "{instr:?}, TF {tf}, {before:?}");
        }
    }
}

/// "xor of a marked register with itself stays marked": Rd may be Rb. A shift stops then.
#[test]
fn a_register_with_itself_stays_marked() {
    let either = |instr: &Instr| matches!(instr, Instr::Alu { .. } | Instr::MultShift { .. });
    for instr in mnemonics().into_iter().filter(either) {
        let mut rig = Rig::with(instr.with_operands([3, 3, 0]));
        rig.state.registers[3].marked = true;
        let shifts = ["lsl", "lsr", "asr"].contains(&instr.mnemonic());
        assert_eq!(rig.step(0).is_err(), shifts, "{instr:?}");
        assert!(rig.state.registers[3].marked, "{instr:?}");
    }
}
