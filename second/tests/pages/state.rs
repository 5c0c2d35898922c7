//! Bits, SFRs, replies and entries.

use second::isa::Instr;
use second::reply::Reply;
use second::state::{hwdbg, psw, sfr, Register, State};
use second::step::{Access, Entry};

use crate::markdown::{page, rows};
use crate::rig::{instr, Rig};

/// A row of a table of bits.
struct Bits {
    mask: u32,
    name: String,
    /// Whether mtsfr writes them.
    written: bool,
}

/// The lowest and the highest bit of a cell like `7` or `19:16`.
fn span(cell: &str) -> (u32, u32) {
    let (high, low) = cell.split_once(':').unwrap_or((cell, cell));
    let number = |text: &str| text.parse().expect("a bit's number");
    (number(low), number(high))
}

/// The rows below a heading of the page. They name each of the 32 bits once, the lowest first.
fn bits(heading: &str) -> Vec<Bits> {
    let page = page("MANIK.md");
    let (_, rest) = page.split_once(&format!("\n## {heading}\n")).expect("the heading");
    let section = rest.split("\n## ").next().expect("a section");
    let columns = ["Bit", "Name", "Meaning", "Changed by, besides mtsfr", "mtsfr"];
    let mut next = 0;
    let rows = rows(section, columns).into_iter().map(|[bit, name, _, _, mtsfr]| {
        let (low, high) = span(&bit);
        assert_eq!(low, next, "{name}");
        next = high + 1;
        assert!(["written", "kept"].contains(&&mtsfr[..]), "{mtsfr:?} of {name}");
        let mask = (low..=high).map(|bit| 1 << bit).sum();
        Bits { mask, name, written: mtsfr == "written" }
    });
    let rows = rows.collect();
    assert_eq!(next, 32, "every bit of {heading}");
    rows
}

/// The bits that mtsfr writes.
fn written(rows: &[Bits]) -> u32 {
    rows.iter().filter(|row| row.written).map(|row| row.mask).sum()
}

/// The rows with these names have these bits.
fn assert_named(rows: &[Bits], names: &[(&str, u32)]) {
    for &(name, mask) in names {
        let row = rows.iter().find(|row| row.name == name);
        assert_eq!(row.map(|row| row.mask), Some(mask), "{name}");
    }
}

/// An SFR after mtsfr of r1 with this value, from a state with nothing to enter.
fn after_write(number: u32, before: State, value: u32) -> u32 {
    let mut rig = Rig::with(instr("mtsfr", [number, 1, 0]));
    rig.state = State { bp0: 2, bp1: 2, ..before };
    rig.state.registers[1].value = value;
    rig.step(0).expect("mtsfr is done");
    rig.state.sfr(number)
}

#[test]
fn psw_has_the_bits_of_the_page() {
    let rows = bits("PSW by bit");
    let names = [
        ("SW", psw::SW),
        ("EI", psw::EI),
        ("TI", psw::TI),
        ("IP", psw::IP),
        ("TE", psw::TE),
        ("IE", psw::IE),
        ("BIP", psw::BIP),
        ("TF", psw::TF),
        ("CY", psw::CY),
        ("TR, TU", psw::TR),
        ("DBER", psw::DBER),
        ("IBER", psw::IBER),
        ("SWI", psw::SWI),
        ("EI5 to EI0", 0x3f << psw::ENABLE_SHIFT),
        ("ES5 to ES0", psw::STATUS),
    ];
    assert_named(&rows, &names);
    assert_eq!(after_write(sfr::PSW, State::fresh(), u32::MAX), written(&rows));
    // All bits set that a state in form may have; IP among them, so that nothing is entered.
    let full = State { psw: !psw::TR, ..State::fresh() };
    assert_eq!(after_write(sfr::PSW, full, 0), !psw::TR & !written(&rows));
}

#[test]
fn hwdbg_has_the_bits_of_the_page() {
    let rows = bits("HWDBG by bit");
    let names = [
        ("BP0_ENB", hwdbg::BP0),
        ("BP1_ENB", hwdbg::BP1),
        ("WP0_ENB", hwdbg::WP0),
        ("WP1_ENB", hwdbg::WP1),
        ("BP_HIT", hwdbg::BP_HIT),
        ("WP0_HIT", hwdbg::WP0_HIT),
        ("WP1_HIT", hwdbg::WP1_HIT),
    ];
    assert_named(&rows, &names);
    let fixed = rows.iter().filter(|row| ["BPENB", "WPENB"].contains(&&row.name[..]));
    assert_eq!(fixed.map(|row| row.mask).sum::<u32>(), hwdbg::AVAILABLE);
    let fresh = State::fresh();
    assert_eq!(after_write(sfr::HWDBG, fresh, u32::MAX), hwdbg::AVAILABLE | written(&rows));
    let full = hwdbg::AVAILABLE | hwdbg::ENABLES | hwdbg::HITS;
    let before = State { hwdbg: full, ..State::fresh() };
    assert_eq!(after_write(sfr::HWDBG, before, 0), full & !written(&rows));
}

#[test]
fn the_sfrs_have_the_numbers_of_the_page() {
    let names = [
        ("PSW", sfr::PSW),
        ("RA", sfr::RA),
        ("IPC", sfr::IPC),
        ("TIMER", sfr::TIMER),
        ("IBASE", sfr::IBASE),
        ("USREG", sfr::USREG),
        ("HWDBG", sfr::HWDBG),
        ("BP0", sfr::BP0),
        ("BP1", sfr::BP1),
        ("WP0", sfr::WP0),
        ("WP1", sfr::WP1),
    ];
    let does = "What mtsfr does (01, Instructions; TIMER: 01, One step)";
    let rows = rows(&page("MANIK.md"), ["SFR", "Name", does, "Changed also by"]);
    assert_eq!(rows.len(), names.len());
    for ([number, name, does, _], expected) in rows.iter().zip(names) {
        let number = number.parse().expect("a number");
        assert_eq!((&name[..], number), expected);
        if does.starts_with("writes all of it") {
            assert_eq!(after_write(number, State::fresh(), u32::MAX), u32::MAX, "{name}");
        }
    }
}

#[test]
fn the_replies_have_the_numbers_of_the_page() {
    let replies = [
        Reply::MemoryLength,
        Reply::MarkLength,
        Reply::MarkPastEnd,
        Reply::StateForm,
        Reply::TapeLength,
        Reply::TapeByte,
        Reply::BudgetUsed,
        Reply::FetchMarked,
        Reply::NoInstruction,
        Reply::OperandMarked,
    ];
    let rows = rows(&page("MANIK.md"), ["No.", "Reply", "Tested"]);
    let expected = replies.map(|reply| (reply.number().to_string(), reply.is_refusal()));
    let found = rows.into_iter().map(|[number, _, tested]| (number, tested.contains("start")));
    assert_eq!(found.collect::<Vec<_>>(), expected);
}

/// A machine with this instruction, changed.
fn changed(instr: Instr, change: impl FnOnce(&mut Rig)) -> Rig {
    let mut rig = Rig::with(instr);
    change(&mut rig);
    rig
}

/// Puts a half at the end of memory, and the program counter there.
fn put_last(rig: &mut Rig, half: u16) {
    rig.memory[126..].copy_from_slice(&half.to_be_bytes());
    rig.state.pc = 126;
}

/// For each test inside an instruction a machine in which it holds, and a later one where it can.
fn hindered() -> [Rig; 8] {
    let (jf, ldr) = (instr("jf", [0; 3]), instr("ldr", [1, 0, 2]));
    let outside = Register { value: 128, marked: false };
    [
        changed(jf, |rig| rig.state.pc = 129),
        changed(jf, |rig| rig.state.pc = 128),
        changed(jf, |rig| {
            put_last(rig, 0xfc00);
            rig.marks[15] = 1 << 7;
        }),
        changed(jf, |rig| put_last(rig, 0xfc00)),
        changed(jf, |rig| {
            put_last(rig, 0xe000);
            rig.state.tf_marked = true;
        }),
        changed(jf, |rig| {
            rig.marks[0] = 1 << 3;
            rig.state.tf_marked = true;
        }),
        changed(ldr, |rig| rig.state.registers[2] = Register { marked: true, ..outside }),
        changed(ldr, |rig| rig.state.registers[2] = outside),
    ]
}

#[test]
fn an_instruction_is_tested_in_the_order_of_the_page() {
    let rows = rows(&page("MANIK.md"), ["Order", "Test", "Gives"]);
    assert_eq!(rows.len(), 8);
    for (place, ([order, test, gives], mut rig)) in rows.iter().zip(hindered()).enumerate() {
        let found = match rig.step(0).map(|step| step.entry) {
            Err(reply) => reply.number().to_string(),
            Ok(Some(Entry::BusError(Access::Fetch))) => "bus error, fetch".into(),
            Ok(Some(Entry::BusError(Access::Data))) => "bus error, data".into(),
            Ok(other) => panic!("{test}: {other:?}"),
        };
        assert_eq!((order, gives), (&(place + 1).to_string(), &found), "{test}");
    }
}

/// The entries of the page in its order, each made by a step of a machine.
fn entering() -> [(&'static str, Entry, Rig, u8); 7] {
    let (mov, ldr) = (instr("mov", [0; 3]), instr("ldr", [1, 0, 2]));
    let swint = Rig::with(instr("swint", [3, 0, 0]));
    let breakpoint = changed(mov, |rig| rig.state.hwdbg |= hwdbg::BP0);
    let watchpoint = changed(ldr, |rig| rig.state.hwdbg |= hwdbg::WP1);
    let timer = changed(mov, |rig| (rig.state.psw, rig.state.pending) = (psw::IE | psw::TE, true));
    let external = changed(mov, |rig| rig.state.psw = psw::IE | 1 << psw::ENABLE_SHIFT);
    let fetch = changed(mov, |rig| rig.state.pc = 128);
    let data = changed(ldr, |rig| rig.state.registers[2].value = 128);
    [
        ("swint", Entry::Swint(3), swint, 0),
        ("debug, breakpoint", Entry::Debug(hwdbg::BP_HIT), breakpoint, 0),
        ("debug, watchpoint", Entry::Debug(hwdbg::WP1_HIT), watchpoint, 0),
        ("timer", Entry::Timer, timer, 0),
        ("external", Entry::External(0), external, 1),
        ("bus error, fetch", Entry::BusError(Access::Fetch), fetch, 0),
        ("bus error, data", Entry::BusError(Access::Data), data, 0),
    ]
}

#[test]
fn entries_go_where_the_page_says() {
    let columns = ["Entry", "Low 8 bits of pc", "IPC becomes", "Cycles of the step", "Besides"];
    let rows = rows(&page("MANIK.md"), columns);
    assert_eq!(rows.len(), 7);
    for ([name, low, ipc, cycles, _], entering) in rows.iter().zip(entering()) {
        let (expected, entry, mut rig, lines) = entering;
        assert_eq!(name, expected);
        let own = rig.state.pc;
        rig.state.ibase = 0x5a5a_5aff;
        assert_eq!(rig.step(lines).expect("an entry").entry, Some(entry), "{name}");
        assert_eq!(rig.state.pc - 0x5a5a_5a00, low.parse().expect("a number"), "{name}");
        let after = if ipc.starts_with("the address after") { own + 2 } else { own };
        assert_eq!(rig.state.ipc, after, "{name}");
        assert_eq!(rig.state.cycles.to_string(), *cycles, "{name}");
    }
}
