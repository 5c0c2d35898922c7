//! What an instruction reads and writes, by its written form (docs/MANIK.md, "Instructions" and
//! "Marks").

use manik::State;

use crate::place::{self, Places, CY, TF};

/// A load or a store, with its number of bytes.
#[derive(Clone, Copy, Debug, PartialEq, Eq)]
pub enum Access {
    Load(usize),
    Store(usize),
}

#[derive(Clone, Copy, Debug, Default, PartialEq, Eq)]
pub struct Effect {
    /// What its results are made from.
    pub reads: Places,
    pub writes: Places,
    /// What must not be marked: else it stops with 14.
    pub needs: Places,
    pub access: Option<Access>,
    /// What TF must be for it to be done.
    condition: Option<bool>,
    /// Whether it returns from an entry: `jsfr` of IPC.
    pub returns: bool,
}

impl Effect {
    /// The effect of an instruction in its written form.
    pub fn of(text: &str) -> Effect {
        let fields: Vec<&str> = text.split('\t').collect();
        let operand = |n: usize| fields.get(n).copied().unwrap_or_default();
        let (one, two) = (register(operand(1)), register(operand(2)));
        match fields[0] {
            "sub" | "add" => writing(one.with(CY.into()), one.with(two)),
            "subc" | "addc" => writing(one.with(CY.into()), one.with(two).with(CY.into())),
            "mov" | "sxb" | "xhw" | "sxh" | "zxh" => writing(one, two),
            "and" | "or" | "xor" | "mult" => writing(one, one.with(two)),
            "lsl" | "lsr" | "asr" => Effect { needs: two.0, ..writing(one, one) },
            "andi" | "addi" | "lsli" | "lsri" | "asri" | "multi" => writing(one, one),
            "movi" => writing(one, Set::default()),
            name if name.starts_with("cmp") => writing(TF.into(), one.with(two)),
            name @ ("movf" | "movt") => conditional(name, one, two),
            name @ ("subf" | "addf" | "subt" | "addt" | "addif" | "addit") => {
                conditional(name, one, one.with(two))
            }
            "sjf" | "sjt" | "jf" | "jt" => Effect { needs: Set::from(TF).0, ..Effect::default() },
            "jl" => writing(place::sfr(1).into(), Set::default()),
            "jr" => Effect { needs: one.0, ..Effect::default() },
            "jrl" => Effect { needs: one.0, ..writing(place::sfr(1).into(), Set::default()) },
            "jsfr" | "mfsfr" | "mtsfr" => special(fields[0], operand(1), operand(2)),
            name => accessing(name, one, register(operand(3))),
        }
    }

    /// What it writes in this state. Under a marked TF nobody may know whether it is done.
    pub fn written(&self, before: &State) -> Places {
        match self.condition {
            Some(condition) if !before.tf_marked && place::tf(before) != condition => Places::NONE,
            _ => self.writes,
        }
    }
}

/// A set that is put together from registers and flags.
#[derive(Clone, Copy, Default)]
struct Set(Places);

impl Set {
    fn with(self, other: Set) -> Set {
        Set(other.0.iter().fold(self.0, Places::with))
    }
}

impl From<u8> for Set {
    fn from(place: u8) -> Set {
        Set(Places::NONE.with(place))
    }
}

/// The register that a field names; nothing for another field.
fn register(field: &str) -> Set {
    let number = field.strip_prefix('r').and_then(|digits| digits.parse::<u8>().ok());
    number.map_or(Set::default(), Set::from)
}

fn writing(writes: Set, reads: Set) -> Effect {
    Effect { reads: reads.0, writes: writes.0, ..Effect::default() }
}

/// An instruction that is done if TF is as its last letter says.
fn conditional(name: &str, writes: Set, reads: Set) -> Effect {
    Effect { condition: Some(name.ends_with('t')), ..writing(writes, reads.with(TF.into())) }
}

/// Moves and jumps of SFRs. PSW has TF and CY in it.
fn special(name: &str, one: &str, two: &str) -> Effect {
    let sfr = |field: &str| field.strip_prefix("sfr").and_then(|digits| digits.parse::<u8>().ok());
    let flags = Set::from(TF).with(CY.into());
    let flags_of = |field| if sfr(field) == Some(0) { flags } else { Set::default() };
    match name {
        "jsfr" => {
            Effect { needs: flags_of(one).0, returns: sfr(one) == Some(2), ..Effect::default() }
        }
        "mfsfr" => writing(register(one), flags_of(two)),
        _ => {
            let written = sfr(one).map_or(Set::default(), |n| Set::from(place::sfr(n)));
            Effect {
                needs: register(two).0,
                ..writing(written.with(flags_of(one)), Set::default())
            }
        }
    }
}

/// Loads and stores. What is left, `sj`, `j`, `swint` and `half`, does nothing of all this.
fn accessing(name: &str, one: Set, base: Set) -> Effect {
    let width = match name {
        "ldr" | "str" | "ldrpc" => 4,
        "ldrh" | "strh" => 2,
        "ldrb" | "strb" => 1,
        _ => return Effect::default(),
    };
    let effect = Effect { needs: base.0, ..Effect::default() };
    if name.starts_with("ld") {
        Effect { writes: one.0, access: Some(Access::Load(width)), ..effect }
    } else {
        Effect { reads: one.0, access: Some(Access::Store(width)), ..effect }
    }
}

#[cfg(test)]
mod tests {
    use super::*;

    fn names(places: Places) -> String {
        places.iter().map(place::name).collect::<Vec<_>>().join(" ")
    }

    /// Reads, writes and needs of a written instruction.
    fn of(text: &str) -> [String; 3] {
        let effect = Effect::of(&text.replace(' ', "\t"));
        [names(effect.reads), names(effect.writes), names(effect.needs)]
    }

    #[test]
    fn by_the_tables_of_the_page() {
        let cases = [
            ("add r1 r2", ["r1 r2", "r1 cy", ""]),
            ("subc r1 r1", ["r1 cy", "r1 cy", ""]),
            ("mov r3 r4", ["r4", "r3", ""]),
            ("lsr r6 r4", ["r6", "r6", "r4"]),
            ("lsri r6 4", ["r6", "r6", ""]),
            ("movi r1 -1", ["", "r1", ""]),
            ("cmpeq r3 r4", ["r3 r4", "tf", ""]),
            ("cmpgti r2 7", ["r2", "tf", ""]),
            ("movt r1 r2", ["r2 tf", "r1", ""]),
            ("addif r1 -2", ["r1 tf", "r1", ""]),
            ("ldr r1 4 r0", ["", "r1", "r0"]),
            ("ldrpc r1 276", ["", "r1", ""]),
            ("strh r10 6 r4", ["r10", "", "r4"]),
            ("sjf 290", ["", "", "tf"]),
            ("jl 294", ["", "ra", ""]),
            ("jrl r15", ["", "ra", "r15"]),
            ("jsfr sfr0", ["", "", "tf cy"]),
            ("jsfr sfr2", ["", "", ""]),
            ("mfsfr r1 sfr0", ["tf cy", "r1", ""]),
            ("mfsfr r1 sfr10", ["", "r1", ""]),
            ("mtsfr sfr0 r3", ["", "tf cy psw", "r3"]),
            ("mtsfr sfr3 r3", ["", "timer", "r3"]),
            ("swint 15", ["", "", ""]),
            ("half 0xfc00", ["", "", ""]),
        ];
        for (text, expected) in cases {
            assert_eq!(of(text), expected, "{text}");
        }
        assert!(Effect::of("jsfr\tsfr2").returns && !Effect::of("jsfr\tsfr1").returns);
        assert_eq!(Effect::of("strb\tr1\t0\tr2").access, Some(Access::Store(1)));
    }

    #[test]
    fn conditions() {
        let state = |psw, tf_marked| State { psw, tf_marked, ..State::fresh() };
        let written = |text, psw, marked| names(Effect::of(text).written(&state(psw, marked)));
        assert_eq!(written("movt\tr1\tr2", 0, false), "");
        assert_eq!(written("movt\tr1\tr2", 0x100, false), "r1");
        assert_eq!(written("addif\tr1\t1", 0x100, false), "");
        assert_eq!(written("addif\tr1\t1", 0x100, true), "r1");
    }
}
