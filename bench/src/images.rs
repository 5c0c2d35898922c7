//! The images: programs that run for ever.

use second::corpus::{assemble, Line};
use second::marks;
use second::state::{psw, State};

/// What both programs run.
pub struct Image {
    pub name: &'static str,
    pub state: State,
    pub memory: Vec<u8>,
    /// A bit for each byte of memory.
    pub marks: Vec<u8>,
    /// The lines, step by step, again and again.
    lines: &'static [u8],
}

/// The sizes of memory.
pub const SIZES: [usize; 2] = [4_096, 65_536];

/// What makes each image in a memory of a size.
pub const IMAGES: [fn(usize) -> Image; 6] = [
    add_compare_branch,
    byte_copy,
    shift_multiply_conditional,
    recipe,
    timer_interrupts,
    external_lines,
];

/// An image with code from address 0 on and some registers set.
fn image(name: &'static str, size: usize, code: &[Line], registers: &[(usize, u32)]) -> Image {
    let (memory, marks) = (vec![0; size], vec![0; marks::room(size)]);
    let mut image = Image { name, state: State::fresh(), memory, marks, lines: &[0] };
    image.place(0, code);
    for &(number, value) in registers {
        image.state.registers[number].value = value;
    }
    image
}

impl Image {
    /// The tape of a run; copied in large pieces, since its making is counted with the steps.
    pub fn tape(&self, steps: usize) -> Vec<u8> {
        let mut tape = self.lines.repeat(steps.div_ceil(self.lines.len()));
        tape.truncate(steps);
        tape
    }

    /// Puts bytes, two hexadecimal digits each.
    fn put(&mut self, address: usize, digits: &str) {
        for (place, digits) in (address..).zip(digits.as_bytes().chunks(2)) {
            let digits = std::str::from_utf8(digits).expect("plain text");
            self.memory[place] = hex(digits) as u8;
        }
    }

    fn place(&mut self, address: usize, code: &[Line]) {
        let bytes = assemble(code);
        self.memory[address..address + bytes.len()].copy_from_slice(&bytes);
    }
}

/// r1 counts up to r2, which is far.
fn add_compare_branch(size: usize) -> Image {
    let code: &[Line] = &[("add", &[1, 3]), ("cmpeq", &[1, 2]), ("sjf", &[-2]), ("sj", &[-3])];
    image("add, compare, branch", size, code, &[(2, u32::MAX), (3, 1)])
}

/// The second quarter of memory goes byte by byte to the third.
fn byte_copy(size: usize) -> Image {
    let code: &[Line] = &[
        ("mov", &[1, 8]),
        ("mov", &[2, 9]),
        ("ldrb", &[4, 0, 1]),
        ("strb", &[4, 0, 2]),
        ("addi", &[1, 1]),
        ("addi", &[2, 1]),
        ("cmpeq", &[1, 9]),
        ("sjf", &[-5]),
        ("sj", &[-8]),
    ];
    let quarter = size as u32 / 4;
    let mut image = image("byte copy", size, code, &[(8, quarter), (9, 2 * quarter)]);
    for (place, byte) in image.memory.iter_mut().enumerate().skip(size / 4) {
        *byte = (place * 37 + 11) as u8;
    }
    image
}

fn shift_multiply_conditional(size: usize) -> Image {
    let code: &[Line] = &[
        ("lsl", &[1, 2]),
        ("lsri", &[3, 3]),
        ("mult", &[4, 5]),
        ("xor", &[1, 4]),
        ("cmplt", &[1, 6]),
        ("addit", &[7, 1]),
        ("subf", &[1, 6]),
        ("addc", &[8, 1]),
        ("multi", &[5, 3]),
        ("sxh", &[9, 1]),
        ("cmphs", &[3, 8]),
        ("movf", &[3, 1]),
        ("asr", &[6, 2]),
        ("addi", &[6, 77]),
        ("sj", &[-14]),
    ];
    let registers = [(1, 0x1234_5678), (2, 5), (3, u32::MAX), (4, 9), (5, 0x9e37_79b1), (6, 1_000)];
    image("shift, multiply, conditional", size, code, &registers)
}

/// The recipe of build 32 over its certificate (docs/BUILD31.md), again and again: the jump to
/// itself at the end leads back to the start.
pub fn recipe(size: usize) -> Image {
    let mut image = image("the recipe of build 32", size, &[], &[]);
    for line in include_str!("../../examples/build32.txt").lines() {
        let fields: Vec<&str> = line.split('\t').collect();
        match fields[..] {
            ["at", address, bytes] => image.put(hex(address), bytes),
            ["mark", address, count] => {
                let (first, count): (usize, usize) =
                    (hex(address), count.parse().expect("decimal"));
                marks::mark(&mut image.marks, first..first + count);
            }
            _ => {}
        }
    }
    assert_eq!(image.memory[0x14..0x16], assemble(&[("sj", &[0])]), "the jump to itself");
    image.place(0x14, &[("sj", &[-10])]);
    image
}

fn hex(digits: &str) -> usize {
    usize::from_str_radix(digits, 16).expect("hexadecimal")
}

/// A loop that the timer leaves every few steps; its handler arms the timer again and returns.
fn timer_interrupts(size: usize) -> Image {
    let code: &[Line] = &[
        ("add", &[1, 3]),
        ("xor", &[2, 1]),
        ("cmphs", &[2, 1]),
        ("addit", &[4, 1]),
        ("sj", &[-4]),
    ];
    let handler: &[Line] = &[("movi", &[5, 8]), ("mtsfr", &[3, 5]), ("jsfr", &[2])];
    let mut image = image("timer interrupts", size, code, &[(3, 1)]);
    image.place(0x108, handler);
    image.state.ibase = 0x100;
    image.state.timer = 1;
    image.state.psw = psw::IE | psw::TE;
    image
}

/// The same loop with all lines enabled. One is high in five steps of eight, most often the last
/// one; the handler returns at once.
fn external_lines(size: usize) -> Image {
    let code: &[Line] = &[
        ("add", &[1, 3]),
        ("xor", &[2, 1]),
        ("cmphs", &[2, 1]),
        ("addit", &[4, 1]),
        ("sj", &[-4]),
    ];
    let mut image = image("external lines", size, code, &[(3, 1)]);
    image.place(0x10c, &[("jsfr", &[2])]);
    image.state.ibase = 0x100;
    image.state.psw = psw::IE | 0x3f << 20;
    image.lines = &[0x20, 0, 0x20, 0x30, 0, 0x28, 0, 0x20];
    image
}

#[cfg(test)]
mod tests {
    use second::run::run_observed;
    use second::step::Entry;

    use super::*;

    /// Runs an image on its tape: how often each address, and an interrupt's entry, came.
    fn observe(image: &mut Image, budget: usize) -> (Vec<u64>, u64) {
        let tape = image.tape(budget);
        let Image { state, memory, marks, .. } = image;
        let (mut visits, mut entries) = (vec![0; memory.len()], 0);
        let outcome = run_observed(state, memory, marks, &tape, budget as u64, |step| {
            visits[step.pc as usize] += 1;
            entries += u64::from(matches!(step.entry, Some(Entry::Timer | Entry::External(_))));
        });
        assert_eq!((outcome.reply.number(), outcome.steps), (10, budget as u64));
        (visits, entries)
    }

    #[test]
    fn every_image_runs_on_in_every_memory() {
        for size in SIZES {
            for image in IMAGES {
                observe(&mut image(size), 100_000);
            }
        }
    }

    #[test]
    fn the_byte_copy_copies_all_and_begins_again() {
        let mut image = byte_copy(4_096);
        let (visits, _) = observe(&mut image, 100_000);
        assert_eq!(image.memory[1_024..2_048], image.memory[2_048..3_072]);
        assert!(visits[0] > 1, "{} rounds", visits[0]);
    }

    #[test]
    fn the_recipe_counts_eight_layers_each_time_and_spares_the_key() {
        let mut image = recipe(4_096);
        let (visits, _) = observe(&mut image, 100_000);
        // The last round may be cut.
        let (rounds, pushes) = (visits[0], visits[0x30]);
        assert!(rounds > 100 && pushes.div_ceil(8) == rounds, "{pushes} pushes, {rounds} rounds");
        assert_eq!(image.marks, recipe(4_096).marks);
        assert_eq!(image.memory[0xd0..0xe0], *b"NOTARY KEY STATE");
    }

    #[test]
    fn the_timer_interrupts_every_few_steps() {
        let (_, entries) = observe(&mut timer_interrupts(4_096), 100_000);
        assert!((5_000..20_000).contains(&entries), "{entries} entries");
    }

    #[test]
    fn a_line_interrupts_every_few_steps() {
        let (_, entries) = observe(&mut external_lines(4_096), 100_000);
        assert!((15_000..40_000).contains(&entries), "{entries} entries");
    }
}
