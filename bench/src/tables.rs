//! The tables of times, in Markdown.

use std::time::Duration;

use crate::images::{recipe, Image, IMAGES, SIZES};
use crate::listings::{listings, Buffer, Lister, Listing, LONGEST};
use crate::machine::{Library, Machine, Second, CALL, SINGLE, SINGLE_CALLS};
use crate::texts::{Assembler, Source, LENGTHS, NAME};
use crate::timing::in_turn;

const STEPS_HEAD: &str = "\
| Image | Memory | Library, million steps a second | Second program | Ratio \
| Library over 24 MHz | Second program over 24 MHz |
|---|---|---|---|---|---|---|
";

const CALLS_HEAD: &str = "\
| Calls | Memory | Library, million calls a second | Second program | Ratio |
|---|---|---|---|---|
";

const CALL_SIZES_HEAD: &str = "\
| Calls | Program | 4 KiB, nanoseconds a call | 64 KiB | 64 KiB over 4 KiB |
|---|---|---|---|---|
";

const LINES_HEAD: &str = "\
| Listing of 64 KiB | Buffer | Library, million lines a second | Second program | Ratio |
|---|---|---|---|---|
";

const RANGES_HEAD: &str = "\
| Listing | Program | 16 KiB, nanoseconds a byte of the range | 32 KiB | 64 KiB \
| 64 KiB over 16 KiB |
|---|---|---|---|---|---|
";

const TEXTS_HEAD: &str = "\
| Text | Lines | Library, million lines a second | Second program | Ratio |
|---|---|---|---|---|
";

const LENGTHS_HEAD: &str = "\
| Assembler | 5,000 lines, nanoseconds a line | 20,000 lines | 20,000 over 5,000 |
|---|---|---|---|
";

/// How long a round lasts, about, with both programs.
const ROUND: Duration = Duration::from_millis(500);

/// The board's clock.
const BOARD: f64 = 24e6;

/// The lengths of ranges.
const RANGES: [usize; 3] = [LONGEST / 4, LONGEST / 2, LONGEST];

/// Measures every image and writes the table of steps.
pub fn steps() {
    print!("{STEPS_HEAD}");
    for size in SIZES {
        for image in IMAGES.map(|image| image(size)) {
            let [library, second] = steps_a_second(&image, &image.tape(CALL));
            let millions = [library, second].map(|speed| format!("{:.1}", speed / 1e6));
            let factors = [library, second].map(|speed| format!("{:.1}", speed / BOARD));
            println!(
                "| {} | {} KiB | {} | {} | {:.2} | {} | {} |",
                image.name,
                size / 1024,
                millions[0],
                millions[1],
                library / second,
                factors[0],
                factors[1],
            );
        }
    }
}

/// Both programs have made as many steps of an image, so they hold the same.
fn same_machine(image: &Image, library: &Library, second: &Second) {
    assert!(library.contents() == second.contents(), "{}: the programs differ", image.name);
}

/// The speeds of the library and of the second program.
fn steps_a_second(image: &Image, tape: &[u8]) -> [f64; 2] {
    let (mut library, mut second) = (Library::new(image), Second::new(image));
    library.run(tape);
    second.run(tape);
    same_machine(image, &library, &second);
    let times = in_turn(ROUND, [&mut || library.run(tape), &mut || second.run(tape)]);
    same_machine(image, &library, &second);
    eprintln!("{}, {} bytes: measured", image.name, image.memory.len());
    times.map(|time| tape.len() as f64 / time)
}

/// Measures calls of a single step in memories of both sizes and writes two tables: calls a second,
/// and how the time goes with the size.
pub fn calls() {
    let images = SIZES.map(recipe);
    let tape = images[0].tape(SINGLE_CALLS);
    let mut libraries = images.each_ref().map(Library::new);
    let mut seconds = images.each_ref().map(Second::new);
    let ([a, c], [b, d]) = (libraries.each_mut(), seconds.each_mut());
    let times = in_turn(
        ROUND,
        [
            &mut || a.run_singly(&tape),
            &mut || b.run_singly(&tape),
            &mut || c.run_singly(&tape),
            &mut || d.run_singly(&tape),
        ],
    );
    for ((image, library), second) in images.iter().zip(&libraries).zip(&seconds) {
        same_machine(image, library, second);
    }
    eprintln!("{SINGLE}: measured");
    let [a, b, c, d] = times.map(|time| time / SINGLE_CALLS as f64);
    let rows = calls_row(SIZES[0], [a, b]) + &calls_row(SIZES[1], [c, d]);
    let sizes = call_sizes_row("library", [a, c]) + &call_sizes_row("second program", [b, d]);
    print!("{CALLS_HEAD}{rows}\n{CALL_SIZES_HEAD}{sizes}");
}

fn calls_row(size: usize, [library, second]: [f64; 2]) -> String {
    let [fast, slow] = [library, second].map(|time| 1e-6 / time);
    let size = size / 1024;
    format!("| {SINGLE} | {size} KiB | {fast:.2} | {slow:.2} | {:.2} |\n", second / library)
}

fn call_sizes_row(program: &str, times: [f64; 2]) -> String {
    let [small, large] = times.map(|time| time * 1e9);
    format!("| {SINGLE} | {program} | {small:.0} | {large:.0} | {:.2} |\n", large / small)
}

/// Measures every listing and writes two tables: lines a second, and how the time goes with the
/// length of the range.
pub fn listing() {
    let (mut lines, mut ranges) = (LINES_HEAD.to_string(), RANGES_HEAD.to_string());
    for listing in listings() {
        let [library, second] = roomy(&listing);
        lines += &lines_row(&listing, Buffer::Roomy, [library[2], second[2]]);
        lines += &lines_row(&listing, Buffer::Exact, exact(&listing));
        ranges += &ranges_row(&listing, "library", library);
        ranges += &ranges_row(&listing, "second program", second);
    }
    print!("{lines}\n{ranges}");
}

/// The seconds of the library and of the second program, for each range, in a roomy buffer.
fn roomy(listing: &Listing) -> [[f64; 3]; 2] {
    let new = || RANGES.map(|range| Lister::new(listing, range, Buffer::Roomy));
    let (mut library, mut second) = (new(), new());
    let ([a, b, c], [d, e, f]) = (library.each_mut(), second.each_mut());
    let times = in_turn(
        ROUND,
        [
            &mut || a.by_library(),
            &mut || d.by_second(),
            &mut || b.by_library(),
            &mut || e.by_second(),
            &mut || c.by_library(),
            &mut || f.by_second(),
        ],
    );
    for (library, second) in library.iter().zip(&second) {
        same(listing, library, second);
    }
    eprintln!("{}, roomy buffer: measured", listing.name);
    let [a, d, b, e, c, f] = times;
    [[a, b, c], [d, e, f]]
}

/// The seconds of the library and of the second program for the longest range, in a buffer that it
/// fills.
fn exact(listing: &Listing) -> [f64; 2] {
    let new = || Lister::new(listing, LONGEST, Buffer::Exact);
    let (mut library, mut second) = (new(), new());
    let times = in_turn(ROUND, [&mut || library.by_library(), &mut || second.by_second()]);
    same(listing, &library, &second);
    eprintln!("{}, exact buffer: measured", listing.name);
    times
}

fn same(listing: &Listing, library: &Lister, second: &Lister) {
    assert!(library.buffer == second.buffer, "{}: the programs differ", listing.name);
}

fn lines_row(listing: &Listing, buffer: Buffer, [library, second]: [f64; 2]) -> String {
    let lines = listing.lines(LONGEST) as f64;
    let [fast, slow] = [library, second].map(|time| lines / time / 1e6);
    let (name, buffer) = (listing.name, buffer.name());
    format!("| {name} | {buffer} | {fast:.1} | {slow:.1} | {:.2} |\n", second / library)
}

fn ranges_row(listing: &Listing, program: &str, times: [f64; 3]) -> String {
    let [short, middle, long] =
        std::array::from_fn(|place| times[place] * 1e9 / RANGES[place] as f64);
    let name = listing.name;
    format!("| {name} | {program} | {short:.2} | {middle:.2} | {long:.2} | {:.2} |\n", long / short)
}

/// Measures the texts and writes two tables: lines a second, and how the time goes with the length.
pub fn assembling() {
    let [short, long] = LENGTHS.map(Source::new);
    let new = || [Assembler::new(&short), Assembler::new(&long)];
    let ([mut a, mut c], [mut b, mut d]) = (new(), new());
    let times = in_turn(
        ROUND,
        [&mut || a.by_library(), &mut || b.by_second(), &mut || c.by_library(), &mut || {
            d.by_second()
        }],
    );
    let is_same = a.image == b.image && c.image == d.image;
    assert!(is_same, "{NAME}: the programs differ");
    eprintln!("{NAME}: measured");
    let [a, b, c, d] = times;
    let rows = texts_row(&short, [a, b]) + &texts_row(&long, [c, d]);
    let lengths = lengths_row("library", [a, c]) + &lengths_row("second program", [b, d]);
    print!("{TEXTS_HEAD}{rows}\n{LENGTHS_HEAD}{lengths}");
}

fn texts_row(source: &Source, [library, second]: [f64; 2]) -> String {
    let lines = source.lines;
    let [fast, slow] = [library, second].map(|time| lines as f64 / time / 1e6);
    format!("| {NAME} | {lines} | {fast:.2} | {slow:.2} | {:.2} |\n", second / library)
}

fn lengths_row(program: &str, times: [f64; 2]) -> String {
    let [short, long] = std::array::from_fn(|place| times[place] * 1e9 / LENGTHS[place] as f64);
    format!("| {program} | {short:.0} | {long:.0} | {:.2} |\n", long / short)
}
