//! Steps, calls and lines per second of the static library and of the second program, in one
//! process.

mod images;
mod listings;
mod machine;
mod random;
mod tables;
mod texts;
mod timing;

use std::env;
use std::fs;
use std::process::ExitCode;

use images::{recipe, IMAGES, SIZES};
use listings::{listings, Buffer, Lister};
use machine::{Library, Machine, Second};
use texts::{Assembler, Source, LENGTHS};

const USAGE: &str = "usage: bench time                              writes the tables of times
       bench images                            writes the number and the name of each image
       bench steps NUMBER SIZE PROGRAM BUDGET  makes one run, PROGRAM is library or second
       bench calls SIZE PROGRAM TIMES          makes so many calls of a single step each
       bench listings                          writes a line for each listing that is counted:
                                               NUMBER RANGE BUFFER, its lines, and its name
       bench lines NUMBER RANGE BUFFER PROGRAM TIMES    lists so many times
       bench texts                             writes a line for each text: its lines, and its name
       bench text LINES                        writes the text with so many lines
       bench assemble FILE PROGRAM TIMES       assembles the text of a file so many times
";

/// The ranges and buffers of the listings that are counted. An emulator writes a line of its log
/// for each instruction, so they are short.
const COUNTED: [(usize, Buffer); 3] =
    [(4_096, Buffer::Roomy), (16_384, Buffer::Roomy), (16_384, Buffer::Exact)];

fn main() -> ExitCode {
    let arguments: Vec<String> = env::args().skip(1).collect();
    let arguments: Vec<&str> = arguments.iter().map(String::as_str).collect();
    let done = match arguments[..] {
        ["time"] => time(),
        ["images"] => name_images(),
        ["steps", number, size, program, budget] => steps(number, size, program, budget),
        ["calls", size, program, times] => calls(size, program, times),
        ["listings"] => name_listings(),
        ["lines", number, range, buffer, program, times] => {
            lines([number, range, buffer, program, times])
        }
        ["texts"] => name_texts(),
        ["text", lines] => write_text(lines),
        ["assemble", file, program, times] => assemble(file, program, times),
        _ => None,
    };
    if done.is_none() {
        eprint!("{USAGE}");
        return ExitCode::from(2);
    }
    ExitCode::SUCCESS
}

fn time() -> Option<()> {
    tables::steps();
    println!();
    tables::calls();
    println!();
    tables::listing();
    println!();
    tables::assembling();
    Some(())
}

fn name_images() -> Option<()> {
    for (number, image) in IMAGES.iter().enumerate() {
        println!("{number}\t{}", image(SIZES[0]).name);
    }
    Some(())
}

/// Makes one run; none if the arguments are wrong.
fn steps(number: &str, size: &str, program: &str, budget: &str) -> Option<()> {
    let size = size.parse().ok().filter(|size| SIZES.contains(size))?;
    let image = IMAGES.get(number.parse::<usize>().ok()?)?(size);
    let tape = image.tape(budget.parse().ok()?);
    match program {
        "library" => Library::new(&image).run(&tape),
        "second" => Second::new(&image).run(&tape),
        _ => return None,
    }
    Some(())
}

/// Makes so many calls of a single step; none if the arguments are wrong.
fn calls(size: &str, program: &str, times: &str) -> Option<()> {
    let image = recipe(size.parse().ok().filter(|size| SIZES.contains(size))?);
    let tape = image.tape(times.parse().ok()?);
    match program {
        "library" => Library::new(&image).run_singly(&tape),
        "second" => Second::new(&image).run_singly(&tape),
        _ => return None,
    }
    Some(())
}

fn name_listings() -> Option<()> {
    for (number, listing) in listings().iter().enumerate() {
        for (range, buffer) in COUNTED {
            let (lines, name) = (listing.lines(range), listing.name);
            println!("{number}\t{range}\t{}\t{lines}\t{name}", buffer.name());
        }
    }
    Some(())
}

/// Lists so many times; none if the arguments are wrong.
fn lines([number, range, buffer, program, times]: [&str; 5]) -> Option<()> {
    let listings = listings();
    let listing = listings.get(number.parse::<usize>().ok()?)?;
    let range = range.parse().ok().filter(|range| COUNTED.iter().any(|each| each.0 == *range))?;
    let buffer = Buffer::ALL.into_iter().find(|each| each.name() == buffer)?;
    let list = match program {
        "library" => Lister::by_library,
        "second" => Lister::by_second,
        _ => return None,
    };
    let mut lister = Lister::new(listing, range, buffer);
    for _ in 0..times.parse::<u32>().ok()? {
        list(&mut lister);
    }
    Some(())
}

fn name_texts() -> Option<()> {
    for lines in LENGTHS {
        println!("{lines}\t{}", texts::NAME);
    }
    Some(())
}

fn write_text(lines: &str) -> Option<()> {
    let lines = lines.parse().ok().filter(|lines| LENGTHS.contains(lines))?;
    print!("{}", Source::new(lines).text);
    Some(())
}

/// Assembles so many times; none if the arguments are wrong. The text is not made here, since that
/// takes more instructions than assembling it, all of which are counted.
fn assemble(file: &str, program: &str, times: &str) -> Option<()> {
    let source = Source::of(fs::read_to_string(file).ok()?);
    let assemble = match program {
        "library" => Assembler::by_library,
        "second" => Assembler::by_second,
        _ => return None,
    };
    let mut assembler = Assembler::new(&source);
    for _ in 0..times.parse::<u32>().ok()? {
        assemble(&mut assembler);
    }
    Some(())
}
