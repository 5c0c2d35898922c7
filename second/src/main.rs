//! The command of the second program.

use std::env;
use std::error::Error;
use std::ffi::OsString;
use std::fs::{self, File};
use std::io::{self, Read, Write};
use std::path::Path;
use std::process::ExitCode;

use second::assemble::{assemble, Refused};
use second::listing::{list, LONGEST_IMAGE, LONGEST_LISTING};
use second::{corpus, script, vectors};

const USAGE: &str = "usage: second SUBCOMMAND

subcommands:
  vectors-isa      write the vectors of words and instructions (docs/VECTORS.md)
  vectors-list     write the vectors of the listing (docs/VECTORS.md)
  script           answer the small program's lines, read from standard input (document 01)
  list FILE START END
                   list the image in FILE from START to before END, decimal or 0x hex (document 02)
  assemble FILE START LENGTH
                   write the bytes in hex that the text in FILE becomes from START on, in an image of
                   LENGTH, or the line and the number of its refusal (document 02)
  corpus-cases     write the cases of the corpus of whole runs, in binary (docs/CORPUS.md)
  corpus-answers   write the answers to these cases
  corpus-coverage  write how often these cases reach each mnemonic, reply, entry and class of marks
  assembly-cases   write the cases of the assembler, in binary (docs/CORPUS.md)
  assembly-answers write the answers to these cases
";

/// What a call writes and its status, or why it can't.
type Answer = Result<(Vec<u8>, ExitCode), Box<dyn Error>>;

/// The answer of a call that does what it is asked for.
fn done(written: impl Into<Vec<u8>>) -> Answer {
    Ok((written.into(), ExitCode::SUCCESS))
}

/// The answer to a good call; none if the call is wrong.
fn answer(arguments: &[OsString]) -> Option<Answer> {
    let (subcommand, operands) = arguments.split_first()?;
    match (subcommand.to_str()?, operands) {
        ("vectors-isa", []) => Some(done(vectors::vectors())),
        ("vectors-list", []) => Some(done(vectors::listing::vectors())),
        ("script", []) => Some(answer_script()),
        ("list", [file, start, end]) => Some(answer_list(Path::new(file), start, end)),
        ("assemble", [file, start, length]) => {
            Some(answer_assemble(Path::new(file), start, length))
        }
        ("corpus-cases", []) => Some(done(corpus::cases_file())),
        ("corpus-answers", []) => Some(done(corpus::answers_file())),
        ("corpus-coverage", []) => Some(done(corpus::coverage(&corpus::cases()).text())),
        ("assembly-cases", []) => Some(done(corpus::assembly_cases_file())),
        ("assembly-answers", []) => Some(done(corpus::assembly_answers_file())),
        _ => None,
    }
}

/// The answer of `script`.
fn answer_script() -> Answer {
    let mut input = Vec::new();
    io::stdin().read_to_end(&mut input)?;
    done(script::answer(&input))
}

/// The answer of `list`.
fn answer_list(file: &Path, start: &OsString, end: &OsString) -> Answer {
    let (start, end) = (number(start)?, number(end)?);
    let image = read_image(file).map_err(|error| format!("{}: {error}", file.display()))?;
    let mut listing = vec![0; LONGEST_LISTING];
    let length = list(&image, start, end, &mut listing)?;
    listing.truncate(length);
    done(listing)
}

/// The bytes of a file, of one that is over the size limit no more than show it.
fn read_image(file: &Path) -> io::Result<Vec<u8>> {
    let mut image = Vec::new();
    File::open(file)?.take(LONGEST_IMAGE as u64 + 1).read_to_end(&mut image)?;
    Ok(image)
}

/// The answer of `assemble`. A refusal is an answer too, but not what the call is for.
fn answer_assemble(file: &Path, start: &OsString, length: &OsString) -> Answer {
    let (start, length) = (number(start)?, number(length)?);
    let text = fs::read(file).map_err(|error| format!("{}: {error}", file.display()))?;
    let mut image = Vec::new();
    image.try_reserve_exact(length)?;
    image.resize(length, 0);
    match assemble(&text, start, &mut image) {
        Ok(assembled) => {
            let bytes = image[start..assembled.end].iter();
            let hex: String = bytes.map(|byte| format!("{byte:02x}")).collect();
            done(hex + "\n")
        }
        Err(Refused { line, number }) => {
            Ok((format!("{line} {number}\n").into(), ExitCode::FAILURE))
        }
    }
}

/// A number in decimal, or in hex after 0x.
fn number(argument: &OsString) -> Result<usize, String> {
    let text = argument.to_str().unwrap_or_default();
    let (digits, radix) = text.strip_prefix("0x").map_or((text, 10), |digits| (digits, 16));
    // A sign would be read too.
    let is_plain = digits.chars().all(|digit| digit.is_digit(radix));
    let number = usize::from_str_radix(digits, radix).ok().filter(|_| is_plain);
    let bits = usize::BITS;
    number
        .ok_or_else(|| format!("{argument:?} is no decimal or 0x hex number of up to {bits} bits"))
}

fn main() -> ExitCode {
    let arguments: Vec<OsString> = env::args_os().skip(1).collect();
    let Some(answer) = answer(&arguments) else {
        eprint!("{USAGE}");
        return ExitCode::from(2);
    };
    match answer.and_then(|(bytes, status)| Ok(io::stdout().write_all(&bytes).map(|()| status)?)) {
        Ok(status) => status,
        Err(error) => {
            eprintln!("second: {error}");
            ExitCode::FAILURE
        }
    }
}
