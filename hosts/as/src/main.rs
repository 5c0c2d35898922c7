//! The assembler as a program: a source becomes `at` lines of the small program, or bytes of a file.

mod call;
mod image;
mod lines;

use std::fs::File;
use std::io::{self, ErrorKind, Read, Write};
use std::path::Path;
use std::process::ExitCode;

use call::Call;
use image::{ImageFile, LONGEST_IMAGE};
use manik::{assemble, AssembleError};

const USAGE: &str = include_str!("usage.txt");

/// No longer source is read.
const LONGEST_SOURCE: usize = 1 << 20;

/// The most bytes of a line.
const LONGEST_LINE_BYTES: usize = 4;

/// Why nothing was written.
enum Failure {
    /// The text is refused: where and why, as it is told.
    Refused(String),
    /// Something else, which stands behind the tool's name.
    Other(String),
}

impl From<String> for Failure {
    fn from(why: String) -> Failure {
        Failure::Other(why)
    }
}

fn main() -> ExitCode {
    let Some(call) = Call::read(std::env::args_os().skip(1)) else {
        eprint!("{USAGE}");
        return ExitCode::from(2);
    };
    match call.map_err(Failure::Other).and_then(|call| run(&call)) {
        Ok(()) => ExitCode::SUCCESS,
        Err(Failure::Refused(told)) => {
            eprintln!("{told}");
            ExitCode::FAILURE
        }
        Err(Failure::Other(why)) => {
            eprintln!("tools/manik-as: {why}");
            ExitCode::from(2)
        }
    }
}

fn run(call: &Call) -> Result<(), Failure> {
    let text = read_source(&call.source)?;
    let Some(path) = &call.image else {
        let (image, end) = assembled_anew(call, &text)?;
        return Ok(print(&lines::lines(call.start, &image[call.start..end]))?);
    };
    let file = ImageFile::open(path, &call.source).map_err(|error| told(path, &error))?;
    let image = match file.bytes() {
        Some(bytes) => {
            let mut image = bytes.to_vec();
            assembled(call, &text, &mut image)?;
            image
        }
        None => {
            let (mut image, end) = assembled_anew(call, &text)?;
            image.truncate(end);
            image
        }
    };
    Ok(file.write(&image).map_err(|error| told(path, &error))?)
}

/// A path and what is wrong with it.
fn told(path: &Path, error: &io::Error) -> String {
    format!("{}: {error}", path.display())
}

fn read_source(path: &Path) -> Result<Vec<u8>, String> {
    let mut text = Vec::new();
    let file = File::open(path).map_err(|error| told(path, &error))?;
    // A byte more shows that it is longer, even if it has no end.
    let read = file.take(LONGEST_SOURCE as u64 + 1).read_to_end(&mut text);
    read.map_err(|error| told(path, &error))?;
    if text.len() > LONGEST_SOURCE {
        return Err(format!("{}: a source has up to 1 MiB", path.display()));
    }
    Ok(text)
}

/// Assembles into an image that has room for any text with as many lines; it and the end.
fn assembled_anew(call: &Call, text: &[u8]) -> Result<(Vec<u8>, usize), Failure> {
    if call.start > LONGEST_IMAGE {
        return Err(format!("START is above 16 MiB: {:#x}", call.start).into());
    }
    // The last line may lack its newline, which is for the library to tell.
    let lines = 1 + text.iter().filter(|&&byte| byte == b'\n').count();
    let mut image = vec![0; call.start + lines * LONGEST_LINE_BYTES];
    let end = assembled(call, text, &mut image)?;
    Ok((image, end))
}

/// Assembles into the image; the address after the last byte.
fn assembled(call: &Call, text: &[u8], image: &mut [u8]) -> Result<usize, Failure> {
    match assemble(text, call.start, image) {
        Ok(assembled) => Ok(assembled.end),
        Err(AssembleError::Refused { line, refusal }) => {
            let (source, number) = (call.source.display(), refusal.number());
            Err(Failure::Refused(format!("{source}:{line}: {number} {refusal}")))
        }
        Err(unknown) => Err(unknown.to_string().into()),
    }
}

/// Writes to standard output. Whoever closed it wants no more.
fn print(text: &str) -> Result<(), String> {
    let mut output = io::stdout().lock();
    match output.write_all(text.as_bytes()).and_then(|()| output.flush()) {
        Err(error) if error.kind() != ErrorKind::BrokenPipe => {
            Err(format!("standard output: {error}"))
        }
        _ => Ok(()),
    }
}
