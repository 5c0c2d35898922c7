//! ELF of 32 bits, big-endian. What is loaded are the bytes of its segments, each at its physical
//! address, as objcopy has it. Its entry is not taken: a core begins at 0.

use object::elf::{self, FileHeader32, ProgramHeader32};
use object::read::elf::{FileHeader, ProgramHeader, Sym};
use object::BigEndian;

use super::Filling;
use crate::symbols::Symbols;

const END: BigEndian = BigEndian;
type Header = FileHeader32<BigEndian>;

pub fn is_elf(bytes: &[u8]) -> bool {
    bytes.starts_with(&elf::ELFMAG)
}

/// Puts all segments into memory, and gives the names.
pub fn load(bytes: &[u8], filling: &mut Filling) -> Result<Symbols, String> {
    let header = header(bytes)?;
    let segments =
        header.program_headers(END, bytes).map_err(|error| damaged("segments", error))?;
    let mut loaded = 0;
    for (n, segment) in segments.iter().enumerate() {
        if segment.p_type(END) == elf::PT_LOAD && segment.p_memsz(END) != 0 {
            put(segment, bytes, filling).map_err(|why| format!("segment {n}: {why}"))?;
            loaded += 1;
        }
    }
    if loaded == 0 {
        return Err("ELF without a segment to load".into());
    }
    names(header, bytes).map_err(|error| damaged("symbols", error))
}

/// The header of a linked program for a big-endian core of 32 bits.
fn header(bytes: &[u8]) -> Result<&Header, String> {
    let ident = |at: usize| bytes.get(at).copied();
    if ident(4).is_some_and(|class| class != elf::ELFCLASS32) {
        return Err("ELF of 64 bits, where 32 are needed".into());
    }
    if ident(5).is_some_and(|order| order != elf::ELFDATA2MSB) {
        return Err("little-endian ELF, where big-endian is needed".into());
    }
    let header = Header::parse(bytes).map_err(|error| damaged("header", error))?;
    if header.e_type(END) != elf::ET_EXEC {
        return Err("ELF that is not linked to fixed addresses".into());
    }
    Ok(header)
}

fn damaged(part: &str, error: object::Error) -> String {
    format!("truncated or damaged ELF: {part}: {error}")
}

fn put(
    segment: &ProgramHeader32<BigEndian>,
    bytes: &[u8],
    filling: &mut Filling,
) -> Result<(), String> {
    // Where it lies when the firmware runs: zeros behind its bytes are there already.
    filling.check(segment.p_vaddr(END).into(), segment.p_memsz(END).into())?;
    let data = segment.data(END, bytes).map_err(|()| "truncated: the file ends before it does")?;
    filling.put(segment.p_paddr(END).into(), data)
}

/// Names of code and data that are defined.
fn names(header: &Header, bytes: &[u8]) -> object::Result<Symbols> {
    let sections = header.sections(END, bytes)?;
    let symbols = sections.symbols(END, bytes, elf::SHT_SYMTAB)?;
    let mut names = Vec::new();
    for symbol in symbols.iter() {
        let is_place =
            matches!(symbol.st_type(), elf::STT_NOTYPE | elf::STT_OBJECT | elf::STT_FUNC)
                && symbol.st_shndx(END) != elf::SHN_UNDEF
                && symbol.st_shndx(END) != elf::SHN_ABS;
        let name = String::from_utf8_lossy(symbols.symbol_name(END, symbol)?).into_owned();
        if is_place && !name.is_empty() && !name.contains(char::is_whitespace) {
            names.push((symbol.st_value(END), name));
        }
    }
    Ok(Symbols::new(names))
}
