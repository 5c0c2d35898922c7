//! The image: raw bytes, Intel HEX or ELF, told by its content.

mod elf;
mod hex;

use std::path::Path;

use crate::files::{self, told};
use crate::marks::Marks;
use crate::symbols::Symbols;

/// No longer file is read. An ELF image may carry much that is not loaded.
const LONGEST_FILE: usize = 1 << 26;

/// What was read: all of memory, and the names that the file has.
pub struct Image {
    pub memory: Vec<u8>,
    pub symbols: Symbols,
}

/// Reads an image into a memory of `size` bytes, zero where the image has none. `at` is for raw
/// bytes alone: the other forms say where they belong.
pub fn read(path: &Path, at: Option<u64>, size: usize) -> Result<Image, String> {
    let bytes = files::read(path, LONGEST_FILE)?;
    let mut filling = Filling::new(size);
    image(&bytes, at, &mut filling)
        .map(|symbols| Image { memory: filling.memory, symbols })
        .map_err(|why| told(path, why))
}

fn image(bytes: &[u8], at: Option<u64>, filling: &mut Filling) -> Result<Symbols, String> {
    if bytes.is_empty() {
        return Err("it is empty".into());
    }
    let form = if elf::is_elf(bytes) {
        "ELF"
    } else if hex::is_hex(bytes) {
        "Intel HEX"
    } else {
        filling.put(at.unwrap_or(0), bytes)?;
        return Ok(Symbols::default());
    };
    if at.is_some() {
        return Err(format!("it is {form}, which has its own addresses: --at is for raw bytes"));
    }
    if form == "ELF" {
        return elf::load(bytes, filling);
    }
    hex::load(bytes, filling)?;
    Ok(Symbols::default())
}

/// A memory that is being filled; each byte at most once.
struct Filling {
    memory: Vec<u8>,
    filled: Marks,
}

impl Filling {
    fn new(size: usize) -> Filling {
        Filling { memory: vec![0; size], filled: Marks::none(size) }
    }

    /// Whether the range lies in memory.
    fn check(&self, address: u64, length: u64) -> Result<(), String> {
        let size = self.memory.len();
        if address.checked_add(length).is_some_and(|end| end <= size as u64) {
            return Ok(());
        }
        Err(format!("{length} bytes from {address:#x} on don't fit a memory of {size} bytes"))
    }

    fn put(&mut self, address: u64, bytes: &[u8]) -> Result<(), String> {
        self.check(address, bytes.len() as u64)?;
        let start = address as usize;
        let range = start..start + bytes.len();
        if let Some(at) = range.clone().find(|&at| self.filled.get(at)) {
            return Err(format!("overlapping: the byte at {at:#x} is there already"));
        }
        self.memory[range.clone()].copy_from_slice(bytes);
        self.filled.set(range);
        Ok(())
    }
}

#[cfg(test)]
mod tests {
    use super::*;

    #[test]
    fn raw_bytes() {
        let mut filling = Filling::new(8);
        assert!(image(&[0x71, 0x10], Some(4), &mut filling).is_ok());
        assert_eq!(filling.memory, [0, 0, 0, 0, 0x71, 0x10, 0, 0]);
        let error = |bytes: &[u8], at| image(bytes, at, &mut Filling::new(8)).err();
        assert_eq!(error(&[], None).as_deref(), Some("it is empty"));
        let long = "9 bytes from 0x0 on don't fit a memory of 8 bytes";
        assert_eq!(error(&[0; 9], None).as_deref(), Some(long));
        let far = "1 bytes from 0xffffffffffffffff on don't fit a memory of 8 bytes";
        assert_eq!(error(&[0], Some(u64::MAX)).as_deref(), Some(far));
    }
}
