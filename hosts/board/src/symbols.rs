//! Names of addresses, from an ELF image or from a file.

use crate::number;

/// Names in the order of their addresses.
#[derive(Clone, Debug, Default)]
pub struct Symbols {
    names: Vec<(u32, String)>,
}

impl Symbols {
    pub fn new(mut names: Vec<(u32, String)>) -> Symbols {
        // Of two names of one address the first that was given counts.
        names.sort_by_key(|&(address, _)| address);
        names.dedup_by_key(|&mut (address, _)| address);
        Symbols { names }
    }

    /// The names of a text: a line for each, address and name parted by a tab. Empty lines and
    /// lines that begin with # say nothing.
    pub fn read(text: &str) -> Result<Symbols, String> {
        let mut names = Vec::new();
        for (line, text) in crate::files::said_lines(text) {
            let at = |why: &str| format!("line {line}: {why}");
            let (address, name) = text.split_once('\t').ok_or(at("no address, tab and name"))?;
            let address = number::word(address).map_err(|why| at(&why))?;
            if name.is_empty() || name.contains(char::is_whitespace) {
                return Err(at("a name has no blank and no tab in it"));
            }
            names.push((address, name.to_string()));
        }
        Ok(Symbols::new(names))
    }

    /// The address with this name.
    pub fn address(&self, name: &str) -> Option<u32> {
        self.names.iter().find(|(_, known)| known == name).map(|&(address, _)| address)
    }

    /// The last name at or before an address, with the distance from it: `recipe+0x10`.
    pub fn place(&self, address: u32) -> Option<String> {
        let before = self.names.partition_point(|&(known, _)| known <= address);
        let (known, name) = self.names.get(before.checked_sub(1)?)?;
        Some(match address - known {
            0 => name.clone(),
            distance => format!("{name}+{distance:#x}"),
        })
    }
}

#[cfg(test)]
mod tests {
    use super::*;

    #[test]
    fn places() {
        let symbols = Symbols::read("# code\n0x20\trecipe\n\n0\tstart\n66\tback\n").unwrap();
        assert_eq!(symbols.address("recipe"), Some(0x20));
        assert_eq!(symbols.address("other"), None);
        assert_eq!(symbols.place(0x20).as_deref(), Some("recipe"));
        assert_eq!(symbols.place(0x41).as_deref(), Some("recipe+0x21"));
        assert_eq!(symbols.place(0x42).as_deref(), Some("back"));
        assert_eq!(Symbols::default().place(0), None);
    }

    #[test]
    fn lines_that_name_nothing() {
        let error = |text| Symbols::read(text).unwrap_err();
        assert_eq!(error("0\ta\n0x20 recipe\n"), "line 2: no address, tab and name");
        assert_eq!(error("20h\ta\n"), "line 1: no decimal number, nor a hex one after 0x");
        assert_eq!(error("0\t\n"), "line 1: a name has no blank and no tab in it");
    }
}
