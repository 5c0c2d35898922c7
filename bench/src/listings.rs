//! Images to list, and the two listers on them.

use second::isa::{decode, needs_second};

use crate::random::Random;

/// The length of every image; a range is its first bytes.
pub const LONGEST: usize = 65_536;

/// What is listed.
pub struct Listing {
    pub name: &'static str,
    pub image: Vec<u8>,
}

/// The listings, by number.
pub fn listings() -> [Listing; 3] {
    [
        Listing { name: "instructions of two bytes", image: short_instructions() },
        Listing { name: "long jumps", image: long_jumps() },
        Listing { name: "random bytes", image: random_bytes() },
    ]
}

impl Listing {
    /// The number of lines of a range.
    pub fn lines(&self, range: usize) -> usize {
        let mut lister = Lister::new(self, range, Buffer::Exact);
        lister.by_second();
        lister.buffer.iter().filter(|&&byte| byte == b'\n').count()
    }
}

/// An image of halves, each drawn for its place.
fn image(mut half: impl FnMut(usize) -> u16) -> Vec<u8> {
    (0..LONGEST / 2).flat_map(|place| half(place).to_be_bytes()).collect()
}

/// Drawn from all that are an instruction by themselves.
fn short_instructions() -> Vec<u8> {
    let mut random = Random(1);
    let is_short = |half: &u16| !needs_second(*half) && decode(*half, 0).is_some();
    image(|_| std::iter::repeat_with(|| random.half()).find(is_short).expect("there are some"))
}

/// `jf`, `jt`, `j` and `jl` with any displacement.
fn long_jumps() -> Vec<u8> {
    let mut random = Random(2);
    image(|place| match place % 2 {
        // The top bits 111, the jump's two, a zero, and the displacement's upper ten.
        0 => 0xe000 | random.half() & 0x1bff,
        _ => random.half(),
    })
}

fn random_bytes() -> Vec<u8> {
    let mut random = Random(3);
    image(|_| random.half())
}

/// The lent buffer.
#[derive(Clone, Copy, PartialEq)]
pub enum Buffer {
    /// Room for any listing: the library goes through the range once.
    Roomy,
    /// As long as the listing: the library goes through the range twice.
    Exact,
}

impl Buffer {
    pub const ALL: [Buffer; 2] = [Buffer::Roomy, Buffer::Exact];

    pub const fn name(self) -> &'static str {
        match self {
            Buffer::Roomy => "roomy",
            Buffer::Exact => "exact",
        }
    }
}

/// A listing's range and a buffer for it, which each program has for itself.
pub struct Lister<'l> {
    image: &'l [u8],
    range: usize,
    length: usize,
    pub buffer: Vec<u8>,
}

impl Lister<'_> {
    pub fn new(listing: &Listing, range: usize, buffer: Buffer) -> Lister<'_> {
        let Listing { image, name } = listing;
        let mut room = vec![0; range * manik::LISTING_ROOM];
        let length = second::listing::list(image, 0, range, &mut room);
        let length = length.unwrap_or_else(|refusal| panic!("{name}: {refusal}"));
        if buffer == Buffer::Exact {
            room.truncate(length);
            room.shrink_to_fit();
        }
        room.fill(0);
        Lister { image, range, length, buffer: room }
    }

    pub fn by_library(&mut self) {
        let listed = manik::list(self.image, 0, self.range, &mut self.buffer);
        assert_eq!(listed, Ok(self.length));
    }

    pub fn by_second(&mut self) {
        let listed = second::listing::list(self.image, 0, self.range, &mut self.buffer);
        assert_eq!(listed, Ok(self.length));
    }
}

#[cfg(test)]
mod tests {
    use super::*;

    /// The mnemonics of a listing's lines.
    fn mnemonics(listing: &Listing) -> Vec<String> {
        let mut lister = Lister::new(listing, LONGEST, Buffer::Exact);
        lister.by_second();
        let text = String::from_utf8(lister.buffer).expect("plain text");
        text.lines().filter_map(|line| line.split('\t').nth(2)).map(String::from).collect()
    }

    #[test]
    fn every_image_is_what_it_is_called() {
        let [short, long, random] = listings().each_ref().map(mnemonics);
        assert_eq!(short.len(), LONGEST / 2);
        assert!(!short.contains(&"half".to_string()));
        assert_eq!(long.len(), LONGEST / 4);
        assert!(long.iter().all(|name| ["jf", "jt", "j", "jl"].contains(&name.as_str())));
        for name in ["jf", "jt", "j", "jl"] {
            assert!(long.iter().filter(|each| *each == name).count() > LONGEST / 20, "{name}");
        }
        assert!((LONGEST / 4..LONGEST / 2).contains(&random.len()));
        assert!(random.contains(&"half".to_string()) && random.contains(&"jl".to_string()));
    }

    #[test]
    fn both_programs_list_the_same() {
        for listing in listings() {
            for buffer in Buffer::ALL {
                let new = || Lister::new(&listing, LONGEST, buffer);
                let (mut library, mut second) = (new(), new());
                library.by_library();
                second.by_second();
                assert!(library.buffer == second.buffer, "{}, {}", listing.name, buffer.name());
                assert!(library.buffer[0] == b'0');
            }
        }
    }
}
