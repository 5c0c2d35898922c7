//! Lists the start of the board's firmware, then asks for a listing that is refused.

use manik::{list, ListError, LISTING_ROOM};

/// The code of the board's program from address 0 on, and the word behind it.
const IMAGE: [u8; 20] = [
    0x40, 0x14, 0x80, 0x21, 0x27, 0x32, 0x30, 0x50, 0xef, 0xfd, 0x30, 0x30, 0xef, 0xfb, 0xf4, 0x00,
    0x00, 0x00, 0xff, 0x00,
];

fn main() -> Result<(), ListError> {
    // Room for any listing of the image.
    let mut out = vec![0; IMAGE.len() * LISTING_ROOM];
    let length = list(&IMAGE, 0, IMAGE.len(), &mut out)?;
    print!("{}", String::from_utf8_lossy(&out[..length]));

    // An instruction lies at an even address.
    if let Err(refusal) = list(&IMAGE, 1, IMAGE.len(), &mut out) {
        println!("{refusal}");
    }
    Ok(())
}
