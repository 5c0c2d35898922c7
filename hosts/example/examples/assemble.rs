//! Assembles a snippet into an image and writes its bytes, then a text that is refused.

use manik::{assemble, AssembleError};

/// The loop of the board's program without its jump out: it sums a key word again and again.
const SNIPPET: &str = "\tldrpc\tr1\tkeyat\n\
                       loop\tldr\tr2\t0\tr1\n\
                       \txor\tr3\tr2\n\
                       \tsj\tloop\n\
                       keyat\tword\t0x10000-16*16\n";

fn main() -> Result<(), AssembleError> {
    let (start, mut image) = (4, [0; 32]);
    let assembled = assemble(SNIPPET.as_bytes(), start, &mut image)?;
    println!("{} lines: {:02x?}", assembled.lines, &image[start..assembled.end]);

    // The jump's label is written nowhere.
    if let Err(refusal) = assemble(b"\tjr\tr1\n\tsj\tnowhere\n", 0, &mut image) {
        println!("{refusal}");
    }
    Ok(())
}
