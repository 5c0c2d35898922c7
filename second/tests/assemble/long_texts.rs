//! Long texts.

use std::thread;
use std::time::{Duration, Instant};

use second::assemble::{assemble, Refused};

use crate::rig::labelled;

/// Texts that would need a deep stack, or a long time, of a program that isn't careful.
#[test]
fn long_texts_need_neither_stack_nor_much_time() {
    const MANY: usize = 1_000_000;
    let [open, close] = ["(", ")"].map(|one| one.repeat(MANY));
    let texts = [
        (format!("\tword\t{open}\n"), Err((1, 30))),
        (format!("\tword\t{open}1{close}\n"), Err((1, 31))),
        (format!("\tword\t{}1{close}\n", "-(".repeat(MANY)), Err((1, 31))),
        (format!("\tword\t{open}1{close})\n"), Err((1, 30))),
        (format!("\tword\t{open}{close}\n"), Err((1, 30))),
        (format!("\tword\t{close}\n"), Err((1, 30))),
        (format!("\tword\t{}1\n", "-".repeat(MANY)), Err((1, 30))),
        (format!("\tword\t{}1\n", "0-".repeat(MANY)), Ok(4)),
        (format!("\tword\t{}1\n", "1*".repeat(MANY)), Ok(4)),
        (format!("\tword\t{}1\n", "(1)*".repeat(MANY)), Ok(4)),
        (format!("\tword\t0x{}1\n", "0".repeat(MANY)), Ok(4)),
        (format!("\tword\t1{}\n", "0".repeat(MANY)), Err((1, 35))),
        (format!("\tword\t{}\n", "a".repeat(MANY)), Err((1, 30))),
        (format!("{}\tword\t0\n", "a".repeat(MANY)), Err((1, 30))),
        ("\t".repeat(MANY), Err((1, 30))),
        ("\n".repeat(MANY), Err((1, 30))),
        ("\tjr\tr0\n".repeat(MANY), Ok(2 * MANY)),
        (format!("{}\tword\tnone\n", "x\thalf\tx\n".repeat(MANY)), Err((2, 33))),
        (labelled(MANY), Err((257, 34))),
        (format!("\tword\t0{}\nx\tjr\tr0\n", "+x-x".repeat(MANY)), Ok(6)),
    ];
    let small = thread::Builder::new().stack_size(128 * 1024).spawn(move || {
        let mut image = vec![0; 2 * MANY];
        for (text, expected) in texts {
            let begin = Instant::now();
            let answer = assemble(text.as_bytes(), 0, &mut image);
            let answer =
                answer.map(|done| done.end).map_err(|Refused { line, number }| (line, number));
            assert_eq!(answer, expected, "{:?}", &text[..20]);
            assert!(begin.elapsed() < Duration::from_secs(20), "{:?}", &text[..20]);
        }
    });
    small.expect("a thread").join().expect("no deep stack");
}
