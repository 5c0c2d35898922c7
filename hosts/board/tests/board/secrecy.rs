//! What is written depends on no marked content.

use std::fs;

use crate::rig::{code, Folder};

/// Calls with images that differ in the marked bytes alone, and gives all that is written.
fn written(source: &str, key: [u8; 16], words: &str) -> Vec<Vec<u8>> {
    let folder = Folder::new();
    let mut image = code(source);
    image.resize(0x40, 0);
    image.extend(key);
    folder.write("image", image);
    let files = "--json j --trace t --plot p";
    let answer =
        folder.call(&format!("image --size 256 --mark key=0x40:16 --budget 60 {files} {words}"));
    let mut all = vec![answer.out.into_bytes(), answer.error.into_bytes()];
    all.extend(["j", "t", "p"].map(|name| fs::read(folder.path(name)).unwrap_or_default()));
    assert!(all[2..].iter().all(|file| !file.is_empty()), "{words}");
    all
}

#[test]
fn two_keys_one_answer() {
    let sources = [
        // A leak by a jump, by an address and by a shift.
        " movi r1 0x40/ ldr r2 0 r1/ cmpeqi r2 0/ sjt 0",
        " movi r1 0x40/ ldr r2 0 r1/ ldr r3 0 r2",
        " movi r1 0x40/ ldr r2 0 r1/ lsl r3 r2",
        // Code among the key, and a jump whose second half is.
        " j 0x40",
        " movi r1 0x40/ ldr r2 0 r1/ movi r3 0x20/ str r2 0 r3/ jr r3",
        // A stack pointer and a floor that are marked, then made from the key.
        " movi r1 0x40/ ldr r0 0 r1/ addi r0 -4/stay sj stay",
        // Done or not, under a marked TF, and the region stored to with what may be the same.
        " movi r1 0x40/ ldr r2 0 r1/ cmplti r2 0/ movt r3 r1/ addif r4 1/ str r3 0 r1/ str r2 4 r1/stay sj stay",
        " movi r1 0x40/ ldr r2 0 r1/ str r2 0 r1/ mfsfr r5 sfr0/ add r2 r2/ addc r6 r6/stay sj stay",
    ];
    let low = *b"\x70\x10\xf4\0\0\0\0\0\0\0\0\0\0\0\0\0";
    let high = [0xff; 16];
    for source in sources {
        for words in ["--keep key --floor 0x30 --why", "--never 0x44 --reach 0x42"] {
            assert!(
                written(source, low, words) == written(source, high, words),
                "{source} {words}"
            );
        }
    }
}

#[test]
fn a_saved_run_holds_the_marked_contents() {
    // It must, to go on.
    let folder = Folder::new();
    let mut image = code(" movi r1 0x20/ ldr r2 0 r1/stay sj stay");
    image.resize(0x20, 0);
    image.extend(*b"KEY!");
    folder.write("image", image);
    let answer =
        folder.call("image --size 64 --mark 0x20:4 --budget 3 --save-state s --save-memory m");
    assert!(!answer.has("4b455921") && !answer.has("KEY"));
    let state = fs::read_to_string(folder.path("s")).unwrap();
    assert!(state.contains("r2\t0x4b455921\n") && state.contains("mark\tr2\n"));
    assert!(state.contains("mark\t0x00000020\t4\n"));
    assert_eq!(fs::read(folder.path("m")).unwrap()[0x20..0x24], *b"KEY!");
}
