//! Each check that holds, and each that fails, with what is told of it.

use crate::rig::{code, Folder};

/// A stack of two words that goes down to 0x78 and back, then a loop that line 1 interrupts.
fn folder() -> Folder {
    let folder = Folder::new();
    folder.write(
        "image",
        code(concat!(
        " j begin/ half 0/ half 0/ half 0/ half 0/line addi r13 1/ jsfr sfr2/ half 0/ half 0/",
        "begin ldrpc r0 top/ ldrpc r6 permit/ mtsfr sfr0 r6/ addi r0 -4/ str r6 0 r0/ addi r0 -4/",
        " strh r6 0 r0/ addi r0 8/stay sj stay/ half 0/top word 0x80/permit word 0x200020"
    )),
    );
    folder.write("symbols", "0xc\tline\n0x14\tbegin\n0x24\tstay\n");
    folder
}

const RUN: &str = "image --size 256 --symbols symbols --budget 20";

fn status_and(folder: &Folder, words: &str, begin: &str) -> (Option<i32>, String) {
    let answer = folder.call(&format!("{RUN} {words}"));
    (answer.status, answer.line(begin).to_string())
}

#[test]
fn expect() {
    let folder = folder();
    assert_eq!(
        status_and(&folder, "--expect 10", "holds"),
        (Some(0), "holds    --expect 10".into())
    );
    let failed = (Some(1), "FAILED   --expect 14: it is 10".into());
    assert_eq!(status_and(&folder, "--expect 14", "FAILED"), failed);
    // Nothing is asked, and nothing fails.
    assert_eq!(folder.call(RUN).status, Some(0));
}

#[test]
fn keep() {
    let folder = folder();
    let holds = (Some(0), "holds    --keep a".into());
    assert_eq!(status_and(&folder, "--mark a=0x60:24 --keep a", "holds"), holds);
    // The half at 0x78, and not the word at 0x7c.
    let failed = "FAILED   --keep a: step 8, 00000020 begin+0xc: strh r6 0 r0, address 00000078";
    assert_eq!(
        status_and(&folder, "--mark a=0x60:25 --keep a", "FAILED"),
        (Some(1), failed.into())
    );
    let answer = folder.call(&format!("{RUN} --mark a=0x60:25 --mark b=0x7f:1 --keep b"));
    assert_eq!(
        answer.line("FAILED"),
        "FAILED   --keep b: step 6, 0000001c begin+0x8: str r6 0 r0, address 0000007c"
    );
    assert!(
        answer.has("a        00000060 to 00000078\n         contents stored to, first in step 8,")
    );
    assert!(answer.has("marks 24 of 25 left; lost first in step 8,"));
}

#[test]
fn a_store_of_marked_contents_keeps_the_marks_alone() {
    let folder = Folder::new();
    folder.write("image", code(" ldrpc r1 0x20/ movi r2 0x20/ str r1 4 r2/stay sj stay"));
    let answer = folder.call("image --size 64 --mark key=0x20:8 --keep key --budget 4");
    assert_eq!(answer.status, Some(1));
    assert!(answer
        .has("contents stored to, first in step 3, 00000004: str r1 4 r2, address 00000024\n"));
    assert!(answer.has("marks all 8 kept\n"));
}

#[test]
fn floor() {
    let folder = folder();
    // r0 is 0 before it is set, which is no stack yet.
    assert_eq!(status_and(&folder, "--floor 0x78", "holds").0, Some(0));
    let failed = "FAILED   --floor 0x79: step 7, 0000001e begin+0xa: addi r0 -4, r0 is 00000078";
    assert_eq!(status_and(&folder, "--floor 0x79", "FAILED"), (Some(1), failed.into()));
    folder.write("secret", code(" ldrpc r0 0x20/stay sj stay"));
    let answer = folder.call("secret --size 64 --mark 0x20:4 --floor 0 --budget 4");
    assert_eq!(
        answer.line("FAILED"),
        "FAILED   --floor 0x0: step 1, 00000000: ldrpc r0 32, r0 is ********"
    );
}

#[test]
fn a_floor_above_the_start() {
    let folder = Folder::new();
    folder.write("image", code("stay sj stay"));
    folder.write("state", "r0\t0x20\n");
    let answer = folder.call("image --size 64 --state state --floor 0x24 --budget 3");
    assert_eq!(
        answer.line("FAILED"),
        "FAILED   --floor 0x24: after step 0, 00000000, r0 is 00000020"
    );
    assert_eq!(
        folder.call("image --size 64 --state state --floor 0x20 --budget 3").status,
        Some(0)
    );
}

#[test]
fn reach_and_never() {
    let folder = folder();
    let reached = "--reach stay: step 10, 00000024 stay: sj 36";
    assert_eq!(
        status_and(&folder, "--reach stay", "holds"),
        (Some(0), format!("holds    {reached}"))
    );
    let failed = "FAILED   --reach line: it never comes there";
    assert_eq!(status_and(&folder, "--reach line", "FAILED"), (Some(1), failed.into()));
    assert_eq!(status_and(&folder, "--never 12", "holds"), (Some(0), "holds    --never 12".into()));
    // With the line high it is entered.
    folder.write("lines", "15\t15\t1\n");
    let failed = "FAILED   --never line: step 16, 0000000c line: addi r13 1";
    assert_eq!(
        status_and(&folder, "--lines lines --never line", "FAILED"),
        (Some(1), failed.into())
    );
    // The program counter at the end counts too.
    let answer = folder.call("image --size 256 --budget 1 --never 0x14 --reach 0x14");
    assert_eq!(answer.line("FAILED"), "FAILED   --never 0x14: after step 1, 00000014");
    assert_eq!(answer.line("holds"), "holds    --reach 0x14: after step 1, 00000014");
}

#[test]
fn all_at_once() {
    let folder = folder();
    let asked = "--mark k=0x78:8 --keep k --floor 0x7c --expect 12 --never stay --reach 0x40";
    let answer = folder.call(&format!("{RUN} {asked}"));
    assert_eq!(answer.status, Some(1));
    assert_eq!(answer.out.matches("\nFAILED ").count(), 5);
}
