//! Why a run stopped.

use crate::rig::{code, Answer, Folder};

fn run(source: &str, words: &str) -> Answer {
    let folder = Folder::new();
    folder.write("image", code(source));
    folder.call(&format!("image --size 64 {words}"))
}

/// The lines of the reason, without the first.
fn why(answer: &Answer) -> Vec<&str> {
    let part = answer.out.split("why it ended: ").nth(1).expect("a reason");
    part.lines().skip(1).take_while(|line| !line.is_empty()).map(str::trim).collect()
}

#[test]
fn a_marked_base_with_its_origin() {
    // The origin is looked for in a second run: nothing here asks for watching.
    let answer = run(" ldrpc r1 0x20/ mov r2 r1/ movi r1 0/ ldr r3 0 r2", "--mark 0x20:4");
    assert_eq!(answer.line("reply"), "reply    14: a marked operand where none may be");
    assert_eq!(answer.status, Some(0));
    // r1 was written again, so the way back ends at r2.
    assert_eq!(
        why(&answer),
        ["00000006: ldr r3 0 r2", "r2, last written in step 2, 00000002: mov r2 r1"]
    );
}

#[test]
fn a_mark_through_memory() {
    let answer =
        run(" ldrpc r1 0x20/ movi r2 0x30/ str r1 0 r2/ ldrb r3 1 r2/ jr r3", "--mark key=0x20:4");
    assert_eq!(why(&answer), [
        "00000008: jr r3",
        "r3, last written in step 4, 00000006: ldrb r3 1 r2, address 00000031",
        "from the byte at 00000031, last written in step 3, 00000004: str r1 0 r2, address 00000030",
        "from r1, last written in step 1, 00000000: ldrpc r1 32, address 00000020 of key",
        "from the byte at 00000020 of key, as it was at the start",
    ]);
}

#[test]
fn flags_of_psw() {
    let answer = run(" ldrpc r1 0x20/ add r2 r1/ cmpeqi r1 0/ jsfr sfr0", "--mark 0x20:4");
    let why = why(&answer);
    assert_eq!(why[0], "00000006: jsfr sfr0");
    assert!(why.contains(&"tf, last written in step 3, 00000004: cmpeqi r1 0"));
    assert!(why.contains(&"cy, last written in step 2, 00000002: add r2 r1"));
    assert!(answer.has("tf       ********  cy       ********"));
}

#[test]
fn a_mark_of_the_start() {
    let folder = Folder::new();
    folder.write("image", code(" jr r7"));
    folder.write("state", "r7\t0x4\nmark\tr7\n");
    let answer = folder.call("image --size 64 --state state");
    assert_eq!(why(&answer), ["00000000: jr r7", "r7, as it was at the start"]);
}

#[test]
fn a_fetch_from_a_marked_byte() {
    let answer = run(" ldrpc r1 0x20/ movi r2 0x10/ str r1 0 r2/ jr r2", "--mark 0x20:4");
    assert_eq!(answer.line("reply"), "reply    12: instruction fetch from a marked byte");
    assert_eq!(answer.line("pc"), "pc       00000010: ********");
    assert_eq!(
        why(&answer)[..2],
        [
            "00000010: ********",
            "the byte at 00000010, last written in step 3, 00000004: str r1 0 r2, address 00000010",
        ]
    );
    // The second half of a long jump.
    let answer = run(" j 0x10", "--mark 2:1");
    assert_eq!(
        why(&answer),
        ["00000000: ********", "the byte at 00000002, as it was at the start"]
    );
}

#[test]
fn no_instruction() {
    let answer = run(" movi r1 0/ movi r2 0x10/ strh r1 0 r2/ jr r2", "--expect 13");
    assert_eq!(answer.status, Some(0));
    assert_eq!(why(&answer), [
        "00000010: half 0x0000",
        "the byte at 00000010, last written in step 3, 00000004: strh r1 0 r2, address 00000010",
    ]);
}

#[test]
fn the_last_steps() {
    let answer = run(" movi r1 25/loop addi r1 -1/ cmpgti r1 0/ sjt loop/ half 0", "");
    let steps: Vec<&str> =
        answer.out.split("the last 20 steps\n").nth(1).unwrap().lines().collect();
    assert_eq!(steps.len(), 21);
    let fields: Vec<&str> = steps[20].split_whitespace().collect();
    assert_eq!(fields, ["76", "0006", "-", "-", "sjt", "2"]);
    let fields: Vec<&str> = steps[18].split_whitespace().collect();
    assert_eq!(fields, ["74", "0002", "-", "-", "addi", "r1", "-1", "r1=00000000"]);
}

#[test]
fn entries_that_had_not_returned() {
    // A swint whose handler loads outside memory; the bus error's handler is no instruction.
    let source =
        " j 0x20/ movi r1 -1/ ldr r2 0 r1/ half 0/ half 0/ half 0/ half 0/ half 0/ half 0/ \
                  half 0/ half 0/ half 0/ half 0/ half 0/ half 0/ swint 5";
    let answer = run(source, "");
    assert_eq!(answer.line("reply"), "reply    13: bits that are no instruction");
    let entries = answer.out.split("the outermost first\n").nth(1).unwrap_or_default();
    assert_eq!(
        entries,
        "  step 2, from 00000020: swint 5\n  step 4, from 00000006: bus error, data\n"
    );
    // An entry that returned is gone.
    let source =
        " j 0x20/ jsfr sfr2/ half 0/ half 0/ half 0/ half 0/ half 0/ half 0/ half 0/ half 0/ \
                  half 0/ half 0/ half 0/ half 0/ half 0/ swint 5/ half 0";
    assert!(!run(source, "").has("had not returned"));
}

#[test]
fn why_can_be_asked_where_nothing_stopped() {
    let answer = run("stay sj stay", "--budget 50");
    assert!(!answer.has("why it ended"));
    let answer = run("stay sj stay", "--budget 50 --why");
    assert!(answer.has("why it ended: budget used up\n  00000000: sj 0\n"));
    assert!(answer.has("the last 20 steps\n"));
}
