//! Long runs, runs that go on, and how watched and plain runs agree.

use std::fs;

use crate::rig::{code, repository, Answer, Folder};

fn image() -> String {
    repository().join("examples/board/build31.hex").display().to_string()
}

/// What is told of the end alone.
fn end(answer: &Answer) -> Vec<&str> {
    answer.out.lines().skip(1).take(14).collect()
}

#[test]
fn a_run_goes_on_where_one_ended() {
    let folder = Folder::new();
    let whole = folder.call(&format!(
        "{} --mark 0xff40:64 --budget 400 --save-state all --save-memory memory",
        image()
    ));
    // The first part ends amid the key's stores.
    folder.call(&format!(
        "{} --mark 0xff40:64 --budget 140 --save-state one --save-memory first",
        image()
    ));
    let rest = folder.call("first --state one --budget 260 --save-state two --save-memory second");
    assert_eq!((whole.status, rest.status), (Some(0), Some(0)));
    let same = |one: &str, other: &str| {
        fs::read(folder.path(one)).unwrap() == fs::read(folder.path(other)).unwrap()
    };
    assert!(same("all", "two") && same("memory", "second") && !same("memory", "first"));
    assert_eq!(end(&whole)[3..], end(&rest)[3..]);
}

#[test]
fn watched_and_plain_runs_end_alike() {
    let folder = Folder::new();
    let lines = repository().join("examples/board/lines");
    let run = format!("{} --lines {} --budget 400", image(), lines.display());
    let plain = folder.call(&format!("{run} --mark 0xff40:64"));
    let watched = folder.call(&format!("{run} --mark key=0xff40:64"));
    assert_eq!(end(&plain), end(&watched));
    let partly = folder.call(&format!("{run} --mark 0xff40:64 --trace t --from 100 --to 200"));
    assert_eq!(end(&plain), end(&partly));
}

/// Counts in r1 for ever, five steps for each four.
fn counter(folder: &Folder) {
    folder.write("image", code("loop addi r1 1/ addi r1 1/ addi r1 1/ addi r1 1/ sj loop"));
}

#[test]
fn a_budget_over_many_parts() {
    let folder = Folder::new();
    counter(&folder);
    let answer = folder.call("image --size 64 --budget 5000000");
    assert_eq!((answer.status, answer.error.as_str()), (Some(0), ""));
    assert_eq!(answer.line("steps"), "steps    5000000");
    assert_eq!(answer.line("cycles"), "cycles   6000000, 250.000 ms at 24 MHz");
    assert!(answer.line("r1").starts_with("r1       003d0900"));
}

#[test]
fn a_tape_over_many_parts() {
    let folder = Folder::new();
    // The loop permits line 0, whose handler counts in r13.
    let source = " j begin/ half 0/ half 0/ half 0/ half 0/ addi r13 1/ jsfr sfr2/ half 0/ half 0/\
                  begin ldrpc r6 permit/ mtsfr sfr0 r6/stay sj stay/ half 0/permit word 0x100020";
    folder.write("image", code(source));
    let mut tape = vec![0; 2_500_000];
    for step in [1000, 1_048_575, 1_048_576, 1_048_577, 1_048_580, 2_499_990] {
        tape[step] = 1;
    }
    folder.write("tape", &tape);
    let answer = folder.call("image --size 64 --tape tape");
    assert_eq!(answer.line("steps"), "steps    2500000");
    // Two of them come while the handler is at work.
    let lines = "1001\t1001\t0\n1048576\t1048578\t0\n1048581\t1048581\t0\n2499991\t2499991\t0\n";
    folder.write("lines", lines);
    let same = folder.call("image --size 64 --lines lines --budget 2500000");
    assert_eq!(end(&answer), end(&same));
    assert!(answer.has("r13      00000004"), "{}", answer.out);
}

#[test]
fn the_default_budgets() {
    let folder = Folder::new();
    counter(&folder);
    folder.write("tape", [0; 77]);
    assert_eq!(folder.call("image --size 64").line("steps"), "steps    1000000");
    assert_eq!(folder.call("image --size 64 --tape tape").line("steps"), "steps    77");
    assert_eq!(folder.call("image --size 64 --tape tape --budget 7").line("steps"), "steps    7");
    assert_eq!(
        folder.call("image --size 64 --budget 0").line("reply"),
        "reply    10: budget used up"
    );
}
