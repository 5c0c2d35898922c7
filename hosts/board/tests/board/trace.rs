//! The trace: document 02's fields, held to the second program, and the instruction.

use std::fs;

use second::state::State;
use second::step::{Entry, Step};

use crate::rig::{code, repository, Folder};

/// The line of a step as document 02's ticket 9 has it.
fn line((number, step): (usize, &Step)) -> String {
    let entry = match step.entry {
        None => '-',
        Some(Entry::Swint(_)) => 's',
        Some(Entry::Debug(_)) => 'd',
        Some(Entry::Timer) => 't',
        Some(Entry::External(_)) => 'e',
        Some(Entry::BusError(_)) => 'b',
    };
    let digits = |address: u32| {
        if address > 0xffff {
            format!("{address:08x}")
        } else {
            format!("{address:04x}")
        }
    };
    let address = step.address.map_or("-".into(), digits);
    format!("{}\t{}\t{entry}\t{address}\n", number + 1, digits(step.pc))
}

/// The second program's lines of a fresh run.
fn expected(image: &[u8], marked: std::ops::Range<usize>, tape: &[u8]) -> String {
    let mut memory = image.to_vec();
    let mut marks = vec![0; second::marks::room(memory.len())];
    second::marks::mark(&mut marks, marked);
    let mut steps = Vec::new();
    let budget = tape.len() as u64;
    second::run::run_observed(&mut State::fresh(), &mut memory, &mut marks, tape, budget, |step| {
        steps.push(step);
    });
    steps.iter().enumerate().map(line).collect()
}

/// The first four fields of each line.
fn fields(trace: &str) -> String {
    let cut = |line: &str| line.splitn(5, '\t').take(4).collect::<Vec<_>>().join("\t") + "\n";
    trace.lines().map(cut).collect()
}

#[test]
fn as_the_second_program_says() {
    let marked = [
        ("build31", 0xd0..0xe0),
        ("build32", 0xd0..0xe0),
        ("leak", 0xd0..0xe0),
        ("shifts_secret", 0x28..0x38),
    ];
    let plain = ["nested", "nested_lost", "nested_saved", "buserror", "buserror_lost"];
    let cases = marked.into_iter().chain(plain.map(|name| (name, 0..0)));
    for (name, marks) in cases {
        let folder = Folder::new();
        let image =
            fs::read(repository().join(format!("examples/{name}.image"))).expect("an image");
        // Line 3 is high now and then, though few of them permit it.
        let tape: Vec<u8> = (0..200).map(|step| if step % 7 == 0 { 8 } else { 0 }).collect();
        folder.write("image", &image);
        folder.write("tape", &tape);
        let mark = if marks.is_empty() {
            String::new()
        } else {
            format!("--mark {}:{}", marks.start, marks.len())
        };
        let answer =
            folder.call(&format!("image --size {} --tape tape --trace - {mark}", image.len()));
        assert_eq!((answer.status, answer.error.as_str()), (Some(0), ""), "{name}");
        assert_eq!(fields(&answer.out), expected(&image, marks, &tape), "{name}");
    }
}

/// Code that makes an entry of every kind.
const ENTRIES: &str = concat!(
    " j begin/ jsfr sfr2/ half 0/ addi r12 1/ jsfr sfr2/ addi r13 1/ jsfr sfr2/ addi r14 1/ jsfr sfr2/",
    "begin movi r1 0x50/ mtsfr sfr9 r1/ mtsfr sfr7 r1/ movi r2 9/ mtsfr sfr3 r2/ ldrpc r3 permit/",
    " mtsfr sfr0 r3/ movi r4 0x1c/ mtsfr sfr6 r4/ ldrb r5 0 r1/ swint 3/ movi r6 -1/ ldr r5 0 r6/",
    " jr r1/permit word 0x800030"
);

#[test]
fn an_entry_of_every_kind() {
    let folder = Folder::new();
    let mut image = code(ENTRIES);
    image.resize(0x60, 0x24);
    let tape: Vec<u8> = (0..60).map(|step| if step % 11 == 9 { 8 } else { 0 }).collect();
    folder.write("image", &image);
    folder.write("tape", &tape);
    let answer = folder.call("image --size 0x60 --tape tape --trace -");
    assert_eq!(fields(&answer.out), expected(&image, 0..0, &tape));
    for entry in ["s", "d", "t", "e", "b"] {
        assert!(answer.has(&format!("\t{entry}\t")), "{entry}: {}", answer.out);
    }
}

#[test]
fn lines_with_their_instructions() {
    let folder = Folder::new();
    folder.write("image", code(" movi r1 -1/ ldr r2 0 r1/ half 0"));
    let answer = folder.call("image --size 64 --trace - --budget 3");
    assert_eq!(answer.out, "1\t0000\t-\t-\tmovi\tr1\t-1\n2\t0002\tb\tfffffffc\tldr\tr2\t0\tr1\n");
}

#[test]
fn from_and_to() {
    let folder = Folder::new();
    folder.write("image", code("loop addi r1 1/ sj loop"));
    let numbers = |words: &str| {
        let answer = folder.call(&format!("image --size 64 --budget 50 --trace - {words}"));
        answer
            .out
            .lines()
            .map(|line| line.split('\t').next().unwrap().parse().unwrap())
            .collect::<Vec<u64>>()
    };
    assert_eq!(numbers("--from 3 --to 5"), [3, 4, 5]);
    assert_eq!(numbers("--to 2"), [1, 2]);
    assert_eq!(numbers("--from 49"), [49, 50]);
    assert!(numbers("--from 51").is_empty());
}
