//! A small firmware on the board's memory: a marked key, and an interrupt that comes from the tape.

use manik::{marks, run, Error, State};

/// The board's memory.
const MEMORY: usize = 65_536;

/// Start, at 0. It sums a key word again and again until line 2 has called, then it looks into the
/// sum.
const START: &[u8] = &[
    0x40, 0x14, // 0000  ldrpc r1,16     the key's address, from the word at 0x10
    0x80, 0x21, // 0002  ldr r2,0,r1     a key word: r2 is marked
    0x27, 0x32, // 0004  xor r3,r2       so is the sum in r3
    0x30, 0x50, // 0006  cmpeqi r5,0     has line 2 never called?
    0xef, 0xfd, // 0008  sjt 2           then on
    0x30, 0x30, // 000a  cmpeqi r3,0     is the sum 0? TF is marked, as r3 is
    0xef, 0xfb, // 000c  sjt 2           the run stops here: the key would show
    0xf4, 0x00, // 000e  sj 14
    0x00, 0x00, 0xff, 0x00, // 0010  the key's address
];

/// The handler of the six lines, at IBASE with low byte 12.
const HANDLER: &[u8] = &[
    0x60, 0x51, // 010c  addi r5,1       counts the calls
    0x1e, 0x02, // 010e  jsfr sfr2       returns to IPC
];
const IBASE: usize = 0x100;

const KEY: &[u8] = b"NOTARY KEY STATE";
const KEY_AT: usize = 0xff00;

/// PSW bits: interrupts enabled, and line 2.
const IE: u32 = 1 << 5;
const LINE_2: u32 = 1 << 22;

fn put(memory: &mut [u8], address: usize, bytes: &[u8]) {
    memory[address..address + bytes.len()].copy_from_slice(bytes);
}

fn main() -> Result<(), Error> {
    // A build's image would come by std::fs::read, and be filled up to the board's length.
    let mut memory = vec![0; MEMORY];
    put(&mut memory, 0, START);
    put(&mut memory, IBASE + 12, HANDLER);
    put(&mut memory, KEY_AT, KEY);
    // One bit for each byte of memory: the key's are 1.
    let mut marks = vec![0; marks::room(MEMORY)];
    marks::mark(&mut marks, KEY_AT..KEY_AT + KEY.len());
    let mut state = State { psw: IE | LINE_2, ibase: IBASE as u32, ..State::fresh() };

    // One tape byte for each step, bit i for line i. Twenty steps with all lines low.
    let tape = [0; 20];
    let outcome = run(&mut state, &mut memory, &mut marks, &tape, tape.len() as u64)?;
    println!("{outcome}\n{state}\n");

    // The next call goes on from there. Line 2 is high in its fifth step.
    let mut tape = [0; 20];
    tape[4] = 1 << 2;
    let outcome = run(&mut state, &mut memory, &mut marks, &tape, tape.len() as u64)?;
    println!("{outcome}\n{state}");
    Ok(())
}
