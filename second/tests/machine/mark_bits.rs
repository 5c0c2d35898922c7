//! Marks as bits (document 02, ticket 7): "Store one bit for each byte, lowest address in the lowest
//! bit, so the mark slice is the memory length divided by 8, rounded up."

use std::time::{Duration, Instant};

use second::marks;
use second::reply::Reply;
use second::run::{accepted_tape, run, Lent};

use crate::rig::{access, Rig, DBER, IBER, LENGTH};

/// movi r1,16, which always completes.
const MOVI: u16 = 0x7110;

/// jl, four bytes behind itself.
const JL: [u16; 2] = [0xf800, 0x0002];

/// The first byte's upper half of each load and of each store, with its size.
const LOADS: [(u16, u32); 3] = [(0x8, 4), (0xa, 2), (0xc, 1)];
const STORES: [(u16, u32); 3] = [(0x9, 4), (0xb, 2), (0xd, 1)];

/// A mark byte's place in the slice, and the addresses of its eight bytes of memory.
const PLACE: usize = 8;
const FIRST: u32 = 0x40;

/// The answer to a step in memory of this length with this mark slice. A refusal must leave it.
fn answer(length: usize, slice: &[u8]) -> (u32, u64) {
    let mut rig = Rig::with(&[]);
    rig.memory = MOVI.to_be_bytes().repeat(length / 2);
    rig.marks = slice.to_vec();
    let before = rig.clone();
    let answer = rig.run_steps(1);
    if answer.0 < 10 {
        assert_eq!(rig, before);
    }
    answer
}

#[test]
fn the_slice_is_the_memory_length_divided_by_8_rounded_up() {
    let rooms = [(4, 1), (8, 1), (12, 2), (16, 2), (20, 3), (24, 3), (28, 4), (65_528, 8_191)];
    for (length, room) in rooms.into_iter().chain([(65_532, 8_192), (65_536, 8_192)]) {
        assert_eq!(marks::room(length), room, "{length}");
        for bytes in [0, room - 1, room, room + 1, length / 8, length] {
            let expected = if bytes == room { (10, 1) } else { (2, 0) };
            assert_eq!(answer(length, &vec![0; bytes]), expected, "{length} and {bytes} bytes");
        }
    }
}

/// A slice of another length is refused for that, whatever its bits.
#[test]
fn the_length_comes_before_the_bits() {
    for length in [4, 8, 12, 20] {
        let room = length / 8 + usize::from(length % 8 > 0);
        assert_eq!(answer(length, &vec![0xff; room - 1]), (2, 0));
        assert_eq!(answer(length, &vec![0xff; room + 1]), (2, 0));
    }
}

/// Every byte that can be the last one of the slice, where half of it is past the end and where
/// nothing is. The first two bytes are fetched, and no bit of another mark byte is past the end.
#[test]
fn a_set_bit_past_the_end_is_refused_and_none_before_it() {
    for length in [4_usize, 12, 20, 60, 65_532, 8, 16, 64, 65_536] {
        let mut slice = vec![0xff; length.div_ceil(8)];
        slice[0] = 0xfc;
        let last = slice.len() - 1;
        for byte in 0..=255 {
            slice[last] = if last == 0 { byte & 0xfc } else { byte };
            let past_end = length % 8 == 4 && byte >= 0x10;
            let expected = if past_end { (3, 0) } else { (10, 1) };
            assert_eq!(answer(length, &slice), expected, "{length} bytes, {byte:#x}");
        }
    }
}

#[test]
fn the_lowest_address_is_in_the_lowest_bit() {
    for address in 0..16 {
        let mut slice = [0; 2];
        marks::mark(&mut slice, address..address + 1);
        assert_eq!(u16::from_le_bytes(slice), 1 << address);
        assert!((0..24).all(|other| marks::is_marked(&slice, other) == (other == address)));
        let alone: Vec<bool> = (0..16).map(|other| other == address).collect();
        assert_eq!(marks::packed(&alone), slice);
    }
    let mut slice = [0x01, 0, 0x80];
    marks::mark(&mut slice, 5..18);
    assert_eq!(slice, [0xe1, 0xff, 0x83]);
    marks::mark(&mut slice, 4..4);
    assert_eq!(slice, [0xe1, 0xff, 0x83]);
    assert_eq!(marks::packed(&[true, false, false, true]), [0b1001]);
    assert_eq!(marks::packed(&[]), [0; 0]);
}

/// A fetch at each place of a mark byte: a mark of one of its bytes stops it, and no other does.
#[test]
fn a_fetch_looks_at_its_own_bits() {
    for (halves, size) in [(&[MOVI][..], 2), (&JL, 4)] {
        for at in (FIRST..FIRST + 8).step_by(2) {
            let mut rig = Rig::busy(&[]);
            rig.place(at, halves);
            rig.state.pc = at;
            for place in 0..LENGTH {
                let mut marked = rig.clone();
                marked.mark_byte(place as usize);
                if (at..at + size).contains(&place) {
                    marked.assert_stops(12);
                } else {
                    assert_eq!(marked.run_steps(1), (10, 1), "{place:#x} beside {at:#x}");
                }
            }
            rig.mark_bytes(0..LENGTH as usize);
            rig.unmark_bytes(at as usize..(at + size) as usize);
            assert_eq!(rig.run_steps(1), (10, 1), "all but {at:#x}");
        }
    }
}

/// A load at each place of a mark byte: Rd is marked exactly if a byte loaded is.
#[test]
fn a_load_looks_at_its_own_bits() {
    for (top, size) in LOADS {
        for at in (FIRST..FIRST + 8).step_by(size as usize) {
            for byte in 0..=255_u8 {
                let mut rig = Rig::busy(&[access(top, 0, 3, 5)]);
                rig.set(5, at);
                rig.marks[PLACE - 1..PLACE + 2].copy_from_slice(&[0xff, byte, 0xff]);
                let before = rig.marks.clone();
                assert_eq!(rig.run_steps(1), (10, 1));
                let loaded = (at..at + size).any(|place| byte & 1 << (place - FIRST) != 0);
                assert_eq!(rig.state.registers[3].marked, loaded, "{size} at {at:#x}, {byte:#x}");
                assert_eq!(rig.marks, before);
            }
        }
    }
}

/// A store at each place of a mark byte sets or clears its own bits, whatever stands there, and
/// leaves its neighbours' in that byte and in those beside it.
#[test]
fn a_store_changes_its_own_bits_alone() {
    for (top, size) in STORES {
        for at in (FIRST..FIRST + 8).step_by(size as usize) {
            for (byte, marked) in (0..=255_u8).flat_map(|byte| [(byte, false), (byte, true)]) {
                let mut rig = Rig::busy(&[access(top, 0, 3, 5)]);
                rig.set(5, at);
                rig.state.registers[3].marked = marked;
                rig.marks[PLACE - 1..PLACE + 2].copy_from_slice(&[!byte, byte, !byte]);
                let mut expected = rig.marks.clone();
                for place in at..at + size {
                    let bit = 1 << (place - FIRST);
                    expected[PLACE] =
                        if marked { expected[PLACE] | bit } else { expected[PLACE] & !bit };
                }
                assert_eq!(rig.run_steps(1), (10, 1));
                assert_eq!(rig.marks, expected, "{size} at {at:#x} over {byte:#x}, {marked}");
            }
        }
    }
}

/// A machine of a length that ends in the middle of a mark byte, with this instruction.
fn half_byte(length: u32, half: u16) -> Rig {
    let mut rig = Rig::busy(&[]);
    rig.remember(vec![0x11; length as usize]);
    rig.place(0, &[half]);
    rig
}

/// The last word's marks are the lower half of the last mark byte. A store there is followed by
/// another call, which is not refused.
#[test]
fn a_store_into_the_last_word_sets_no_bit_past_the_end() {
    for length in [12, 20, 124, 65_532] {
        for (top, size) in STORES {
            for at in (length - 4..length).step_by(size as usize) {
                let mut rig = half_byte(length, access(top, 0, 3, 5));
                rig.place(2, &[MOVI]);
                rig.set(5, at);
                rig.mark(3);
                let stored = (at..at + size).fold(0, |bits, place| bits | 1 << (place % 8));
                assert_eq!(rig.run_steps(1), (10, 1));
                assert_eq!(rig.marks.last(), Some(&stored), "{size} at {at}");
                assert_eq!(rig.run_steps(1), (10, 1));
                rig.state.pc = 0;
                rig.state.registers[3].marked = false;
                assert_eq!(rig.run_steps(1), (10, 1));
                assert!(rig.marks.iter().all(|&byte| byte == 0), "{size} at {at}");
            }
        }
    }
}

/// The slice has bits for four bytes that memory doesn't have. An access there is a bus error.
#[test]
fn past_the_end_no_mark_is_read_or_written() {
    for length in [4, 12, 20, 124, 65_532] {
        for (top, size) in [LOADS, STORES].concat() {
            for at in (length..length + 4).step_by(size as usize) {
                let mut rig = half_byte(length, access(top, 0, 3, 5));
                rig.set(5, at);
                rig.mark(3);
                rig.mark_bytes(length as usize - 2..length as usize);
                rig.assert_bus_error(DBER, 2);
            }
        }
        for at in [length, length + 2] {
            let mut rig = half_byte(length, MOVI);
            rig.state.pc = at;
            rig.assert_bus_error(IBER, at);
        }
    }
}

/// A second half at the end of memory, in the middle of a mark byte, and one past it.
#[test]
fn a_long_jump_around_the_end() {
    for length in [12, 20, 124] {
        let mut rig = half_byte(length, MOVI);
        rig.place(length - 4, &JL);
        rig.state.pc = length - 4;
        for place in length as usize - 4..length as usize {
            let mut marked = rig.clone();
            marked.mark_byte(place);
            marked.assert_stops(12);
        }
        assert_eq!(rig.run_steps(1), (10, 1));
        let mut cut = half_byte(length, MOVI);
        cut.place(length - 2, &JL[..1]);
        cut.state.pc = length - 2;
        cut.assert_bus_error(IBER, length - 2);
    }
}

/// The refusals are decided without memory and marks, by what `Lent` has of them, and a run gives
/// them exactly then. So no call looks over the mark slice, which would take longer in a longer
/// memory. All other mark bytes are full here, which is no refusal.
#[test]
fn refusals_see_lengths_and_the_last_mark_byte() {
    for memory_length in [0, 2, 4, 6, 8, 12, 4_096, 65_528, 65_532, 65_536, 65_540] {
        let room = marks::room(memory_length);
        for marks_length in [room.saturating_sub(1), room, room + 1, memory_length] {
            for last_marks in [0x00, 0x01, 0x0f, 0x10, 0x80, 0xff] {
                let mut rig = Rig::with(&[]);
                rig.memory = MOVI.to_be_bytes().repeat(memory_length / 2);
                rig.marks = vec![0xff; marks_length];
                rig.marks.last_mut().into_iter().for_each(|last| *last = last_marks);
                let last_marks = if marks_length > 0 { last_marks } else { 0 };
                let lent = Lent { memory_length, marks_length, last_marks };
                let refused = accepted_tape(&rig.state, lent, &[0], 1).err().map(Reply::number);
                let (answer, _) = rig.run_steps(1);
                assert_eq!(refused, (answer < 10).then_some(answer), "{lent:?}");
            }
        }
    }
}

/// The time of many calls with a budget of 1, of the best of some rounds.
fn calls(length: usize) -> Duration {
    let mut rig = Rig::with(&[]);
    rig.remember(vec![0; length]);
    rig.place(0, &[0xf400]); // sj 0
    let mut round = || {
        let began = Instant::now();
        for _ in 0..20_000 {
            run(&mut rig.state, &mut rig.memory, &mut rig.marks, &[0], 1);
        }
        began.elapsed()
    };
    (0..9).map(|_| round()).min().expect("nine rounds")
}

/// A scan of the mark slice would take sixteen times as long in the longer memory: the margin is
/// for a busy machine.
#[test]
fn a_call_costs_the_same_in_a_long_memory() {
    let (short, long) = (calls(4_096), calls(65_536));
    assert!(long < 4 * short, "{long:?} and {short:?}");
}
