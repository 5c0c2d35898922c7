//! Marks as bits: models of another layout are found, and what is written of marks.

use second::marks::room;
use second::state::State;

use super::{input, is_found, step_lines};
use crate::machine::{blotted, by_library, scrambled, End, Input};
use crate::random::Random;
use crate::report;

/// The library on other marks, and its marks as this model would leave them.
fn with_marks(input: &Input, change: impl Fn(&mut [u8])) -> End {
    let mut other = input.clone();
    change(&mut other.marks);
    let mut end = by_library(&other);
    change(&mut end.marks);
    end
}

#[test]
fn marks_of_another_layout_are_found() {
    let from_the_highest =
        |marks: &mut [u8]| marks.iter_mut().for_each(|byte| *byte = byte.reverse_bits());
    assert!(is_found(|input| with_marks(input, from_the_highest)));
    let halves_exchanged =
        |marks: &mut [u8]| marks.iter_mut().for_each(|byte| *byte = byte.rotate_left(4));
    assert!(is_found(|input| with_marks(input, halves_exchanged)));
    let last_byte_first = |marks: &mut [u8]| marks.reverse();
    assert!(is_found(|input| with_marks(input, last_byte_first)));
}

/// Models that refuse too little or too much.
#[test]
fn other_refusals_are_found() {
    let past_end_unseen = |input: &Input| {
        let (length, mut other) = (input.memory.len(), input.clone());
        let last = other.marks.last_mut().filter(|_| length % 8 == 4);
        let past_end = last.map_or(0, |last| {
            let past_end = *last & 0xf0;
            *last &= 0x0f;
            past_end
        });
        let mut end = by_library(&other);
        end.marks.last_mut().into_iter().for_each(|last| *last |= past_end);
        end
    };
    assert!(is_found(past_end_unseen));
    let any_length = |input: &Input| {
        let (length, mut other) = (input.marks.len(), input.clone());
        other.marks.resize(room(input.memory.len()), 0);
        let mut end = by_library(&other);
        end.marks.resize(length, 0);
        end
    };
    assert!(is_found(any_length));
    let rounded_down = |input: &Input| {
        let end = by_library(input);
        let reply = if input.memory.len() % 8 == 4 && end.reply == 10 { 2 } else { end.reply };
        End { reply, ..end }
    };
    assert!(is_found(rounded_down));
}

/// Stores that change the marks beside their own.
#[test]
fn neighbours_marks_that_change_are_found() {
    let changed = |input: &Input, change: fn(u8, u8) -> u8| {
        let mut end = by_library(input);
        for (after, before) in end.marks.iter_mut().zip(&input.marks) {
            if after != before {
                *after = change(*before, *after);
            }
        }
        end
    };
    assert!(is_found(|input| changed(input, |before, after| after & (before ^ after))));
    assert!(is_found(|input| changed(input, |_, after| if after == 0 { 0 } else { 0xff })));
    assert!(is_found(|input| changed(input, |before, after| before | after)));
}

/// An input with these marks, whose memory of 32 bytes is all 0.
fn marked(marks: [u8; 4]) -> Input {
    let mut input = input(&[], &State::fresh(), 1);
    input.marks = marks.to_vec();
    input
}

#[test]
fn the_bytes_whose_bits_are_set_are_scrambled() {
    let input = marked([0, 0b1000_0001, 0, 0b1111_0000]);
    let mut changed = [false; 32];
    for index in 0..100 {
        let other = scrambled(&input, &mut Random::new(1, index));
        let bytes = other.memory.iter().zip(&input.memory);
        changed.iter_mut().zip(bytes).for_each(|(place, (one, other))| *place |= one != other);
    }
    let places: Vec<usize> = (0..32).filter(|&place| changed[place]).collect();
    assert_eq!(places, [8, 15, 28, 29, 30, 31]);
    let Input { record, marks, .. } = input;
    let end = End { reply: 10, steps: 0, record, memory: vec![0xff; 32], marks };
    let kept = blotted(end).memory.into_iter().enumerate().filter(|&(_, byte)| byte == 0);
    assert_eq!(kept.map(|(place, _)| place).collect::<Vec<_>>(), places);
}

#[test]
fn the_addresses_of_marks_are_shown() {
    let shown = |marks: [u8; 4]| {
        let input = marked(marks);
        report::case(&input, &input).lines().nth(2).expect("a third line").to_string()
    };
    assert_eq!(shown([0; 4]), "marks 4 bytes, set at none");
    assert_eq!(shown([0b11, 0b1000_0001, 1, 0xf0]), "marks 4 bytes, set at 0-1 8 f-10 1c-1f");
    assert_eq!(shown([0xff; 4]), "marks 4 bytes, set at 0-1f");
}

/// A bit past the end shows at its address, and the run at the marks of its end.
#[test]
fn a_bit_past_the_end_is_shown() {
    let mut input = marked([0, 0, 0, 0x30]);
    input.memory.truncate(28);
    let text = report::case(&input, &input);
    assert_eq!(text.matches("marks 4 bytes, set at 1c-1d\n").count(), 1, "{text}");
    assert_eq!(text.matches("reply 3, steps 0\n").count(), 2, "{text}");
    assert_eq!(text.matches("  marks set at 1c-1d\n").count(), 2, "{text}");
    assert_eq!(step_lines(&input), [""; 0]);
}
