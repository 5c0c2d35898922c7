//! The state record of `include/manik.h`.

use second::record::{read, write, LENGTH};
use second::state::{Register, State};

mod generator;

use generator::Generator;

/// A state with another value in each place.
fn numbered() -> State {
    State {
        registers: std::array::from_fn(|n| Register {
            value: 0x0101_0100 + n as u32,
            marked: n % 3 == 1,
        }),
        pc: 0x2021_2223,
        psw: 0x3031_3233,
        tf_marked: true,
        cy_marked: false,
        ra: 0x4001_0000,
        ipc: 0x4002_0000,
        timer: 0x4003_0000,
        ibase: 0x4004_0000,
        usreg: 0x4005_0000,
        hwdbg: 0x4006_0000,
        bp0: 0x4007_0000,
        bp1: 0x4008_0000,
        wp0: 0x4009_0000,
        wp1: 0x400a_0000,
        pending: true,
        cycles: 0x500b_0000,
    }
}

/// The bytes of `numbered`, put together by the list of places.
fn numbered_bytes() -> Vec<u8> {
    let mut bytes = Vec::new();
    for n in 0..16 {
        bytes.extend([1, 1, 1, n]);
    }
    bytes.extend([0, 1, 0, 0, 1, 0, 0, 1, 0, 0, 1, 0, 0, 1, 0, 0]);
    bytes.extend([0x20, 0x21, 0x22, 0x23, 0x30, 0x31, 0x32, 0x33]);
    bytes.extend([1, 0, 1, 0]);
    for n in 1..=10 {
        bytes.extend([0x40, n, 0, 0]);
    }
    bytes.extend([0x50, 0x0b, 0, 0]);
    bytes.extend([0; 24]);
    bytes
}

#[test]
fn words_are_big_endian_at_their_places() {
    assert_eq!(LENGTH, 160);
    assert_eq!(numbered_bytes().len(), 160);
    assert_eq!(write(&numbered()).to_vec(), numbered_bytes());
    assert_eq!(read(&numbered_bytes()), Some(numbered()));
}

#[test]
fn the_fresh_state_is_zero_but_for_hwdbg() {
    let record = write(&State::fresh());
    let not_zero: Vec<usize> = (0..LENGTH).filter(|&place| record[place] != 0).collect();
    assert_eq!(not_zero, [92 + 4 * 5 + 3]);
    assert_eq!(record[115], 3);
    assert_eq!(read(&record), Some(State::fresh()));
}

/// The form of the state isn't looked at here: that is refusal 4.
#[test]
fn what_is_read_is_written_back_and_the_other_way_round() {
    let mut generator = Generator::new(3);
    for _ in 0..2_000 {
        let mut record = [0_u8; LENGTH];
        // SFR 1 to 10, and the cycles behind them.
        let word_places = (0..16).map(|n| 4 * n).chain([80, 84]).chain((0..11).map(|n| 92 + 4 * n));
        for place in word_places {
            record[place..place + 4].copy_from_slice(&generator.word().to_be_bytes());
        }
        for place in (64..80).chain([88, 89, 90]) {
            record[place] = (generator.word() % 2) as u8;
        }
        let state = read(&record).expect("the record has its shape");
        assert_eq!(write(&state), record);
        assert_eq!(read(&write(&state)), Some(state));
    }
}

#[test]
fn a_record_of_another_length_is_refused() {
    for length in [0, 1, 80, 159, 161, 320] {
        assert_eq!(read(&vec![0; length]), None, "{length}");
    }
}

#[test]
fn a_mark_or_flag_byte_above_1_is_refused() {
    for place in (64..80).chain([88, 89, 90]) {
        for (byte, good) in [(0, true), (1, true), (2, false), (128, false), (255, false)] {
            let mut record = write(&State::fresh());
            record[place] = byte;
            assert_eq!(read(&record).is_some(), good, "{byte} at {place}");
        }
    }
}

#[test]
fn a_byte_that_is_not_zero_where_zero_stands_is_refused() {
    for place in [91].into_iter().chain(136..160) {
        for byte in [1, 128, 255] {
            let mut record = write(&State::fresh());
            record[place] = byte;
            assert_eq!(read(&record), None, "{byte} at {place}");
        }
    }
}
