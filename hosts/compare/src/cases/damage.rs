//! Inputs that are refused, and records that are out of shape.

use second::marks;
use second::state::psw;

use super::Draft;
use crate::random::Random;

/// Damages some part of a case, mostly so that it must be refused.
pub fn draft(random: &mut Random, draft: &mut Draft) {
    let length = draft.memory.len();
    match random.below(14) {
        0 => draft.memory.truncate(random.below(length.max(1) as u32) as usize),
        1 => {
            let shorter = random.pick(&[0, 1, 2, 3]);
            draft.memory.truncate(shorter * length / 4 + shorter);
            draft.marks.truncate(marks::room(draft.memory.len()));
        }
        2 | 3 => resize_marks(random, draft),
        4 | 5 => mark_past_end(random, draft),
        6 => draft.state.pc |= 1,
        7 => draft.state.psw |= psw::TR,
        8 => draft.state.hwdbg ^= 1 << random.below(32),
        9 => draft.state.pending = true,
        10 => {
            let more = random.pick(&[1, 2, 100, 1 << 31, 1 << 32, 1 << 63]);
            draft.budget = (draft.tape.len() as u64).saturating_add(more);
        }
        11 => draft.tape.truncate(draft.tape.len() / 2),
        12 if random.once_in(20) => too_long(random, draft),
        _ => {
            let strange = random.pick(&[64, 65, 127, 128, 255]);
            let at = random.below(draft.tape.len().max(1) as u32) as usize;
            draft.tape.get_mut(at).into_iter().for_each(|lines| *lines = strange);
        }
    }
}

/// Marks of another length: none, a byte too few or too many, rounded down, a byte for each byte of
/// memory as before ticket 7, or any.
fn resize_marks(random: &mut Random, draft: &mut Draft) {
    let (length, room) = (draft.memory.len(), marks::room(draft.memory.len()));
    let any = random.below(length as u32 + 1) as usize;
    let other = random.pick(&[0, room.saturating_sub(1), room + 1, length / 8, length, any]);
    draft.marks.resize(other, 0);
}

/// Bits past the memory's end, which is in the middle of a mark byte, if need be after this.
fn mark_past_end(random: &mut Random, draft: &mut Draft) {
    if draft.memory.len().is_multiple_of(8) {
        draft.memory.truncate(draft.memory.len().saturating_sub(4));
    }
    let bits = random.pick(&[0x10, 0x20, 0x40, 0x80, 0x90, 0xf0]);
    draft.marks.last_mut().into_iter().for_each(|last| *last |= bits);
}

/// Memory of a length above 65,536, with room for its marks.
fn too_long(random: &mut Random, draft: &mut Draft) {
    let length = random.pick(&[65_537, 65_538, 65_540, 65_540]);
    draft.memory.resize(length, 0);
    draft.marks.resize(marks::room(length), 0);
}

/// Damages a record, mostly so that it is out of shape.
pub fn record(random: &mut Random, record: &mut Vec<u8>) {
    let strange = random.pick(&[1, 2, 3, 128, 255]);
    let place = match random.below(6) {
        0 => 64 + random.below(16),
        1 => 88 + random.below(4),
        2 | 3 => 136 + random.below(24),
        4 => return record.truncate(random.below(160) as usize),
        _ => return record.extend(std::iter::repeat_n(0, 1 + random.below(8) as usize)),
    };
    record[place as usize] = strange;
}
