//! Listings: the calls that are made of a case, by the static library and by the second program.

use manik::{ListError, LISTING_ROOM};
use second::corpus::{list_case, ListCase};
use second::listing::Refusal;

use crate::check::{first_difference, Disagreement};
use crate::random::Random;

/// A call of a lister: its case, and what the lent buffer is full of.
#[derive(Clone, Debug, PartialEq)]
pub struct Call {
    pub case: ListCase,
    pub filler: u8,
}

/// What a call leaves: the reply's number, 0 if the listing was written, its length, and the whole
/// buffer.
#[derive(Clone, Debug, PartialEq)]
pub struct Listed {
    pub reply: u32,
    pub length: usize,
    pub buffer: Vec<u8>,
}

/// The calls of a case. The first one is the case as it is drawn.
///
/// Sometimes it is made once more with the opposite in the buffer, since a byte that a lister must
/// leave alone may by chance become what it was. Sometimes it is made with room for any listing,
/// since the library then goes through the range once and not twice.
pub fn calls(seed: u64, index: u64) -> Vec<Call> {
    let mut random = Random::new(!seed, index);
    let case = list_case(seed, index);
    let filler = random.word() as u8;
    let mut calls = vec![Call { case: case.clone(), filler }];
    if random.once_in(4) {
        calls.push(Call { case: case.clone(), filler: !filler });
    }
    if random.once_in(2) {
        if let Some(least) = room_for_any(&case) {
            let room = least + random.pick(&[0, 0, 1, 40]);
            calls.push(Call { case: ListCase { room, ..case }, filler });
        }
    }
    calls
}

/// The least room in which the library goes through the range once; none if there is no such range.
pub fn room_for_any(case: &ListCase) -> Option<usize> {
    let is_listable = case.start <= case.end && case.end <= case.image.len();
    is_listable.then(|| (case.end - case.start) * LISTING_ROOM)
}

/// The call of the static library.
pub fn by_library(Call { case, filler }: &Call) -> Listed {
    let mut buffer = vec![*filler; case.room];
    let answer = manik::list(&case.image, case.start, case.end, &mut buffer);
    let (reply, length) = match answer {
        Ok(length) => (0, length),
        Err(ListError::UnknownReply { number, written }) => (number, written),
        Err(refusal) => (refusal.number(), 0),
    };
    Listed { reply, length, buffer }
}

/// The call of the second program.
pub fn by_second(Call { case, filler }: &Call) -> Listed {
    let (answer, buffer) = case.list(*filler);
    let (reply, length) = match answer {
        Ok(length) => (0, length),
        Err(refusal) => (refusal.number(), 0),
    };
    Listed { reply, length, buffer }
}

impl Listed {
    /// The answer as the second program gives it.
    pub fn answer(&self) -> Result<usize, Refusal> {
        match self.reply {
            0 => Ok(self.length),
            20 => Err(Refusal::Range),
            21 => Err(Refusal::Room),
            other => panic!("{other} is no reply of a listing"),
        }
    }
}

/// Makes a call of both programs; what both left.
pub fn check(call: &Call, library: impl Fn(&Call) -> Listed) -> Result<Listed, Disagreement> {
    let (one, other) = (library(call), by_second(call));
    if one == other {
        return Ok(other);
    }
    let text = format!(
        "replies {:?}, lengths {:?}, buffer of {} bytes full of {:02x} {}",
        (one.reply, other.reply),
        (one.length, other.length),
        call.case.room,
        call.filler,
        first_difference(&one.buffer, &other.buffer),
    );
    Err(Disagreement { about: "listing by library and second program", text })
}
