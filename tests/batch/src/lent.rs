//! Calls that fill an output, which is lent between guard bytes. What they read is lent as a copy.

use crate::probe::{OfFile, OfModel, OfRing};

const GUARD: usize = 64;
pub const MOST: usize = 1500;

/// An answer taken apart, and the bytes that were written.
#[derive(Clone, PartialEq)]
pub struct Answer {
    pub refusal: u64,
    pub rule: u64,
    pub bytes: Vec<u8>,
}

/// An answer that no call gives, with what is wrong for its bytes.
fn wrong(what: &str) -> Answer {
    Answer { refusal: 0, rule: 0, bytes: what.as_bytes().to_vec() }
}

/// A call with what it reads: a file, or a file and a ring; or a file, with the number of a model.
#[derive(Clone, Copy)]
pub enum Call<'a> {
    OfFile(OfFile, &'a [u8]),
    OfRing(OfRing, &'a [u8], &'a [u8]),
    OfModel(OfModel, &'a [u8], u64),
}

impl Call<'_> {
    /// Its answer with `room` bytes of an output that has as many; nothing where it changed what it reads.
    fn answer(self, out: *mut u8, room: usize) -> Option<u64> {
        // SAFETY: the pointers and lengths are those of copies and of an output that lie apart.
        match self {
            Call::OfFile(call, file) => reading(file, |at| unsafe { call(at, file.len(), out, room) }),
            Call::OfModel(call, file, model) => reading(file, |at| unsafe { call(at, file.len(), model, out, room) }),
            Call::OfRing(call, file, ring) => reading(file, |file_at| {
                reading(ring, |at| unsafe { call(file_at, file.len(), at, ring.len(), out, room) })
            })
            .flatten(),
        }
    }
}

/// What a call on a copy of bytes answers; nothing where the copy was changed.
fn reading<T>(bytes: &[u8], call: impl FnOnce(*const u8) -> T) -> Option<T> {
    let mut copy = bytes.to_vec();
    let answer = call(copy.as_mut_ptr());
    (copy == bytes).then_some(answer)
}

/// Lends `room` bytes of a filled buffer to a call. All bytes but those written must stay.
pub fn lent(call: Call, room: usize) -> Answer {
    let fill = |at: usize| (at * 37 + 11) as u8;
    let mut buffer: Vec<u8> = (0..GUARD + MOST + GUARD).map(fill).collect();
    let Some(answer) = call.answer(buffer[GUARD..].as_mut_ptr(), room) else {
        return wrong("changed what it reads");
    };
    let (refusal, rule, written) = (answer % 256, answer / 256 % 256, (answer / 65536) as usize);
    let end = GUARD + written;
    let stays = |at: usize| buffer[at] == fill(at);
    if written > room || !(0..GUARD).all(stays) || !(end..buffer.len()).all(stays) {
        return wrong("wrote outside");
    }
    if refusal != 0 && (rule != 0 || written != 0) {
        return wrong("a refusal with a rule or bytes");
    }
    Answer { refusal, rule, bytes: buffer[GUARD..end].to_vec() }
}

/// The answer at full room, which must be the same at exactly the room that it needs; with one byte less it is refused with 12.
pub fn at_each_room(call: Call) -> Answer {
    let answer = lent(call, MOST);
    let need = answer.bytes.len();
    if lent(call, need) != answer {
        return wrong("differs at the room that it needs");
    }
    if need > 0 && lent(call, need - 1) != (Answer { refusal: 12, rule: 0, bytes: Vec::new() }) {
        return wrong("differs with a byte less");
    }
    answer
}
