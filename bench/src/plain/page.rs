//! The printed page of a recording: a block for each thread, a line for each event.
//! Assumes a recording that loads.

use super::recording::{Event, Recording, FENCE, READ};
use super::relation::{has, single, Set};

const BLOCKS: usize = 4;
/// The columns of a block.
const BLOCK: usize = 20;
/// The bytes of a line: all blocks and a line feed.
const LINE: usize = BLOCKS * BLOCK + 1;

/// How many bytes the page has: a line for each event of the longest thread.
pub fn size(recording: &Recording) -> usize {
    let lengths = recording.heads.iter().map(|&head| thread(recording, head).count());
    LINE * lengths.max().unwrap_or(0)
}

/// Writes the page. The output has its size.
pub fn write(recording: &Recording, ring: &[u8], out: &mut [u8]) {
    let starred = starred(ring);
    out.fill(b' ');
    for line in out.chunks_exact_mut(LINE) {
        line[LINE - 1] = b'\n';
    }
    for (place, &head) in recording.heads.iter().enumerate() {
        for (e, line) in thread(recording, head).zip(out.chunks_exact_mut(LINE)) {
            let block = &mut line[BLOCK * place..BLOCK * (place + 1)];
            put(block, e, &recording.events[e], has(starred, e));
        }
    }
}

/// The events of the thread with this head.
fn thread(recording: &Recording, head: u8) -> impl Iterator<Item = usize> + '_ {
    let event = |e: u8| (e != 0).then_some(e as usize);
    std::iter::successors(event(head), move |&e| event(recording.events[e].next))
}

/// The numbers of a ring; those that no event can have are left out.
fn starred(ring: &[u8]) -> Set {
    ring.iter().filter(|&&e| e < 64).fold(0, |set, &e| set | single(e as usize))
}

/// Puts an event into a block of spaces, whose columns count from 0 here.
fn put(block: &mut [u8], e: usize, event: &Event, starred: bool) {
    put_decimal(&mut block[..2], e);
    block[3] = match event.class {
        READ => b'R',
        FENCE => b'F',
        _ => b'W',
    };
    block[4] = b'0' + event.mode;
    block[5] = b'0' + event.flag;
    if event.class != FENCE {
        block[7] = b'0' + event.location;
        put_decimal(&mut block[9..14], event.value as usize);
    }
    if starred {
        block[15] = b'*';
    }
}

/// Puts a number to the right of its columns, which it fits.
fn put_decimal(columns: &mut [u8], number: usize) {
    let mut left = number;
    for column in columns.iter_mut().rev() {
        *column = b'0' + (left % 10) as u8;
        left /= 10;
        if left == 0 {
            break;
        }
    }
}
