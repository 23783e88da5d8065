//! Whether the library and the plain implementation answer a file alike and write the same bytes.

use crate::calls::{written, Call, Function, CALLS, PAGE_OF_BYTES, ROOM};

const GUARD: usize = 64;

/// The answer of a call with `room` bytes of output, and all bytes of a filled buffer that the output lies in.
fn lent(call: Function, file: &[u8], room: usize) -> (u64, Vec<u8>) {
    let mut buffer: Vec<u8> = (0..GUARD + ROOM + GUARD).map(|at| (at * 37 + 11) as u8).collect();
    let answer = call(file, &mut buffer[GUARD..GUARD + room]);
    (answer, buffer)
}

/// Compares a call at full room, at the room that it needs, and with a byte less.
pub fn call_differs(call: &Call, file: &[u8]) -> Option<String> {
    let full = lent(call.plain, file, ROOM);
    let needed = written(full.0);
    for room in [ROOM, needed, needed.saturating_sub(1)] {
        let (ours, theirs) = (lent(call.plain, file, room), lent(call.library, file, room));
        if ours.0 != theirs.0 {
            return Some(format!("{} with room {room}: library {:#x}, plain {:#x}", call.name, theirs.0, ours.0));
        }
        if ours.1 != theirs.1 {
            return Some(format!("{} with room {room}: the output differs", call.name));
        }
    }
    None
}

/// What differs on a file, or nothing.
pub fn differs(file: &[u8]) -> Option<String> {
    CALLS.iter().chain([&PAGE_OF_BYTES]).find_map(|call| call_differs(call, file))
}
