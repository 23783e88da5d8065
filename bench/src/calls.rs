//! Seven of the calls, each in the library and in the plain implementation, and the parts of their answers. The plain implementation has no
//! `probe_why`.

use crate::{library, plain};

/// A call on a file and an output, which `load` leaves alone.
pub type Function = fn(&[u8], &mut [u8]) -> u64;

#[derive(Clone, Copy)]
pub struct Call {
    pub name: &'static str,
    pub library: Function,
    pub plain: Function,
}

pub const LOAD: Call = Call { name: "load", library: |file, _| library::load(file), plain: |file, _| plain::load(file) };
pub const IMM: Call = Call { name: "imm", library: library::imm, plain: plain::imm };
pub const ARMV8: Call = Call { name: "armv8", library: library::armv8, plain: plain::armv8 };
pub const TSO: Call = Call { name: "tso", library: library::tso, plain: plain::tso };
pub const TRANSLATE: Call = Call { name: "translate", library: library::translate, plain: plain::translate };
pub const JUDGE: Call = Call { name: "judge", library: library::judge, plain: plain::judge };

/// The page with a ring of a few events, as a verdict shows one.
pub const PAGE: Call = Call {
    name: "page",
    library: |file, out| library::page(file, heads(file), out),
    plain: |file, out| plain::page(file, heads(file), out),
};

/// The page with a ring of anything: the file's own bytes.
pub const PAGE_OF_BYTES: Call = Call {
    name: "page with the file for a ring",
    library: |file, out| library::page(file, file, out),
    plain: |file, out| plain::page(file, file, out),
};

pub const CALLS: [Call; 7] = [LOAD, IMM, ARMV8, TSO, TRANSLATE, JUDGE, PAGE];

/// The first events of the threads, as they stand in a file; none of a file without them.
fn heads(file: &[u8]) -> &[u8] {
    file.get(4..8).unwrap_or_default()
}

/// More bytes than any call writes.
pub const ROOM: usize = 1500;

pub fn refusal(answer: u64) -> u8 {
    answer as u8
}

pub fn rule(answer: u64) -> u8 {
    (answer >> 8) as u8
}

pub fn written(answer: u64) -> usize {
    (answer >> 16) as usize
}
