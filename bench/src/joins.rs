//! Rows or-ed as one word beside rows or-ed byte by byte: two archives of the library in one process, on the chip recordings of
//! 48 events and 255 links. `bench/joins` builds the second archive and renames its calls.

use crate::calls::{Call, Function};
use crate::inputs::{rows, Row};
use crate::library::with_output;
use crate::{check, table};
use std::io;

#[link(name = "bytewise", kind = "static")]
extern "C" {
    fn bytewise_armv8(file: *const u8, length: usize, out: *mut u8, room: usize) -> u64;
    fn bytewise_judge(file: *const u8, length: usize, out: *mut u8, room: usize) -> u64;
}

fn bytewise(call: &str) -> Option<Function> {
    match call {
        "armv8" => Some(|file, out| with_output(bytewise_armv8, file, out)),
        "judge" => Some(|file, out| with_output(bytewise_judge, file, out)),
        _ => None,
    }
}

/// The verdict and the judge on chip recordings, with the second archive in the place of the plain implementation.
fn both_ways() -> Vec<Row> {
    let chip = rows().into_iter().filter(|row| row.group == "chip");
    let both: Vec<Row> = chip.filter_map(|row| Some(Row { call: Call { plain: bytewise(row.call.name)?, ..row.call }, ..row })).collect();
    for file in both.iter().flat_map(|row| &row.files) {
        assert_eq!((file[1], file[3]), (48, 255), "events and links");
    }
    both
}

/// The table of times.
pub fn print() -> io::Result<()> {
    table::print_rows(&both_ways(), ["words", "bytes"], |row, file| check::call_differs(&row.call, file))
}

/// One of the two archives alone, each file once.
pub fn one(way: &str, call: &str) -> io::Result<()> {
    let row = both_ways().into_iter().find(|row| row.call.name == call).ok_or_else(|| io::Error::other(format!("no call {call}")))?;
    match way {
        "words" => table::repeat_row(&row, row.call.library, "1"),
        "bytes" => table::repeat_row(&row, row.call.plain, "1"),
        _ => Err(io::Error::other(format!("no way {way}"))),
    }
}
