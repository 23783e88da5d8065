//! The table, the list of the files, and one function alone for a profiler.

use crate::calls::{Function, ROOM};
use crate::inputs::{rows, Row};
use crate::measure::{measure, median, repeat, Times};
use crate::{check, hex};
use std::io::{self, Write};

fn heading([first, second]: [&str; 2]) -> String {
    format!(
        "nanoseconds per call: the median over the files of each file's median, and the ratio of the two medians;
sums is the ratio of the sums over the files, slowest the slowest file of the first column
{:16} {:9} {:>5} {first:>11} {second:>9} {:>7} {:>7} {:>11}",
        "group", "call", "files", "ratio", "sums", "slowest"
    )
}

/// The library beside the plain implementation.
pub fn print() -> io::Result<()> {
    print_rows(&rows(), ["library", "plain"], |_, file| check::differs(file))
}

/// Checks that both answer all files alike, then prints the times.
pub fn print_rows(rows: &[Row], names: [&str; 2], differs: fn(&Row, &[u8]) -> Option<String>) -> io::Result<()> {
    let mut compared = 0;
    for row in rows {
        for file in &row.files {
            if let Some(why) = differs(row, file) {
                return Err(io::Error::other(format!("{}\n  {why}", hex::to_hex(file))));
            }
            compared += 1;
        }
    }
    let mut out = io::stdout().lock();
    writeln!(out, "{} and {} answer alike on {compared} files (some stand in several rows)", names[0], names[1])?;
    writeln!(out, "{}", heading(names))?;
    for row in rows {
        writeln!(out, "{}", line(row, &measure(row)))?;
    }
    Ok(())
}

fn line(row: &Row, times: &Times) -> String {
    let (library, plain) = (median(&times.library), median(&times.plain));
    let sums = times.library.iter().sum::<f64>() / times.plain.iter().sum::<f64>();
    let slowest = times.library.iter().copied().fold(0.0, f64::max);
    format!(
        "{:16} {:9} {:5} {:11.1} {:9.1} {:7.2} {:7.2} {:11.1}",
        row.group,
        row.call.name,
        row.files.len(),
        library * 1e9,
        plain * 1e9,
        library / plain,
        sums,
        slowest * 1e9
    )
}

/// Lines GROUP<TAB>CALL<TAB>FILE.
pub fn list() -> io::Result<()> {
    let mut out = io::stdout().lock();
    for Row { group, call, files } in rows() {
        for file in files {
            writeln!(out, "{group}\t{}\t{}", call.name, hex::to_hex(&file))?;
        }
    }
    Ok(())
}

/// Calls the library so many times on each file of a row.
pub fn one(group: &str, call: &str, repeats: &str) -> io::Result<()> {
    let row = rows().into_iter().find(|row| row.group == group && row.call.name == call);
    let row = row.ok_or_else(|| io::Error::other(format!("no row {group} {call}; `inputs` lists them")))?;
    repeat_row(&row, row.call.library, repeats)
}

/// Calls a function so many times on each file of a row.
pub fn repeat_row(row: &Row, function: Function, repeats: &str) -> io::Result<()> {
    let repeats = repeats.parse().map_err(|_| io::Error::other(format!("not a number: {repeats}")))?;
    let mut out = [0; ROOM];
    for file in &row.files {
        repeat(function, file, &mut out, repeats);
    }
    println!("{} {}: {} files, {repeats} calls each", row.group, row.call.name, row.files.len());
    Ok(())
}
