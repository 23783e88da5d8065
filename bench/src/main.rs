//! The benchmark of the probe's library beside a plain implementation of the same calls.
//! Files come as lines of hexadecimal digits, with a ring FILE<TAB>RING; an empty line is the empty file.

mod answer;
mod calls;
mod check;
mod inputs;
#[cfg(feature = "joins")]
mod joins;
mod library;
mod measure;
mod plain;
#[path = "../../tests/shared/probe.rs"]
mod probe;
mod table;

use oracle::hex;
use std::io::{self, BufRead, BufWriter, Write};
use std::process::exit;

const USAGE: &str = "usage: bench COMMAND
  table                         the times of every group and call, after checking that both answer alike
  inputs                        the table's files, as lines GROUP<TAB>CALL<TAB>FILE
  one GROUP CALL REPEATS        the library alone, so many times on each file of a row
  joins                         rows or-ed as one word beside byte by byte, where `bench/joins` built this program
  joins WAY CALL                one of the two ways, `words` or `bytes`, once on each file
  check < FILES                 the library against the plain implementation; ends in `N passed, M failed`
  answer WORD < FILES           the plain implementation's answers; WORD is load, translate, judge or verdicts
  answer page < FILES_AND_RINGS the same of pages";

/// `check` prints this many differences.
const MOST_SHOWN: usize = 10;

fn main() {
    let words: Vec<String> = std::env::args().skip(1).collect();
    let words: Vec<&str> = words.iter().map(|w| w.as_str()).collect();
    let done = match words[..] {
        ["table"] => table::print(),
        ["inputs"] => table::list(),
        ["one", group, call, repeats] => table::one(group, call, repeats),
        #[cfg(feature = "joins")]
        ["joins"] => joins::print(),
        #[cfg(feature = "joins")]
        ["joins", way, call] => joins::one(way, call),
        ["check"] => check_files(),
        ["answer", "load"] => answers(files().map(|file| answer::load(&file))),
        ["answer", "translate"] => answers(files().map(|file| answer::translate(&file))),
        ["answer", "judge"] => answers(files().map(|file| answer::judge(&file))),
        ["answer", "verdicts"] => answers(files().map(|file| answer::verdicts(&file))),
        ["answer", "page"] => answers(decoded(hex::with_ring).map(|(file, ring)| answer::page(&file, &ring))),
        _ => {
            eprintln!("{USAGE}");
            exit(2);
        }
    };
    if let Err(why) = done {
        eprintln!("{why}");
        exit(1);
    }
}

/// What the lines of the standard input hold.
fn decoded<T>(decode: fn(&str) -> Option<T>) -> impl Iterator<Item = T> {
    io::stdin().lock().lines().map(move |line| {
        let line = line.expect("standard input is text");
        decode(&line).unwrap_or_else(|| {
            eprintln!("not hexadecimal: {line}");
            exit(2)
        })
    })
}

fn files() -> impl Iterator<Item = Vec<u8>> {
    decoded(hex::from_hex)
}

fn answers(lines: impl Iterator<Item = String>) -> io::Result<()> {
    let mut out = BufWriter::new(io::stdout().lock());
    for line in lines {
        writeln!(out, "{line}")?;
    }
    out.flush()
}

fn check_files() -> io::Result<()> {
    let (mut passed, mut failed) = (0, 0);
    for file in files() {
        let Some(why) = check::differs(&file) else {
            passed += 1;
            continue;
        };
        failed += 1;
        if failed <= MOST_SHOWN {
            println!("{}\n  {why}", hex::to_hex(&file));
        }
    }
    println!("{passed} passed, {failed} failed");
    if failed > 0 || passed == 0 {
        return Err(io::Error::other("the library and the plain implementation differ, or no file was given"));
    }
    Ok(())
}
