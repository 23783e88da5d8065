//! The benchmark's files, all from fixed seeds: the litmus table, recordings of full size by their verdict, and damaged ones by their cause.
//! The oracle's generator draws them; which is of which verdict or cause says the plain implementation.

use crate::calls::{refusal, rule, written, Call, ARMV8, CALLS, IMM, JUDGE, LOAD, PAGE, ROOM, TRANSLATE, TSO};
use crate::plain;
use crate::plain::recording::{CHIP, SOURCE};
use oracle::damage::{damaged_full_file, full_file};
use oracle::litmus;
use oracle::random::Random;

pub type File = Vec<u8>;

/// A call on the files of a group.
pub struct Row {
    pub group: String,
    pub call: Call,
    pub files: Vec<File>,
}

/// Files of each outcome, and of each cause.
const EACH: usize = 8;

/// Allowed, and the rules whose breaking takes all of a verdict's work.
const OUTCOMES: [u8; 4] = [0, 3, 4, 5];

/// The causes of refusal of a file, in the order in which they are tried.
const CAUSES: [u8; 11] = [1, 2, 3, 4, 5, 6, 13, 7, 8, 9, 10];

const MOST_DRAWN: usize = 100_000;

/// Every row of the table.
pub fn rows() -> Vec<Row> {
    let mut rows = Vec::new();
    let litmus: Vec<File> = litmus::ROWS.iter().map(|row| row.file.to_vec()).collect();
    source_rows(&mut rows, "litmus", &litmus);
    sized_rows(&mut rows, SOURCE);
    sized_rows(&mut rows, CHIP);
    damaged_rows(&mut rows);
    rows
}

fn add(rows: &mut Vec<Row>, group: &str, call: Call, files: Vec<File>) {
    rows.push(Row { group: group.to_string(), call, files });
}

/// All calls on source files; the ARMv8 verdict is on their translations.
fn source_rows(rows: &mut Vec<Row>, group: &str, files: &[File]) {
    add(rows, group, LOAD, files.to_vec());
    add(rows, group, IMM, files.to_vec());
    add(rows, group, TSO, files.to_vec());
    add(rows, group, TRANSLATE, files.to_vec());
    add(rows, group, ARMV8, files.iter().map(|file| translation(file)).collect());
    add(rows, group, JUDGE, files.to_vec());
    add(rows, group, PAGE, files.to_vec());
}

fn translation(file: &[u8]) -> File {
    let mut out = [0; ROOM];
    let answer = plain::translate(file, &mut out);
    out[..written(answer)].to_vec()
}

/// The full size of one kind: all files together, then by the verdict of IMM on a source, of ARMv8 on a chip.
fn sized_rows(rows: &mut Vec<Row>, kind: u8) {
    let (name, verdict) = if kind == SOURCE { ("source", IMM) } else { ("chip", ARMV8) };
    let mut random = Random::new(kind as u64);
    let by_outcome = drawn(OUTCOMES, || {
        let file = full_file(&mut random, kind);
        let answer = (verdict.plain)(&file, &mut [0; ROOM]);
        assert_eq!(refusal(answer), 0, "a drawn recording loads");
        (rule(answer), file)
    });
    let all = by_outcome.concat();
    if kind == SOURCE {
        source_rows(rows, name, &all);
    } else {
        for call in [LOAD, ARMV8, JUDGE, PAGE] {
            add(rows, name, call, all.clone());
        }
    }
    for (outcome, files) in OUTCOMES.into_iter().zip(by_outcome) {
        let word = if outcome == 0 { "allowed".to_string() } else { format!("broken-{outcome}") };
        add(rows, &format!("{name}-{word}"), verdict, files);
    }
}

/// All calls on damaged files of every cause, then loading by cause.
fn damaged_rows(rows: &mut Vec<Row>) {
    let mut random = Random::new(100);
    let mut kinds = [SOURCE, CHIP].into_iter().cycle();
    let by_cause = drawn(CAUSES, || {
        let file = damaged_full_file(&mut random, kinds.next().expect("a cycle goes on"));
        (plain::load(&file) as u8, file)
    });
    for call in CALLS {
        add(rows, "damaged", call, by_cause.concat());
    }
    for (cause, files) in CAUSES.into_iter().zip(by_cause) {
        add(rows, &format!("damaged-{cause}"), LOAD, files);
    }
}

/// So many files of each outcome, the first ones that are drawn.
fn drawn<const N: usize>(outcomes: [u8; N], mut draw: impl FnMut() -> (u8, File)) -> [Vec<File>; N] {
    let mut found = outcomes.map(|_| Vec::new());
    for _ in 0..MOST_DRAWN {
        let (outcome, file) = draw();
        if let Some(place) = outcomes.iter().position(|&wanted| wanted == outcome) {
            if found[place].len() < EACH {
                found[place].push(file);
            }
        }
        if found.iter().all(|files| files.len() == EACH) {
            return found;
        }
    }
    panic!("too few files of an outcome among {MOST_DRAWN}");
}
