//! The oracle's command line.
//! Files are lines of lower-case hexadecimal digits; in an answer `;` stands for a line feed, in one of why `/`, as clauses have `;`.

mod altered;
mod boundary;
mod boundary_events;
mod boundary_links;
mod boundary_rings;
mod boundary_several;
mod boundary_threads;
mod boundary_tso;
mod boundary_why;
mod clauses;
mod demand3;
mod execution;
mod handmade;
mod lent_rings;
mod models;
mod notation;
mod page;
mod reach;
mod reach_isb;
mod reach_pages;
mod reach_rings;
mod reach_tso;
mod renumber;
mod renumbered;
mod rules;
mod selftest;
mod selftest_numbering;
mod selftest_rings;
mod selftest_why;
mod shown;
mod sketch;
mod why;
mod worked;
mod worked_isb;
mod worked_numbering;
mod worked_pages;
mod worked_rings;
mod worked_tso;
mod worked_why;

use handmade::outcome;
use hex::{from_hex, to_hex, with_ring};
use oracle::{damage, draft, generate, hex, litmus, random, recording, relation, samples, translation};
use std::io::{self, BufRead, BufWriter, Write};
use std::process::exit;

const USAGE: &str = "usage: oracle COMMAND
  answer             files in, what the judge prints out
  translate          files in, the translation's bytes or `refused K` out
  load               files in, `loads` or `refused K` out
  page               lines FILE<TAB>RING in, the page's bytes or `refused K` out
  check              lines FILE<TAB>ANSWER in, differences out; status 1 if there are any
  why                files in, what why prints out
  check-why          as check, of what why prints
  clauses            lines MODEL RULE NAME: the clauses of each list in their order
  generate SEED N    N random files
  rings SEED         files in, lines FILE<TAB>RING out, with random rings
  renumber SEED      files in, a renumbered copy of each or `refused K` out
  renumbered         lines FILE<TAB>FILE in, `renumbered` out where both load and differ in numbering at most, else `different`
  boundary           lines NAME<TAB>FILE<TAB>EXPECTED
  litmus             lines NAME<TAB>FILE<TAB>ANSWER
  demand3 SEED N     demand 3, and the claim for x86-TSO, on N random source recordings
  selftest           the oracle's own tests";

/// `check` and `check-why` print this many differences.
const MOST_SHOWN: usize = 20;

fn main() {
    let words: Vec<String> = std::env::args().skip(1).collect();
    let words: Vec<&str> = words.iter().map(|w| w.as_str()).collect();
    let mut out = BufWriter::new(io::stdout().lock());
    let written = match words[..] {
        ["answer"] => each_file(&mut out, shown::answer),
        ["translate"] => each_file(&mut out, |file| written_or_refused(translation::translate(file))),
        ["load"] => each_file(&mut out, |file| outcome(recording::load(file).err().unwrap_or(0))),
        ["page"] => pages(&mut out),
        ["check"] => check(&mut out, shown::answer, shown::fault),
        ["why"] => each_file(&mut out, why::answer),
        ["check-why"] => check(&mut out, why::answer, why::fault),
        ["clauses"] => clauses::LISTS.iter().try_for_each(|&(model, rule, list)| {
            list.iter().try_for_each(|(name, _)| writeln!(out, "{model} {rule} {name}"))
        }),
        ["generate", seed, count] => generate(&mut out, number(seed), number(count)),
        ["rings", seed] => rings(&mut out, number(seed)),
        ["renumber", seed] => renumber(&mut out, number(seed)),
        ["renumbered"] => renumbered(&mut out),
        ["boundary"] => boundary::cases()
            .iter()
            .try_for_each(|c| writeln!(out, "{}\t{}\t{}", c.name, to_hex(&c.file), outcome(c.expected))),
        ["litmus"] => litmus::ROWS
            .iter()
            .try_for_each(|row| writeln!(out, "{}\t{}\t{}", row.name, to_hex(row.file), shown::answer(row.file))),
        ["demand3", seed, count] => {
            drop(out);
            exit(if demand3::run(number(seed), number(count) as usize) { 0 } else { 1 });
        }
        ["selftest"] => {
            drop(out);
            exit(if selftest::run() { 0 } else { 1 });
        }
        _ => {
            eprintln!("{USAGE}");
            exit(2);
        }
    };
    // A reader that stops early is no fault of ours.
    if written.and_then(|()| out.flush()).is_err() {
        exit(3);
    }
}

fn number(word: &str) -> u64 {
    word.parse().unwrap_or_else(|_| {
        eprintln!("not a number: {word}");
        exit(2)
    })
}

fn file_of(line: &str) -> Vec<u8> {
    from_hex(line).unwrap_or_else(|| {
        eprintln!("not hexadecimal: {line}");
        exit(2)
    })
}

/// Bytes in hexadecimal, or `refused K`.
fn written_or_refused(result: Result<Vec<u8>, u8>) -> String {
    result.map_or_else(outcome, |bytes| to_hex(&bytes))
}

fn lines() -> impl Iterator<Item = String> {
    io::stdin().lock().lines().map(|line| line.expect("standard input is text"))
}

/// Writes an answer line for each file line of the input.
fn each_file(out: &mut impl Write, answer: impl Fn(&[u8]) -> String) -> io::Result<()> {
    for line in lines() {
        writeln!(out, "{}", answer(&file_of(&line)))?;
    }
    Ok(())
}

fn generate(out: &mut impl Write, seed: u64, count: u64) -> io::Result<()> {
    let mut random = random::Random::new(seed);
    for _ in 0..count {
        writeln!(out, "{}", to_hex(&damage::any_file(&mut random)))?;
    }
    Ok(())
}

/// Writes a page for each line of a file and a ring.
fn pages(out: &mut impl Write) -> io::Result<()> {
    for line in lines() {
        let Some((file, ring)) = with_ring(&line) else {
            eprintln!("not a file and a ring: {line}");
            exit(2);
        };
        writeln!(out, "{}", written_or_refused(page::page(&file, &ring)))?;
    }
    Ok(())
}

/// Draws a ring for each file line of the input.
fn rings(out: &mut impl Write, seed: u64) -> io::Result<()> {
    let mut random = random::Random::new(seed);
    for line in lines() {
        let ring = lent_rings::draw(&mut random, &file_of(&line));
        writeln!(out, "{line}\t{}", to_hex(&ring))?;
    }
    Ok(())
}

/// Draws a renumbered copy of each file line of the input.
fn renumber(out: &mut impl Write, seed: u64) -> io::Result<()> {
    let mut random = random::Random::new(seed);
    for line in lines() {
        writeln!(out, "{}", written_or_refused(renumber::renumber(&mut random, &file_of(&line))))?;
    }
    Ok(())
}

/// Says of each line of two files whether one is a renumbered copy of the other.
fn renumbered(out: &mut impl Write) -> io::Result<()> {
    for line in lines() {
        let Some((one, other)) = line.split_once('\t') else {
            eprintln!("no tab: {line}");
            exit(2);
        };
        let is_copy = renumbered::renumbered(&file_of(one), &file_of(other));
        writeln!(out, "{}", if is_copy { "renumbered" } else { "different" })?;
    }
    Ok(())
}

/// Compares another program's answers with the papers: `ours` answers a file, and `fault` says why an answer is wrong.
fn check(out: &mut impl Write, ours: fn(&[u8]) -> String, fault: fn(&[u8], &str) -> Option<String>) -> io::Result<()> {
    let (mut compared, mut different) = (0, 0);
    for line in lines() {
        let Some((hex, theirs)) = line.split_once('\t') else {
            eprintln!("no tab: {line}");
            exit(2);
        };
        let file = file_of(hex);
        compared += 1;
        if let Some(why) = fault(&file, theirs) {
            different += 1;
            if different <= MOST_SHOWN {
                writeln!(out, "{hex}\n  theirs {theirs}\n  ours   {}\n  why    {why}", ours(&file))?;
            }
        }
    }
    writeln!(out, "{compared} compared, {different} different")?;
    out.flush()?;
    if different > 0 {
        exit(1);
    }
    Ok(())
}
