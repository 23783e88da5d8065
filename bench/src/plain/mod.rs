//! A plain implementation of the probe's calls: a relation is 64 rows of 64 bits, a file is decoded once.
//! Its answers and the bytes that it writes are those of the library, the ring that is shown included.
//! Assumes nothing of the file and of the output's length.

mod armv8;
mod execution;
mod imm;
mod lines;
mod page;
pub mod recording;
mod relation;
mod translation;
mod tso;
mod verdict;

use execution::Execution;
use lines::Text;
use recording::{Loaded, CHIP, SOURCE};
use verdict::Verdict;

/// An answer: the refusal in bits 0 to 7, the broken rule in bits 8 to 15, the number of bytes written above.
fn answer(refusal: u8, rule: u8, written: usize) -> u64 {
    refusal as u64 | (rule as u64) << 8 | (written as u64) << 16
}

fn refused(cause: u8) -> u64 {
    answer(cause, 0, 0)
}

pub fn load(file: &[u8]) -> u64 {
    match recording::load(file) {
        Ok(_) => 0,
        Err(cause) => refused(cause),
    }
}

pub fn imm(file: &[u8], out: &mut [u8]) -> u64 {
    verdict_on(SOURCE, imm::judge, file, out)
}

pub fn armv8(file: &[u8], out: &mut [u8]) -> u64 {
    verdict_on(CHIP, armv8::judge, file, out)
}

pub fn tso(file: &[u8], out: &mut [u8]) -> u64 {
    verdict_on(SOURCE, tso::judge, file, out)
}

pub fn translate(file: &[u8], out: &mut [u8]) -> u64 {
    let loaded = match load_kind(SOURCE, file) {
        Ok(loaded) => loaded,
        Err(cause) => return refused(cause),
    };
    let chip = translation::translate(&loaded.recording);
    filled(0, translation::size(&chip), out, |start| translation::write(&chip, start))
}

pub fn judge(file: &[u8], out: &mut [u8]) -> u64 {
    let mut text = Text::new();
    match recording::load(file) {
        Err(cause) => text.refusal(cause),
        Ok(loaded) if loaded.recording.kind == CHIP => {
            text.verdict(b"chip", &armv8::judge(&Execution::of(&loaded)));
        }
        Ok(loaded) => {
            let source = Execution::of(&loaded);
            text.verdict(b"source", &imm::judge(&source));
            text.verdict(b"chip", &armv8::judge(&Execution::of(&translated(&loaded))));
            text.verdict(b"tso", &tso::judge(&source));
        }
    }
    written(0, text.bytes(), out)
}

pub fn page(file: &[u8], ring: &[u8], out: &mut [u8]) -> u64 {
    match recording::load(file) {
        Err(cause) => refused(cause),
        Ok(Loaded { recording, .. }) => {
            filled(0, page::size(&recording), out, |start| page::write(&recording, ring, start))
        }
    }
}

/// Loads a file of one kind.
fn load_kind(kind: u8, file: &[u8]) -> Result<Loaded, u8> {
    let loaded = recording::load(file)?;
    if loaded.recording.kind != kind {
        return Err(11);
    }
    Ok(loaded)
}

fn verdict_on(kind: u8, judge: fn(&Execution) -> Verdict, file: &[u8], out: &mut [u8]) -> u64 {
    match load_kind(kind, file) {
        Err(cause) => refused(cause),
        Ok(loaded) => {
            let verdict = judge(&Execution::of(&loaded));
            written(verdict.rule, verdict.shown(), out)
        }
    }
}

/// The translation of a source recording that loads; it loads, with the same coherence order.
fn translated(source: &Loaded) -> Loaded {
    let recording = translation::translate(&source.recording);
    let po = recording.program_order().expect("a translation's chains meet each event once and keep to the limit");
    Loaded { recording, po, co: source.co }
}

/// Writes bytes to the start of the output, or refuses with 12 where it is shorter.
fn written(rule: u8, bytes: &[u8], out: &mut [u8]) -> u64 {
    filled(rule, bytes.len(), out, |start| start.copy_from_slice(bytes))
}

/// Has so many bytes written at the start of the output, or refuses with 12 where it is shorter.
fn filled(rule: u8, size: usize, out: &mut [u8], write: impl FnOnce(&mut [u8])) -> u64 {
    if out.len() < size {
        return refused(12);
    }
    write(&mut out[..size]);
    answer(0, rule, size)
}
