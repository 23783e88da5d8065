//! The batch driver over the probe's static library.
//!
//!     batch load | translate | translate-rooms | judge | judge-rooms | verdicts | verdicts-rooms | own-ring < FILES
//!     batch why | why-rooms | why-models < FILES
//!     batch page | page-rooms < FILES_AND_RINGS
//!
//! reads one file a line in hexadecimal (an empty line is the empty file), for a page FILE<TAB>RING, and writes one answer a line:
//! `load` writes `loads` or `refused K`, `translate` the translation in hexadecimal or `refused K`, `page` the same of the page,
//! `judge` what the judge prints, with `;` for a line feed, and `verdicts` the same, made of what the calls for the verdicts answer, each with
//! an output of 64 bytes.
//! `own-ring` writes FILE<TAB>RING: the events of a broken verdict of the file's own kind, none if it is allowed or refused.
//! `why` writes what the program why prints, with `/` for a line feed, made of what the call for it answers for each model, with an output
//! of 192 bytes; `why-models` writes `refused K`, which all models but those of the file's kind answer.
//! Every output lies between guard bytes. With `-rooms` it is lent three times: longer than the answer, as long, and one byte shorter.

#[path = "../../shared/hex.rs"]
mod hex;
mod lent;
#[path = "../../shared/probe.rs"]
mod probe;
mod verdicts;
mod why;

use hex::{from_hex, to_hex, with_ring};
use lent::{at_each_room, lent, Answer, Call, MOST};
use probe::{probe_judge, probe_load, probe_page, probe_translate};
use std::io::{self, BufRead, BufWriter, Write};
use std::process::exit;

const USAGE: &str = "usage: batch load | translate | translate-rooms | judge | judge-rooms | verdicts | verdicts-rooms | own-ring < FILES
       batch why | why-rooms | why-models < FILES
       batch page | page-rooms < FILES_AND_RINGS";

fn load(file: &[u8]) -> String {
    // SAFETY: the pointer and the length are those of a slice, and the call only reads it.
    match unsafe { probe_load(file.as_ptr(), file.len()) } {
        0 => "loads".to_string(),
        cause => format!("refused {cause}"),
    }
}

/// The bytes of a translation or a page.
fn written(answer: Answer) -> String {
    match (answer.refusal, answer.rule) {
        (0, 0) => to_hex(&answer.bytes),
        (cause, 0) => format!("refused {cause}"),
        (_, rule) => format!("broken rule {rule} where there is none"),
    }
}

fn lines(answer: Answer) -> String {
    match (answer.refusal, answer.rule) {
        (0, 0) => String::from_utf8_lossy(&answer.bytes).replace('\n', ";"),
        (cause, rule) => format!("refusal {cause} and broken rule {rule} of lines"),
    }
}

/// What the driver does for a word: its answer to a file, or to a file and a ring.
enum Word {
    OfFile(fn(&[u8]) -> String),
    OfRing(fn(&[u8], &[u8]) -> String),
}

fn named(word: &str) -> Option<Word> {
    Some(match word {
        "load" => Word::OfFile(load),
        "translate" => Word::OfFile(|file| written(lent(Call::OfFile(probe_translate, file), MOST))),
        "translate-rooms" => Word::OfFile(|file| written(at_each_room(Call::OfFile(probe_translate, file)))),
        "judge" => Word::OfFile(|file| lines(lent(Call::OfFile(probe_judge, file), MOST))),
        "judge-rooms" => Word::OfFile(|file| lines(at_each_room(Call::OfFile(probe_judge, file)))),
        "verdicts" => Word::OfFile(|file| verdicts::lines(file, lent)),
        "verdicts-rooms" => Word::OfFile(|file| verdicts::lines(file, |call, _| at_each_room(call))),
        "own-ring" => Word::OfFile(|file| format!("{}\t{}", to_hex(file), to_hex(&verdicts::own_ring(file)))),
        "why" => Word::OfFile(|file| why::lines(file, lent)),
        "why-rooms" => Word::OfFile(|file| why::lines(file, |call, _| at_each_room(call))),
        "why-models" => Word::OfFile(why::other_models),
        "page" => Word::OfRing(|file, ring| written(lent(Call::OfRing(probe_page, file, ring), MOST))),
        "page-rooms" => Word::OfRing(|file, ring| written(at_each_room(Call::OfRing(probe_page, file, ring)))),
        _ => return None,
    })
}

impl Word {
    /// The answer to a line, or nothing if the line is not as the word needs it.
    fn answer(&self, line: &str) -> Option<String> {
        match self {
            Word::OfFile(answer) => from_hex(line).map(|file| answer(&file)),
            Word::OfRing(answer) => with_ring(line).map(|(file, ring)| answer(&file, &ring)),
        }
    }
}

fn main() -> io::Result<()> {
    let Some(word) = named(&std::env::args().nth(1).unwrap_or_default()) else {
        eprintln!("{USAGE}");
        exit(2);
    };
    let mut out = BufWriter::new(io::stdout().lock());
    for line in io::stdin().lock().lines() {
        let line = line?;
        let Some(answer) = word.answer(&line) else {
            eprintln!("no hexadecimal line: {line}");
            exit(2);
        };
        writeln!(out, "{answer}")?;
    }
    out.flush()
}
