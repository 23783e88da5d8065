//! The judge's lines and the ring of a file, made of what the calls for the verdicts answer.

use crate::lent::{lent, Answer, Call, MOST};
use crate::probe::{probe_armv8, probe_imm, probe_translate, probe_tso};

/// The most bytes that a verdict writes.
pub const ROOM: usize = 64;

/// The answer of a call whose output is lent with so much room, or in some other way.
pub type Lending = fn(Call, usize) -> Answer;

/// The line of a rule and the events that are shown, without its line feed.
pub fn line_of(model: &str, rule: u64, events: &[u8]) -> String {
    let word = match rule {
        0 => "allowed".to_string(),
        rule => format!("broken {rule}"),
    };
    let events: String = events.iter().map(|e| format!(" {e}")).collect();
    format!("{model} {word}{events}")
}

fn line(model: &str, verdict: &Answer) -> String {
    line_of(model, verdict.rule, &verdict.bytes) + ";"
}

/// The lines of a source file whose verdicts under IMM and x86-TSO are given.
fn source_lines(file: &[u8], lending: Lending, imm: &Answer, tso: &Answer) -> String {
    let chip = lending(Call::OfFile(probe_translate, file), MOST).bytes;
    let armv8 = lending(Call::OfFile(probe_armv8, &chip), ROOM);
    match armv8.refusal {
        0 => line("source", imm) + &line("chip", &armv8) + &line("tso", tso),
        cause => format!("translation refused {cause}"),
    }
}

/// A file that loads is refused with 11 by the verdicts of the other kind; one that does not load has one number in all.
pub fn lines(file: &[u8], lending: Lending) -> String {
    let [imm, armv8, tso] = [probe_imm, probe_armv8, probe_tso].map(|verdict| lending(Call::OfFile(verdict, file), ROOM));
    match [imm.refusal, armv8.refusal, tso.refusal] {
        [0, 11, 0] => source_lines(file, lending, &imm, &tso),
        [11, 0, 11] => line("chip", &armv8),
        [cause @ (1..=10 | 13), other, third] if [cause; 2] == [other, third] => format!("refused {cause};"),
        causes => format!("refused {causes:?}"),
    }
}

/// The events of a broken verdict of the file's own kind; none where it is allowed or the file is refused.
/// The verdict of the other kind is refused and names no rule.
pub fn own_ring(file: &[u8]) -> Vec<u8> {
    let verdicts = [probe_imm, probe_armv8].map(|verdict| lent(Call::OfFile(verdict, file), MOST));
    verdicts.into_iter().find(|verdict| verdict.rule != 0).map_or(Vec::new(), |verdict| verdict.bytes)
}
