//! The printed lines: making them, and checking lines made by another program (01, "What is shown").

use crate::execution::Execution;
use crate::recording::{load, SOURCE};
use crate::rules::{judge_armv8, judge_imm, judge_tso, ring_fault, Verdict};
use crate::translation::translate;
use std::rc::Rc;

/// The verdicts on a file, each behind the execution that it is on: source, chip and tso for kind 1, chip for kind 2; or the number of its
/// refusal.
pub fn judged(file: &[u8]) -> Result<Vec<(Rc<Execution>, Verdict)>, u8> {
    let with_execution = |x: &Rc<Execution>, judge: fn(&Execution) -> Verdict| (x.clone(), judge(x));
    let recording = load(file)?;
    let own = Rc::new(Execution::of(&recording));
    if recording.kind != SOURCE {
        return Ok(vec![with_execution(&own, judge_armv8)]);
    }
    let chip_file = translate(file)?;
    let chip = load(&chip_file).unwrap_or_else(|k| panic!("a translation is refused with {k}"));
    let chip = Rc::new(Execution::of(&chip));
    Ok(vec![with_execution(&own, judge_imm), with_execution(&chip, judge_armv8), with_execution(&own, judge_tso)])
}

/// The verdicts alone.
pub fn verdicts(file: &[u8]) -> Result<Vec<Verdict>, u8> {
    judged(file).map(|list| list.into_iter().map(|(_, verdict)| verdict).collect())
}

/// The line of a verdict, without its line feed.
pub fn line(verdict: &Verdict) -> String {
    let mut text = format!("{} {}", verdict.model, word(verdict));
    for e in &verdict.events {
        text += &format!(" {e}");
    }
    text
}

/// `allowed`, or `broken` and the rule.
fn word(verdict: &Verdict) -> String {
    match verdict.rule {
        None => "allowed".into(),
        Some(rule) => format!("broken {rule}"),
    }
}

/// What the judge prints for a file, each line feed written as `;`.
pub fn answer(file: &[u8]) -> String {
    match verdicts(file) {
        Err(cause) => format!("refused {cause};"),
        Ok(list) => list.iter().map(|v| line(v) + ";").collect(),
    }
}

/// Why another program's answer to a file is wrong, or nothing if it is right.
pub fn fault(file: &[u8], theirs: &str) -> Option<String> {
    let list = match verdicts(file) {
        Err(cause) => {
            return (theirs != format!("refused {cause};")).then(|| "another refusal or none".to_string());
        }
        Ok(list) => list,
    };
    // Each line ends in `;`, so nothing stands behind the last one.
    let mut lines: Vec<&str> = theirs.split(';').collect();
    if lines.pop() != Some("") {
        return Some("the last line is not ended".into());
    }
    if lines.len() != list.len() {
        return Some(format!("{} lines, not {}", lines.len(), list.len()));
    }
    list.iter().zip(lines).find_map(|(verdict, text)| line_fault(verdict, text))
}

/// Why a line is wrong for a verdict, or nothing if it is right.
pub fn line_fault(verdict: &Verdict, text: &str) -> Option<String> {
    if !matches!(verdict.rule, Some(3) | Some(5)) {
        return (text != line(verdict)).then(|| format!("the {} line differs", verdict.model));
    }
    match ring_of(verdict, text) {
        Err(why) => Some(why),
        Ok(ring) => ring_fault(verdict, &ring).map(|why| format!("the {} ring: {why}", verdict.model)),
    }
}

/// The numbers that a line shows for a verdict under rule 3 or 5; or why it shows none.
pub fn ring_of(verdict: &Verdict, text: &str) -> Result<Vec<u8>, String> {
    let start = format!("{} {} ", verdict.model, word(verdict));
    let Some(shown) = text.strip_prefix(&start) else {
        return Err(format!("the {} line does not begin `{start}`", verdict.model));
    };
    let number = |text: &str| match text.parse::<u8>() {
        Ok(e) if e.to_string() == text => Ok(e),
        _ => Err(format!("`{text}` is not an event in decimal")),
    };
    shown.split(' ').map(number).collect()
}
