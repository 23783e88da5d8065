//! What the program why prints: the judge's lines, and under each that shows a ring a line for each step, which names its clause. Making
//! the lines, and checking lines made by another program. `/` stands for a line feed, as names of clauses have `;`.

use crate::clauses::{clause, clauses};
use crate::execution::Execution;
use crate::rules::Verdict;
use crate::shown::{judged, line, line_fault, ring_of};

/// What why prints for a file, each line feed written as `/`.
pub fn answer(file: &[u8]) -> String {
    let lines = match judged(file) {
        Err(cause) => vec![format!("refused {cause}")],
        Ok(list) => list.iter().flat_map(|(x, verdict)| lines(x, verdict)).collect(),
    };
    lines.into_iter().map(|line| line + "/").collect()
}

/// The line of a verdict and the lines under it.
pub fn lines(x: &Execution, verdict: &Verdict) -> Vec<String> {
    let mut all = vec![line(verdict)];
    if shows_ring(verdict) {
        all.extend(steps(x, verdict, &verdict.events));
    }
    all
}

fn shows_ring(verdict: &Verdict) -> bool {
    matches!(verdict.rule, Some(3) | Some(5))
}

/// The lines of a ring's steps, from each event to the next and from the last to the first.
fn steps(x: &Execution, verdict: &Verdict, ring: &[u8]) -> Vec<String> {
    let list = clauses(verdict.model, verdict.rule.unwrap_or(0));
    let next = ring.iter().cycle().skip(1);
    let name = |a, b| clause(list, x, a, b).unwrap_or_else(|| panic!("no clause of the {} ring leads from {a} to {b}", verdict.model));
    ring.iter().zip(next).map(|(&a, &b)| format!("{} {a} {b} {}", verdict.model, name(a, b))).collect()
}

/// Why another program's answer to a file is wrong, or nothing if it is right.
pub fn fault(file: &[u8], theirs: &str) -> Option<String> {
    // Each line ends in `/`, so nothing stands behind the last one.
    let mut texts: Vec<&str> = theirs.split('/').collect();
    if texts.pop() != Some("") {
        return Some("the last line is not ended".into());
    }
    let list = match judged(file) {
        Err(cause) => return (texts != [format!("refused {cause}")]).then(|| "another refusal or none".into()),
        Ok(list) => list,
    };
    let mut left = &texts[..];
    for (x, verdict) in &list {
        if let Some(why) = verdict_fault(x, verdict, &mut left) {
            return Some(why);
        }
    }
    left.first().map(|text| format!("`{text}` is a line too many"))
}

/// Why the first of some lines are wrong for a verdict, or nothing if they are right, and then they are taken off.
fn verdict_fault(x: &Execution, verdict: &Verdict, left: &mut &[&str]) -> Option<String> {
    let Some((first, mut rest)) = left.split_first() else {
        return Some(format!("no {} line", verdict.model));
    };
    if let Some(why) = line_fault(verdict, first) {
        return Some(why);
    }
    if shows_ring(verdict) {
        let ring = ring_of(verdict, first).expect("a line without a fault shows a ring");
        for step in steps(x, verdict, &ring) {
            let Some((text, others)) = rest.split_first() else {
                return Some(format!("no line, where `{step}` is due"));
            };
            if *text != step {
                return Some(format!("`{text}`, where `{step}` is due"));
            }
            rest = others;
        }
    }
    *left = rest;
    None
}
