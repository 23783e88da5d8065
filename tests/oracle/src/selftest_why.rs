//! The oracle's own tests of why: worked answers, recordings whose clauses are known by hand, the clauses against the relations that they
//! are parts of, and altered answers.

use crate::boundary_why::{explained, Explained};
use crate::clauses::{clauses, Clause, LISTS};
use crate::damage::any_file;
use crate::execution::Execution;
use crate::generate::draft_of_kind;
use crate::handmade::bytes;
use crate::hex::to_hex;
use crate::models::{imm, ob, per_location, tso};
use crate::random::Random;
use crate::recording::{load, CHIP, SOURCE};
use crate::relation::{union, Relation};
use crate::rules::{ring_fault, Verdict};
use crate::selftest::Tally;
use crate::shown::judged;
use crate::why::{answer, fault};
use crate::worked_why::{ANSWERS, WRONG};
use std::collections::{BTreeMap, BTreeSet};

pub fn run(tally: &mut Tally) {
    names(tally);
    worked(tally);
    known_clauses(tally);
    parts_of_relations(tally);
    own_answers(tally);
}

/// Names can stand in a line, and in an answer, and no two of a list are the same.
fn names(tally: &mut Tally) {
    for (model, rule, list) in LISTS {
        let plain = list.iter().all(|(name, _)| name.chars().all(|c| c.is_ascii_graphic() && c != '/'));
        let all: BTreeSet<&str> = list.iter().map(|&(name, _)| name).collect();
        tally.test("names of clauses", plain && all.len() == list.len(), || format!("{model} {rule}: {all:?}"));
    }
}

/// Answers derived by hand, right and wrong ones.
fn worked(tally: &mut Tally) {
    for (name, text, expected) in ANSWERS {
        let file = bytes(text);
        let why = fault(&file, expected);
        tally.test(name, why.is_none(), || format!("{why:?}; ours {}", answer(&file)));
    }
    for (name, text, wrong, why) in WRONG {
        let got = fault(&bytes(text), wrong);
        tally.test(name, got.as_deref() == Some(why), || format!("{got:?}: {wrong}"));
    }
}

/// Rings and clauses against those known by hand, which have every clause of every list for some step.
fn known_clauses(tally: &mut Tally) {
    let mut met = BTreeSet::new();
    for case in explained() {
        let list = judged(&case.file).unwrap_or_else(|cause| panic!("{} is refused with {cause}", case.name));
        let (x, verdict) = list.into_iter().find(|(_, verdict)| verdict.model == case.model).expect("a verdict of the model");
        tally.test(&case.name, verdict.rule == Some(case.rule), || format!("rule {:?}", verdict.rule));
        if verdict.rule != Some(case.rule) {
            continue;
        }
        let why = ring_fault(&verdict, &case.ring);
        tally.test(&case.name, why.is_none(), || format!("{why:?}; ours {:?}", verdict.events));
        let rings = shortest_rings(&verdict, &x.numbers);
        tally.test(&case.name, (rings == [case.ring.clone()]) == case.only, || format!("{rings:?}"));
        let got = leading(&case, &x);
        tally.test(&case.name, got == case.steps, || format!("{got:?}"));
        met.extend(case.steps.iter().map(|step| (case.model, case.rule, step[0].clone())));
    }
    for (model, rule, list) in LISTS {
        for (name, _) in list {
            tally.test("a clause in a boundary file", met.contains(&(model, rule, name.to_string())), || format!("{model} {rule} {name}"));
        }
    }
}

/// For each step of a known ring the names of all clauses that lead there.
fn leading(case: &Explained, x: &Execution) -> Vec<Vec<String>> {
    let list = clauses(case.model, case.rule);
    let names = |a: u8, b: u8| list.iter().filter(|(_, leads)| leads(x, a, b)).map(|(name, _)| name.to_string()).collect();
    let next = case.ring.iter().cycle().skip(1);
    case.ring.iter().zip(next).map(|(&a, &b)| names(a, b)).collect()
}

/// All rings of a verdict that have as few events as the one that it shows, the smallest first in each.
fn shortest_rings(verdict: &Verdict, numbers: &[u8]) -> Vec<Vec<u8>> {
    let mut paths: Vec<Vec<u8>> = numbers.iter().map(|&first| vec![first]).collect();
    for _ in 1..verdict.events.len() {
        let leads = |a: u8, b: u8| verdict.steps.has(a, b) || verdict.closing.has(a, b);
        let longer = |path: &Vec<u8>| {
            let (first, last) = (path[0], path[path.len() - 1]);
            let next = numbers.iter().filter(|&&n| n > first && !path.contains(&n) && leads(last, n));
            next.map(|&n| [path.as_slice(), &[n]].concat()).collect::<Vec<_>>()
        };
        paths = paths.iter().flat_map(longer).collect();
    }
    paths.retain(|path| ring_fault(verdict, path).is_none());
    paths
}

/// The pairs of events that some clause of a list leads from and to.
fn united(list: &[Clause], x: &Execution) -> Relation {
    Relation::where_pairs(&x.numbers, |a, b| list.iter().any(|(_, leads)| leads(x, a, b)))
}

/// The lists of a kind with the relations that they are unions of: of IMM's rule 3 the steps and the closing step apart.
fn relations(kind: u8, x: &Execution) -> Vec<(&'static str, &'static [Clause], Relation)> {
    if kind == CHIP {
        return vec![("chip 3", clauses("chip", 3), per_location(x)), ("chip 5", clauses("chip", 5), ob(x))];
    }
    let model = imm(x);
    let (steps, closing) = clauses("source", 3).split_at(2);
    vec![
        ("source 3, steps", steps, union(&[&x.po, &model.sw])),
        ("source 3, closing", closing, model.eco),
        ("source 5", clauses("source", 5), model.ar),
        ("tso 3", clauses("tso", 3), per_location(x)),
        ("tso 5", clauses("tso", 5), tso(x)),
    ]
}

/// On drawn recordings the clauses of a list lead together from and to the same events as the relation that they are parts of.
fn parts_of_relations(tally: &mut Tally) {
    let mut random = Random::new(9);
    for kind in [SOURCE, CHIP] {
        for _ in 0..3000 {
            let file = draft_of_kind(&mut random, kind).to_bytes(&mut random);
            let x = Execution::of(&load(&file).expect("a drawn recording loads"));
            for (name, list, relation) in relations(kind, &x) {
                tally.test("clauses and their relation", united(list, &x) == relation, || format!("{name}: {}", to_hex(&file)));
            }
        }
    }
}

/// The oracle's answers to generated files pass its own check, and answers with one thing altered do not.
fn own_answers(tally: &mut Tally) {
    let mut random = Random::new(10);
    let mut made: BTreeMap<&str, usize> = BTreeMap::new();
    for _ in 0..1000 {
        let file = any_file(&mut random);
        let ours = answer(&file);
        tally.test("own answer of why", fault(&file, &ours).is_none(), || format!("{} {ours}", to_hex(&file)));
        let lines: Vec<String> = ours.split_terminator('/').map(String::from).collect();
        for (name, _, alter) in ALTERED {
            let mut altered = lines.clone();
            if alter(&mut random, &mut altered) && altered != lines {
                *made.entry(name).or_default() += 1;
                let altered: String = altered.iter().map(|line| format!("{line}/")).collect();
                tally.test(name, fault(&file, &altered).is_some(), || format!("{} {altered}", to_hex(&file)));
            }
        }
    }
    for (name, least, _) in ALTERED {
        let count = made.get(name).copied().unwrap_or(0);
        tally.test("altered answers of why", count >= least, || format!("{name}: {count}, not {least}"));
    }
}

/// Alters something in the lines of an answer; false where there is nothing of the kind.
type Alter = fn(&mut Random, &mut Vec<String>) -> bool;

/// What is altered in an answer to one of 1,000 files, and of how many at the least.
const ALTERED: [(&str, usize, Alter); 10] = [
    ("a line left out", 1000, |random, lines| {
        lines.remove(random.below(lines.len()));
        true
    }),
    ("a line twice", 1000, |random, lines| {
        let place = random.below(lines.len());
        lines.insert(place, lines[place].clone());
        true
    }),
    ("an empty line", 1000, |random, lines| {
        lines.insert(random.between(0, lines.len()), String::new());
        true
    }),
    ("two lines exchanged", 400, |random, lines| {
        let place = random.below(lines.len());
        lines.swap(place, 0);
        true
    }),
    ("a step under a line without a ring", 300, |random, lines| {
        let fixed: Vec<usize> = (0..lines.len()).filter(|&place| words(&lines[place])[1] == "allowed").collect();
        let Some(place) = fixed.last() else { return false };
        let (_, _, list) = random.pick(&LISTS);
        let step = format!("{} 1 2 {}", words(&lines[*place])[0], random.pick(list).0);
        lines.insert(place + 1, step);
        true
    }),
    ("another clause", 250, |random, lines| {
        let (_, _, list) = random.pick(&LISTS);
        let name = random.pick(list).0;
        of_step(random, lines, |[model, a, b, _]| format!("{model} {a} {b} {name}"))
    }),
    ("the events of a step exchanged", 250, |random, lines| {
        of_step(random, lines, |[model, a, b, name]| format!("{model} {b} {a} {name}"))
    }),
    ("a step from another event", 250, |random, lines| {
        let event = random.between(1, 12);
        of_step(random, lines, |[model, _, b, name]| format!("{model} {event} {b} {name}"))
    }),
    ("a step to another event", 250, |random, lines| {
        let event = random.between(1, 12);
        of_step(random, lines, |[model, a, _, name]| format!("{model} {a} {event} {name}"))
    }),
    ("a step of another model", 200, |random, lines| {
        let other = random.pick(&["source", "chip", "tso", "judge"]);
        of_step(random, lines, |[_, a, b, name]| format!("{other} {a} {b} {name}"))
    }),
];

fn words(line: &str) -> Vec<&str> {
    line.split(' ').collect()
}

/// Writes one of the lines of steps anew.
fn of_step(random: &mut Random, lines: &mut [String], anew: impl Fn([&str; 4]) -> String) -> bool {
    let is_step = |line: &String| words(line)[1].parse::<u8>().is_ok() && words(line).len() == 4;
    let steps: Vec<usize> = (0..lines.len()).filter(|&place| is_step(&lines[place])).collect();
    if steps.is_empty() {
        return false;
    }
    let place = random.pick(&steps);
    let words: Vec<&str> = words(&lines[place]);
    lines[place] = anew([words[0], words[1], words[2], words[3]]);
    true
}
