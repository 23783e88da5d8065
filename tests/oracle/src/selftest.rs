//! The oracle's own tests: boundary files, litmus rows, worked examples, rings, pages, operators, its own answers, renumbered copies,
//! clauses, and what generated files and rings reach.

use crate::boundary;
use crate::boundary_rings;
use crate::boundary_threads::{pairs, translated_pairs};
use crate::boundary_tso;
use crate::damage::any_file;
use crate::handmade::{bytes, outcome};
use crate::hex::to_hex;
use crate::litmus;
use crate::page::page;
use crate::random::Random;
use crate::reach::{self, Reach};
use crate::reach_isb;
use crate::reach_pages::{of_pages, PageReach, SORTS};
use crate::reach_rings;
use crate::reach_tso;
use crate::recording::{load, CHIP, SOURCE};
use crate::relation::*;
use crate::rules::{ring_fault, Verdict};
use crate::selftest_numbering;
use crate::selftest_rings;
use crate::selftest_why;
use crate::shown::{answer, fault, line_fault, verdicts};
use crate::translation::translate;
use crate::worked;
use crate::worked_isb;
use crate::worked_pages::PAGES;
use crate::worked_rings;
use crate::worked_tso;

pub struct Tally {
    passed: usize,
    failed: usize,
}

impl Tally {
    pub fn test(&mut self, name: &str, holds: bool, detail: impl Fn() -> String) {
        if holds {
            self.passed += 1;
        } else {
            self.failed += 1;
            println!("failed: {name}: {}", detail());
        }
    }
}

/// Runs all tests; true if none fails.
pub fn run() -> bool {
    let mut tally = Tally { passed: 0, failed: 0 };
    for case in boundary::cases() {
        let got = load(&case.file).err().unwrap_or(0);
        tally.test(&case.name, got == case.expected, || {
            format!("{}, expected {}: {}", outcome(got), outcome(case.expected), to_hex(&case.file))
        });
    }
    for row in &litmus::ROWS {
        let got = answer(row.file);
        tally.test(row.name, litmus::verdicts_of(&got) == row.verdicts, || got.clone());
        tally.test(row.name, fault(row.file, row.answer).is_none(), || format!("{:?}", fault(row.file, row.answer)));
        tally.test(row.name, fault(row.file, &got).is_none(), || format!("{:?}", fault(row.file, &got)));
    }
    worked_answers(&mut tally);
    worked_tso_lines(&mut tally);
    let got = translate(&bytes(worked::TRANSLATION_FROM));
    tally.test("the worked translation", got == Ok(bytes(worked::TRANSLATION_TO)), || format!("{got:?}"));
    for each in [[6, 0, 0, 0], [6, 6, 4, 0]] {
        let got = translate(&pairs(each));
        tally.test("strong pairs translated", got == Ok(translated_pairs(each, 0)), || format!("{each:?}: {got:?}"));
    }
    let chip = translate(&bytes(worked::TRANSLATION_TO));
    tally.test("a chip file is not translated", chip == Err(11), || format!("{chip:?}"));
    known_rings(&mut tally);
    known_by_tso(&mut tally);
    pages(&mut tally);
    operators(&mut tally);
    selftest_rings::run(&mut tally);
    own_answers(&mut tally);
    selftest_numbering::run(&mut tally);
    selftest_why::run(&mut tally);
    generated_files(&mut tally);
    generated_pages(&mut tally);
    generated_barriers(&mut tally);
    generated_rings(&mut tally);
    generated_by_tso(&mut tally);
    println!("{} passed, {} failed", tally.passed, tally.failed);
    tally.failed == 0
}

/// Answers derived by hand, right and wrong ones.
fn worked_answers(tally: &mut Tally) {
    let [(_, file, expected), ..] = worked::ANSWERS;
    let printed = answer(&bytes(file)).replace(';', "\n");
    tally.test("the lines of 01's example", printed == expected.replace(';', "\n"), || printed.clone());
    for (name, text, expected) in worked::ANSWERS.into_iter().chain(worked_isb::ANSWERS).chain(worked_rings::ANSWERS) {
        let file = bytes(text);
        let why = fault(&file, expected);
        tally.test(name, why.is_none(), || format!("{why:?}; ours {}", answer(&file)));
        tally.test(name, fault(&file, &answer(&file)).is_none(), || answer(&file));
    }
    for (name, text, wrong) in worked::WRONG.into_iter().chain(worked_isb::WRONG) {
        tally.test(name, fault(&bytes(text), wrong).is_some(), || format!("taken for right: {wrong}"));
    }
    for (name, text, wrong, why) in worked_rings::WRONG {
        let got = fault(&bytes(text), wrong);
        tally.test(name, got.as_deref() == Some(why), || format!("{got:?}: {wrong}"));
    }
}

/// tso lines derived by hand, right and wrong ones.
fn worked_tso_lines(tally: &mut Tally) {
    for (name, text, line) in worked_tso::LINES {
        let file = bytes(text);
        let why = line_fault(&tso_verdict(&file), line);
        tally.test(name, why.is_none(), || format!("{why:?}; ours {}", answer(&file)));
        tally.test(name, fault(&file, &answer(&file)).is_none(), || answer(&file));
    }
    for (name, text, wrong, why) in worked_tso::WRONG {
        let got = line_fault(&tso_verdict(&bytes(text)), wrong);
        tally.test(name, got.as_deref() == Some(why), || format!("{got:?}: {wrong}"));
    }
}

/// The rules and the lengths of shortest rings against those known by hand.
fn known_rings(tally: &mut Tally) {
    for case in boundary_rings::ringed() {
        let shown = |verdict: &Verdict| (verdict.rule.unwrap_or(0), verdict.events.len());
        let got = verdicts(&case.file).map(|list| list.iter().map(shown).collect::<Vec<_>>());
        tally.test(&case.name, got.as_ref() == Ok(&case.rings), || format!("{got:?}, not {:?}", case.rings));
        let ours = answer(&case.file);
        tally.test(&case.name, fault(&case.file, &ours).is_none(), || ours.clone());
        if let Some((of, longer)) = &case.longer {
            let why = verdicts(&case.file).ok().and_then(|list| ring_fault(&list[*of], longer));
            let wanted = format!("{} events, where a ring of {} may be shown", longer.len(), case.rings[*of].1);
            tally.test(&case.name, why.as_ref() == Some(&wanted), || format!("{why:?}, not {wanted}"));
        }
    }
}

/// The tso verdict on a source file that loads.
fn tso_verdict(file: &[u8]) -> Verdict {
    let list = verdicts(file).unwrap_or_else(|cause| panic!("{} is refused with {cause}", to_hex(file)));
    list.into_iter().find(|verdict| verdict.model == "tso").expect("a source file has a tso verdict")
}

/// The tso verdicts against those known by hand.
fn known_by_tso(tally: &mut Tally) {
    for case in boundary_tso::known() {
        let tso = tso_verdict(&case.file);
        let got = (tso.rule.unwrap_or(0), tso.events.len());
        tally.test(&case.name, got == case.shown, || format!("{got:?}, not {:?}", case.shown));
        if let Some(order) = &case.order {
            tally.test(&case.name, tso.events == *order, || format!("{:?}, not {order:?}", tso.events));
        }
    }
}

/// Pages against those written by hand; and a file that does not load has the refusal of loading, with any ring.
fn pages(tally: &mut Tally) {
    for case in PAGES {
        let wanted: String = case.lines.iter().map(|line| format!("{line}\n")).collect();
        let got = page(&bytes(case.file), case.ring).map(|page| String::from_utf8_lossy(&page).into_owned());
        tally.test(case.name, got.as_ref() == Ok(&wanted), || format!("{got:?}"));
    }
    for case in boundary::cases() {
        let got = page(&case.file, &case.file).err().unwrap_or(0);
        tally.test(&case.name, got == case.expected, || format!("page {}: {}", outcome(got), to_hex(&case.file)));
    }
}

/// The operators against their definitions, pair by pair, on random relations among a few numbers.
fn operators(tally: &mut Tally) {
    let mut random = Random::new(1);
    let few = [0u8, 1, 5, 48, 56, 63];
    for _ in 0..500 {
        let percent = random.between(5, 40);
        let [r, s] = [0, 1].map(|_| selftest_rings::relation(&mut random, &few, percent));
        // The fewest steps of r, one or more, by the numbers reached by exactly 1, 2, .. of them; six numbers need no more than six.
        let fewest = |a: u8, b: u8| {
            let mut at = vec![a];
            (1..=6).find(|_| {
                at = few.iter().copied().filter(|&y| at.iter().any(|&x| r.has(x, y))).collect();
                at.contains(&b)
            })
        };
        let reached = |a: u8, b: u8| fewest(a, b).is_some();
        let (joined, closed, both, either) = (compose(&r, &s), plus(&r), intersection(&r, &s), union(&[&r, &s]));
        let (turned, less, maybe, any) = (inverse(&r), difference(&r, &s), opt(&r), star(&r));
        let mut holds = acyclic(&r) == few.iter().all(|&a| !reached(a, a));
        for a in few {
            for b in few {
                holds &= joined.has(a, b) == few.iter().any(|&m| r.has(a, m) && s.has(m, b));
                holds &= closed.has(a, b) == reached(a, b);
                holds &= both.has(a, b) == (r.has(a, b) && s.has(a, b));
                holds &= either.has(a, b) == (r.has(a, b) || s.has(a, b));
                holds &= turned.has(a, b) == r.has(b, a);
                holds &= less.has(a, b) == (r.has(a, b) && !s.has(a, b));
                holds &= maybe.has(a, b) == (a == b || r.has(a, b));
                holds &= any.has(a, b) == (a == b || reached(a, b));
                let path = shortest_path(&r, a, b);
                holds &= path.as_ref().map(|p| p.len() - 1) == fewest(a, b);
                let steps = |p: Vec<u8>| p[0] == a && p[p.len() - 1] == b && p.windows(2).all(|w| r.has(w[0], w[1]));
                holds &= path.is_none_or(steps);
            }
        }
        tally.test("operators of relations", holds, || "an operator differs from its definition".into());
    }
}

/// The oracle's answers to generated files pass its own check, and an altered answer to each does not.
fn own_answers(tally: &mut Tally) {
    let mut random = Random::new(2);
    for _ in 0..2000 {
        let file = any_file(&mut random);
        let ours = answer(&file);
        tally.test("own answer", fault(&file, &ours).is_none(), || format!("{} {ours}", to_hex(&file)));
        let altered = format!("{ours}x");
        tally.test("altered answer", fault(&file, &altered).is_some(), || format!("{} {altered}", to_hex(&file)));
    }
}

/// Drawn recordings load and reach every limit; those with a thread too long are refused with 13, the longest threads
/// from one over the limit to all events in one; and generated files have every outcome.
fn generated_files(tally: &mut Tally) {
    let mut random = Random::new(3);
    for (kind, too_long) in [(SOURCE, 13..=32), (CHIP, 19..=48)] {
        let (reached, refusals) = reach::of_recordings(&mut random, kind, 20_000);
        let wanted = Reach::limits(kind);
        tally.test("drawn recordings load", refusals.is_empty(), || format!("kind {kind}: refused {refusals:?}"));
        tally.test("drawn recordings reach the limits", reached == wanted, || format!("kind {kind}: {reached:?}"));
        let (longest, outcomes) = reach::of_too_long(&mut random, kind, 5_000);
        let refused = outcomes == [13].into();
        tally.test("drawn threads too long", longest == too_long.collect(), || format!("kind {kind}: {longest:?}"));
        tally.test("a thread too long is refused with 13", refused, || format!("kind {kind}: {outcomes:?}"));
    }
    let outcomes = reach::of_files(&mut random, 20_000);
    tally.test("every outcome arises", outcomes == (0..=10).chain([13]).collect(), || format!("{outcomes:?}"));
}

/// Pages of drawn recordings reach every length and all that a column can hold; the rings drawn for them are of every sort.
fn generated_pages(tally: &mut Tally) {
    let mut random = Random::new(4);
    for kind in [SOURCE, CHIP] {
        let (reached, sorts) = of_pages(&mut random, kind, 20_000);
        let wanted = PageReach::limits(kind);
        tally.test("pages reach the limits", reached == wanted, || format!("kind {kind}: {reached:?}"));
        for (name, _) in SORTS {
            tally.test("drawn rings", sorts.contains(name), || format!("kind {kind}: never {name}"));
        }
    }
}

/// Drawn chip recordings try both ways of the clause for isb, and many tell it from each wrong reading of it; an isb serves no other.
fn generated_barriers(tally: &mut Tally) {
    let (found, otherwise) = reach_isb::of_chip_recordings(&mut Random::new(5), 20_000);
    tally.test("an isb serves its clause alone", otherwise == 0, || format!("{otherwise} recordings are answered otherwise"));
    for (name, least, _) in reach_isb::SORTS {
        tally.test("drawn isb", found[name] >= least, || format!("{name}: {} recordings, not {least}", found[name]));
    }
}

/// Shortest rings of drawn recordings have many lengths, and many of the recordings tell each routine that shows longer ones.
fn generated_rings(tally: &mut Tally) {
    let told = reach_rings::of_recordings(&mut Random::new(7), 20_000);
    for (model, rule, wanted) in reach_rings::LENGTHS {
        let reached: Vec<usize> = told.lengths[&(model, rule)].keys().copied().collect();
        let others = reached.iter().any(|length| !wanted.contains(length));
        let holds = wanted.iter().all(|length| reached.contains(length)) && !(rule == 3 && others);
        tally.test("lengths of drawn rings", holds, || format!("{model}, rule {rule}: {reached:?}"));
    }
    for (model, rule, name, least, _) in reach_rings::ROUTINES {
        let longer = told.longer[&(model, rule, name)];
        let enough = longer.iter().zip(least).all(|(&count, least)| count >= least);
        tally.test("drawn rings", enough, || format!("{model}, rule {rule}, {name}: {longer:?} recordings, not {least:?}"));
    }
}

/// Drawn source recordings have every tso verdict, and many tell x86-TSO from each wrong reading of it.
fn generated_by_tso(tally: &mut Tally) {
    let told = reach_tso::of_source_recordings(&mut Random::new(8), 20_000);
    tally.test("tso by its parts", told.otherwise == 0, || format!("{} recordings have another", told.otherwise));
    for (rule, least) in reach_tso::VERDICTS {
        let count = told.verdicts.get(&rule).copied().unwrap_or(0);
        tally.test("drawn tso verdicts", count >= least, || format!("rule {rule}: {count} recordings, not {least}"));
    }
    let coherent = told.coherent >= reach_tso::COHERENT;
    tally.test("rule 3 is not IMM's", coherent, || format!("{} recordings", told.coherent));
    for (name, least, _) in reach_tso::WRONG {
        let counts = told.wrong[name];
        let enough = counts.iter().zip(least).all(|(&count, least)| if least == 0 { count == 0 } else { count >= least });
        tally.test("drawn readings", enough, || format!("{name}: {counts:?} recordings, not {least:?}"));
    }
}
