//! The oracle's shortest ring, and its check of rings, against brute force: all rings of drawn relations among a few numbers.

use crate::random::Random;
use crate::relation::Relation;
use crate::rules::{ring, ring_fault, Verdict};
use crate::selftest::Tally;
use std::collections::BTreeSet;

const FEW: [u8; 6] = [0, 1, 5, 48, 56, 63];

pub fn run(tally: &mut Tally) {
    let mut random = Random::new(6);
    let lists = lists();
    let mut reached = BTreeSet::new();
    for _ in 0..1000 {
        let (steps, closing) = draw(&mut random);
        let rings: Vec<&Vec<u8>> = lists.iter().filter(|list| is_ring(list, &steps, &closing)).collect();
        let least = rings.iter().map(|ring| ring.len()).min();
        reached.insert(least);
        let found = ring(&FEW, &steps, &closing);
        let is_shortest = found.as_ref().map(|found| found.len()) == least && found.iter().all(|found| rings.contains(&found));
        tally.test("a shortest ring", is_shortest, || format!("{found:?}, of {rings:?}"));
        if let Some(events) = found {
            checked(tally, &lists, &rings, Verdict { model: "source", rule: Some(3), events, steps, closing });
        }
    }
    let all = (1..=FEW.len()).map(Some).chain([None]).collect();
    tally.test("drawn rings have every length", reached == all, || format!("{reached:?}"));
}

/// Of all lists the check takes exactly the shortest of the rings.
fn checked(tally: &mut Tally, lists: &[Vec<u8>], rings: &[&Vec<u8>], mut verdict: Verdict) {
    let least = rings.iter().map(|ring| ring.len()).min();
    let accepts = |verdict: &Verdict, list: &[u8]| ring_fault(verdict, list).is_none();
    let wrong = lists.iter().find(|list| accepts(&verdict, list) != (Some(list.len()) == least && rings.contains(list)));
    tally.test("exactly the shortest rings", wrong.is_none(), || format!("{wrong:?}, of {rings:?}"));
    let turned = rings.iter().find(|ring| (1..ring.len()).any(|by| accepts(&verdict, &rotated(ring, by))));
    tally.test("no ring turned", turned.is_none(), || format!("{turned:?}"));
    // If the oracle's own ring were a longer one, a shortest would show it.
    let shortest = verdict.events.clone();
    let unnoticed = rings.iter().filter(|ring| Some(ring.len()) != least).find(|ring| {
        verdict.events = ring.to_vec();
        accepts(&verdict, &shortest)
    });
    tally.test("no ring shorter than the oracle's", unnoticed.is_none(), || format!("{shortest:?} for {unnoticed:?}"));
}

/// All lists of some of the numbers, each once, the smallest first.
fn lists() -> Vec<Vec<u8>> {
    let mut all: Vec<Vec<u8>> = FEW.iter().map(|&first| vec![first]).collect();
    let mut at = 0;
    while at < all.len() {
        let list = all[at].clone();
        let others = FEW.iter().filter(|&&n| n > list[0] && !list.contains(&n));
        all.extend(others.map(|&n| [list.as_slice(), &[n]].concat()));
        at += 1;
    }
    all
}

/// By the definition: all steps are of `steps`, or all but one, which is of `closing` and joins two numbers.
fn is_ring(list: &[u8], steps: &Relation, closing: &Relation) -> bool {
    let next = rotated(list, 1);
    let others: Vec<(u8, u8)> = list.iter().copied().zip(next).filter(|&(a, b)| !steps.has(a, b)).collect();
    match others[..] {
        [] => true,
        [(a, b)] => a != b && closing.has(a, b),
        _ => false,
    }
}

fn rotated(list: &[u8], by: usize) -> Vec<u8> {
    let mut turned = list.to_vec();
    turned.rotate_left(by);
    turned
}

/// A relation on a few numbers, so many percent of its pairs.
pub fn relation(random: &mut Random, few: &[u8], percent: usize) -> Relation {
    let mut drawn = Relation::empty();
    for &a in few {
        for &b in few {
            if random.chance(percent) {
                drawn.add(a, b);
            }
        }
    }
    drawn
}

/// Steps and closing steps: few, and mostly a ring among them whose last step may be a closing one.
fn draw(random: &mut Random) -> (Relation, Relation) {
    let mut drawn = [0, 1].map(|_| {
        let percent = random.pick(&[0, 5, 10, 20]);
        relation(random, &FEW, percent)
    });
    let mut planted = FEW;
    random.shuffle(&mut planted);
    let planted = &planted[..random.between(0, FEW.len())];
    let closes = random.chance(50) as usize;
    for (place, &a) in planted.iter().enumerate() {
        let last = place + 1 == planted.len();
        let b = planted[(place + 1) % planted.len()];
        drawn[if last { closes } else { 0 }].add(a, b);
    }
    let [steps, closing] = drawn;
    (steps, closing)
}
