//! What drawn recordings tell of shortest rings, so that the comparisons find a routine that shows a longer one.

use crate::generate::draft_of_kind;
use crate::random::Random;
use crate::recording::{CHIP, SOURCE};
use crate::relation::*;
use crate::rules::{ring, Verdict};
use crate::shown::verdicts;
use std::collections::{BTreeMap, BTreeSet};

/// A verdict under rule 3 or 5: what its rings are made of, and how many events a shortest has.
pub struct Case {
    steps: Relation,
    /// Joins two different events.
    closing: Relation,
    shortest: usize,
}

const ALL: std::ops::Range<u8> = 0..SIZE as u8;

impl Case {
    fn of(verdict: &Verdict) -> Case {
        let closing = difference(&verdict.closing, &identity());
        Case { steps: verdict.steps.clone(), closing, shortest: verdict.events.len() }
    }

    /// The first ring that is met depth first, each event's successors by number, from the smallest event that leads to one.
    fn depth_first(&self) -> Option<usize> {
        ALL.into_iter().find_map(|first| self.from_path(&mut vec![first], &mut BTreeSet::from([first])))
    }

    /// The first ring that is met from the last event of a path, past those that were seen: where a step leads back to the path.
    fn from_path(&self, path: &mut Vec<u8>, seen: &mut BTreeSet<u8>) -> Option<usize> {
        let at = path[path.len() - 1];
        let closed = path.iter().position(|&e| self.steps.has(at, e) || self.closing.has(at, e));
        if let Some(start) = closed {
            return Some(path.len() - start);
        }
        for next in ALL.filter(|&e| self.steps.has(at, e)) {
            if seen.insert(next) {
                path.push(next);
                let found = self.from_path(path, seen);
                if found.is_some() {
                    return found;
                }
                path.pop();
            }
        }
        None
    }

    /// A shortest ring through the smallest event that is on one.
    fn through_smallest(&self) -> Option<usize> {
        ALL.into_iter().find_map(|event| self.through(event))
    }

    /// How many events a shortest ring through an event has: by numbers of steps, what is reached without a closing step and with one.
    fn through(&self, event: u8) -> Option<usize> {
        let (mut before, mut after) = (BTreeSet::from([event]), BTreeSet::new());
        (1..=SIZE).find(|_| {
            let image = |from: &BTreeSet<u8>, r: &Relation| -> BTreeSet<u8> {
                ALL.filter(|&b| from.iter().any(|&a| r.has(a, b))).collect()
            };
            after = &image(&after, &self.steps) | &image(&before, &self.closing);
            before = image(&before, &self.steps);
            before.contains(&event) || after.contains(&event)
        })
    }

    /// From the smallest event that hb, or hb then the closing step, leads back to, by the smallest event that this is so for.
    fn by_hb(&self) -> Option<usize> {
        let hb = plus(&self.steps);
        let closes = |a: u8, b: u8| hb.has(a, b) && (a == b || self.closing.has(b, a));
        let (a, b) = ALL.flat_map(|a| ALL.map(move |b| (a, b))).find(|&(a, b)| closes(a, b))?;
        shortest_path(&self.steps, a, b).map(|path| path.len() - (a == b) as usize)
    }

    /// A shortest ring without a closing step.
    fn unclosed(&self) -> Option<usize> {
        let numbers: Vec<u8> = ALL.collect();
        ring(&numbers, &self.steps, &Relation::empty()).map(|ring| ring.len())
    }

    /// A shortest ring with a closing step.
    fn closed(&self) -> Option<usize> {
        let ends = ALL.flat_map(|a| ALL.map(move |b| (a, b))).filter(|&(a, b)| self.closing.has(b, a));
        ends.filter_map(|(a, b)| shortest_path(&self.steps, a, b)).map(|path| path.len()).min()
    }

    /// A shortest ring of two or more events.
    fn of_several(&self) -> Option<usize> {
        let steps = difference(&self.steps, &identity());
        let numbers: Vec<u8> = ALL.collect();
        ring(&numbers, &steps, &self.closing).map(|ring| ring.len())
    }
}

/// A routine that shows a ring, but not always a shortest: the model, the rule, its name, of so many verdicts on 20,000 recordings of each
/// kind at the least it shows a longer ring, of so many one that is longer by six events, and the number of events that it shows.
pub type Routine = (&'static str, u8, &'static str, [usize; 2], fn(&Case) -> Option<usize>);

pub const ROUTINES: [Routine; 16] = [
    ("source", 3, "depth first", [1300, 60], Case::depth_first),
    ("source", 3, "through the smallest event", [600, 5], Case::through_smallest),
    ("source", 3, "by hb from the smallest event", [350, 8], Case::by_hb),
    ("source", 3, "without eco where there is one", [60, 1], Case::unclosed),
    ("source", 3, "with eco where there is one", [180, 0], Case::closed),
    ("source", 3, "of two or more events", [50, 0], Case::of_several),
    ("source", 5, "depth first", [500, 15], Case::depth_first),
    ("source", 5, "through the smallest event", [180, 10], Case::through_smallest),
    ("chip", 3, "depth first", [500, 0], Case::depth_first),
    ("chip", 3, "through the smallest event", [250, 0], Case::through_smallest),
    ("chip", 5, "depth first", [3500, 100], Case::depth_first),
    ("chip", 5, "through the smallest event", [900, 35], Case::through_smallest),
    ("tso", 3, "depth first", [300, 0], Case::depth_first),
    ("tso", 3, "through the smallest event", [140, 0], Case::through_smallest),
    ("tso", 5, "depth first", [3800, 300], Case::depth_first),
    ("tso", 5, "through the smallest event", [1000, 5], Case::through_smallest),
];

/// By model and rule the lengths of shortest rings that are to arise. Under rule 3 there are no others (`boundary_rings`, `longest`).
pub const LENGTHS: [(&str, u8, &[usize]); 6] = [
    ("source", 3, &[1, 2, 3, 4, 5, 6, 7, 8]),
    ("source", 5, &[2, 3, 4, 5, 6, 7, 8, 9, 10, 12, 14, 16]),
    ("chip", 3, &[2, 3]),
    ("chip", 5, &[4, 5, 6, 7, 8, 10, 12, 14, 16]),
    ("tso", 3, &[2, 3]),
    ("tso", 5, &[4, 5, 6, 7, 8, 9, 10, 11]),
];

/// What the verdicts on drawn recordings tell.
#[derive(Default)]
pub struct Told {
    /// By model and rule how many have a shortest ring of each length.
    pub lengths: BTreeMap<(&'static str, u8), BTreeMap<usize, usize>>,
    /// By model, rule and name of a routine how many it shows a longer ring of, and one that is longer by six events.
    pub longer: BTreeMap<(&'static str, u8, &'static str), [usize; 2]>,
}

/// Of `count` drawn recordings of each kind.
pub fn of_recordings(random: &mut Random, count: usize) -> Told {
    let mut told = Told::default();
    for kind in [SOURCE, CHIP] {
        for _ in 0..count {
            let file = draft_of_kind(random, kind).to_bytes(random);
            for verdict in verdicts(&file).expect("a drawn recording loads") {
                told.take(&verdict);
            }
        }
    }
    told
}

impl Told {
    fn take(&mut self, verdict: &Verdict) {
        let Some(rule @ (3 | 5)) = verdict.rule else {
            return;
        };
        let (model, case) = (verdict.model, Case::of(verdict));
        *self.lengths.entry((model, rule)).or_default().entry(case.shortest).or_default() += 1;
        for (_, _, name, _, shows) in ROUTINES.into_iter().filter(|routine| (routine.0, routine.1) == (model, rule)) {
            let longer = self.longer.entry((model, rule, name)).or_default();
            for (count, by) in longer.iter_mut().zip([1, 6]) {
                *count += shows(&case).is_some_and(|length| length >= case.shortest + by) as usize;
            }
        }
    }
}
