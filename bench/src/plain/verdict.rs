//! The rules that the models share, and what is shown of a verdict.
//! Assumes an execution of a recording that loads.

use super::execution::Execution;
use super::relation::{first, members, single, Relation, Set};

/// The first broken rule, 0 where the recording is allowed, and the events shown.
pub struct Verdict {
    pub rule: u8,
    events: [u8; 64],
    length: usize,
}

impl Verdict {
    fn new(rule: u8) -> Verdict {
        Verdict { rule, events: [0; 64], length: 0 }
    }

    fn show(&mut self, e: usize) {
        self.events[self.length] = e as u8;
        self.length += 1;
    }

    fn showing(rule: u8, events: &[usize]) -> Verdict {
        let mut verdict = Verdict::new(rule);
        events.iter().for_each(|&e| verdict.show(e));
        verdict
    }

    pub fn shown(&self) -> &[u8] {
        &self.events[..self.length]
    }
}

/// Rule 1: every read has rf. Rule 2: co orders any two writes of a location.
pub fn rules_1_and_2(x: &Execution) -> Option<Verdict> {
    let read_from = x.rf.image(x.writes);
    let unread = x.reads & !read_from;
    if unread != 0 {
        return Some(Verdict::showing(1, &[first(unread)]));
    }
    let before = x.co.inverse();
    let pairs = x.accesses.iter().flat_map(|accesses| {
        let peers = accesses & x.writes;
        members(peers).filter_map(move |a| {
            let unordered = peers & !(x.co[a] | before[a] | single(a));
            (unordered != 0).then(|| (a, first(unordered)))
        })
    });
    let (a, b) = pairs.min()?;
    Some(Verdict::showing(2, &[a, b]))
}

/// The verdict of ARMv8 and x86-TSO, whose rule 3 is SC-per-location; they differ in the order of rule 5.
pub fn per_location(x: &Execution, order: fn(&Execution) -> Relation) -> Verdict {
    let earlier = rules_1_and_2(x).or_else(|| sc_per_location(x)).or_else(|| rule_4(x));
    earlier.unwrap_or_else(|| rule_5(x, &order(x)))
}

/// Rule 3 as SC-per-location: po-loc, rf, fr and co together have no ring.
fn sc_per_location(x: &Execution) -> Option<Verdict> {
    let steps = x.po_loc.or(&x.rf).or(&x.fr).or(&x.co);
    (!steps.closure().is_irreflexive()).then(|| ring(3, x.events, &steps, &steps))
}

/// Rule 4: no rmw pair is also fre then coe.
pub fn rule_4(x: &Execution) -> Option<Verdict> {
    members(x.reads).find_map(|read| {
        let split = x.rmw[read] & x.coe.image(x.fre[read]);
        (split != 0).then(|| Verdict::showing(4, &[read, first(split)]))
    })
}

/// Rule 5: the order has no ring. Without one all events are shown, always next the smallest whose predecessors are out.
pub fn rule_5(x: &Execution, order: &Relation) -> Verdict {
    let before = order.inverse();
    let mut verdict = Verdict::new(0);
    let mut left = x.events;
    while left != 0 {
        let Some(next) = members(left).find(|&e| before[e] & left == 0) else {
            return ring(5, x.events, order, order);
        };
        verdict.show(next);
        left &= !single(next);
    }
    verdict
}

/// A shortest ring: steps of one relation, closed by one of another, which the caller knows to exist.
/// Of the shortest, the one from the smallest start; it is turned so that its smallest event is first.
pub fn ring(rule: u8, events: Set, steps: &Relation, closing: &Relation) -> Verdict {
    let into_start = closing.inverse();
    let mut best = Levels { sets: [0; 64], length: 65, start: 0 };
    for start in members(events) {
        if let Some(found) = levels(start, steps, into_start[start], best.length) {
            best = found;
        }
    }
    let back = steps.inverse();
    let mut way = [0; 64];
    let mut allowed = into_start[best.start];
    for place in (0..best.length).rev() {
        let e = first(best.sets[place] & allowed);
        way[place] = e;
        allowed = back[e];
    }
    let way = &mut way[..best.length];
    let smallest = (0..way.len()).min_by_key(|&place| way[place]).unwrap_or(0);
    way.rotate_left(smallest);
    Verdict::showing(rule, way)
}

/// The events by their distance from a start, as far as a ring's last event.
struct Levels {
    sets: [Set; 64],
    length: usize,
    start: usize,
}

/// Levels from a start until one meets `last`, if they are fewer than `bound`.
fn levels(start: usize, steps: &Relation, last: Set, bound: usize) -> Option<Levels> {
    let mut found = Levels { sets: [0; 64], length: 0, start };
    let mut level = single(start);
    let mut seen = level;
    while level != 0 && found.length + 1 < bound {
        found.sets[found.length] = level;
        found.length += 1;
        if level & last != 0 {
            return Some(found);
        }
        level = steps.image(level) & !seen;
        seen |= level;
    }
    None
}
