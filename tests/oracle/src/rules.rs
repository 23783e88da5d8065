//! The five rules, first broken one named, and the events shown (01, the verdicts and "What is shown").

use crate::execution::Execution;
use crate::models::{imm, ob, per_location, split_pairs, tso};
use crate::relation::{acyclic, shortest_path, union, Relation};
use std::cmp::Ordering;

/// A verdict with what a shown ring may be made of.
pub struct Verdict {
    /// `source`, `chip` or `tso`
    pub model: &'static str,
    /// The first broken rule; none if allowed.
    pub rule: Option<u8>,
    /// The events shown. Under rules 3 and 5 they are a ring; every other that may be shown has at least as many events.
    pub events: Vec<u8>,
    /// Rules 3 and 5: every step of a ring is of this relation,
    pub steps: Relation,
    /// but one may be of this one instead, where the ring has two or more events.
    pub closing: Relation,
}

/// The IMM verdict.
pub fn judge_imm(x: &Execution) -> Verdict {
    let model = imm(x);
    let steps = union(&[&x.po, &model.sw]);
    judge("source", x, model.coherent(), steps, model.eco.clone(), model.no_thin_air(), model.ar)
}

/// The ARMv8 verdict.
pub fn judge_armv8(x: &Execution) -> Verdict {
    judge_per_location("chip", x, ob(x))
}

/// The x86-TSO verdict (02, slip 6), on a source recording itself.
pub fn judge_tso(x: &Execution) -> Verdict {
    judge_per_location("tso", x, tso(x))
}

/// The verdict of a model whose rule 3 is SC-PER-LOC.
fn judge_per_location(model: &'static str, x: &Execution, order: Relation) -> Verdict {
    let steps = per_location(x);
    judge(model, x, acyclic(&steps), steps, Relation::empty(), acyclic(&order), order)
}

/// The rules in their order. `coherent` is rule 3, with the steps and the closing of its rings;
/// `ordered` is rule 5, of the relation `order`.
fn judge(
    model: &'static str,
    x: &Execution,
    coherent: bool,
    steps: Relation,
    closing: Relation,
    ordered: bool,
    order: Relation,
) -> Verdict {
    let none = Relation::empty;
    let fixed = |rule, events| Verdict { model, rule, events, steps: none(), closing: none() };

    // 1: every read has rf. Shown is the smallest read without.
    for read in x.reads() {
        if !x.numbers.iter().any(|&w| x.rf.has(w, read)) {
            return fixed(Some(1), vec![read]);
        }
    }
    // 2: co orders any two writes of a location. Shown is the pair with smallest first, then second.
    let writes = x.writes();
    for a in &writes {
        for b in &writes {
            let unordered = !x.co.has(a.number, b.number) && !x.co.has(b.number, a.number);
            if a.number < b.number && a.location == b.location && unordered {
                return fixed(Some(2), vec![a.number, b.number]);
            }
        }
    }
    // 3: coherence. Shown is a ring.
    if !coherent {
        let events = ring(&x.numbers, &steps, &closing).expect("a broken rule 3 has a ring");
        return Verdict { model, rule: Some(3), events, steps, closing };
    }
    // 4: no rmw pair is also fre then coe. Shown is the pair with smallest read, read then write.
    let split = split_pairs(x);
    for &read in &x.numbers {
        for &write in &x.numbers {
            if split.has(read, write) {
                return fixed(Some(4), vec![read, write]);
            }
        }
    }
    // 5: the order has no ring. Shown is a ring.
    if !ordered {
        let events = ring(&x.numbers, &order, &none()).expect("a broken rule 5 has a ring");
        return Verdict { model, rule: Some(5), events, steps: order, closing: none() };
    }
    fixed(None, smallest_available(x, &order).expect("an order without a ring has a first event"))
}

/// A shortest ring among `numbers` (02, slip 5): of all rings of `steps`, and all paths of one or more `steps` whose ends `closing`
/// joins, one with the fewest events, the smallest first; none where there is none.
pub fn ring(numbers: &[u8], steps: &Relation, closing: &Relation) -> Option<Vec<u8>> {
    let mut best: Option<Vec<u8>> = None;
    let mut offer = |found: Vec<u8>| {
        if best.as_ref().is_none_or(|b| found.len() < b.len()) {
            best = Some(found);
        }
    };
    for &a in numbers {
        if let Some(mut path) = shortest_path(steps, a, a) {
            path.pop();
            offer(path);
        }
        for &b in numbers {
            if a != b && closing.has(b, a) {
                if let Some(path) = shortest_path(steps, a, b) {
                    offer(path);
                }
            }
        }
    }
    best.map(smallest_first)
}

/// Turns a ring so that it begins with its smallest event.
fn smallest_first(mut ring: Vec<u8>) -> Vec<u8> {
    let place = (0..ring.len()).min_by_key(|&i| ring[i]).unwrap();
    ring.rotate_left(place);
    ring
}

/// All events, always taking next the smallest number whose predecessors are out; none where there is a ring.
pub fn smallest_available(x: &Execution, order: &Relation) -> Option<Vec<u8>> {
    let mut out: Vec<u8> = Vec::new();
    while out.len() < x.numbers.len() {
        let next = x.numbers.iter().copied().find(|&e| {
            !out.contains(&e) && x.numbers.iter().all(|&p| !order.has(p, e) || out.contains(&p))
        });
        out.push(next?);
    }
    Some(out)
}

/// Why `ring` may not be shown for a verdict under rule 3 or 5, or nothing if it may.
pub fn ring_fault(verdict: &Verdict, ring: &[u8]) -> Option<String> {
    list_fault(ring).or_else(|| step_fault(verdict, ring)).or_else(|| length_fault(verdict, ring))
}

/// A ring is a list of different events, the smallest first.
fn list_fault(ring: &[u8]) -> Option<String> {
    if ring.is_empty() {
        return Some("the ring is empty".into());
    }
    for (i, &e) in ring.iter().enumerate() {
        if e >= 64 {
            return Some(format!("{e} is no event"));
        }
        if ring[..i].contains(&e) {
            return Some(format!("event {e} stands twice"));
        }
    }
    ring.iter().any(|&e| e < ring[0]).then(|| "the smallest event is not first".into())
}

/// Each event leads to the next and the last to the first by one step, which at most once is a closing one.
fn step_fault(verdict: &Verdict, ring: &[u8]) -> Option<String> {
    let mut closings = 0;
    for (i, &a) in ring.iter().enumerate() {
        let b = ring[(i + 1) % ring.len()];
        if verdict.steps.has(a, b) {
            continue;
        }
        if ring.len() >= 2 && verdict.closing.has(a, b) {
            closings += 1;
        } else {
            return Some(format!("{a} to {b} is no step"));
        }
    }
    (closings > 1).then(|| format!("{closings} steps are eco only"))
}

/// A ring has as many events as the verdict's own, which is a shortest one. One with fewer would be an error of the oracle.
fn length_fault(verdict: &Verdict, ring: &[u8]) -> Option<String> {
    let (count, least) = (ring.len(), verdict.events.len());
    match count.cmp(&least) {
        Ordering::Greater => Some(format!("{count} events, where a ring of {least} may be shown")),
        Ordering::Less => Some(format!("{count} events, fewer than the oracle's shortest ring of {least}")),
        Ordering::Equal => None,
    }
}
