//! The clauses that the relations of rules 3 and 5 are unions of, in the order of 003 and, for x86-TSO, of 02's slip 6; and the clause of a
//! step: the first of its list that leads from the one event to the other. Each is decided for two events by themselves, by what they are,
//! what joins them and what lies between them. None of the relations of `models.rs` is used.

use crate::execution::Execution;
use crate::recording::{FENCE, ISB, READ, WRITE};

/// A clause: its name, and whether it leads from an event to another.
pub type Clause = (&'static str, fn(&Execution, u8, u8) -> bool);

/// The clauses of a model's rule. The number of a clause is its place, from 1 on.
pub type List = (&'static str, u8, &'static [Clause]);

pub const LISTS: [List; 6] = [
    ("source", 3, &COHERENCE),
    ("source", 5, &AR),
    ("chip", 3, &PER_LOCATION),
    ("chip", 5, &OB),
    ("tso", 3, &PER_LOCATION),
    ("tso", 5, &TSO),
];

/// IMM, COHERENCE: po, sw, and the parts of eco = rf ∪ co;rf? ∪ fr;rf?.
pub const COHERENCE: [Clause; 7] = [
    ("po", |x, a, b| x.po.has(a, b)),
    ("sw", |x, a, b| synchronized(x, a).contains(&b)),
    ("rf", |x, a, b| x.rf.has(a, b)),
    ("co", |x, a, b| x.co.has(a, b)),
    ("co;rf", |x, a, b| source(x, b).is_some_and(|seen| x.co.has(a, seen))),
    ("fr", overwritten),
    ("fr;rf", |x, a, b| source(x, b).is_some_and(|seen| overwritten(x, a, seen))),
];

/// IMM, NO-THIN-AIR: rfe, the five parts of bob, ppo, detour, psc, and what a strong write adds.
pub const AR: [Clause; 10] = [
    ("rfe", |x, a, b| x.rf.has(a, b) && !x.po.has(a, b)),
    ("po;[Wrel]", |x, a, b| x.po.has(a, b) && is_release(x, b)),
    ("[Racq];po", |x, a, b| x.po.has(a, b) && is_acquire(x, a)),
    ("po;[F]", |x, a, b| x.po.has(a, b) && is_a(x, b, FENCE)),
    ("[F];po", |x, a, b| x.po.has(a, b) && is_a(x, a, FENCE)),
    ("[Wrel];po-loc;[W]", |x, a, b| same_place_later(x, a, b) && is_release(x, a) && is_a(x, b, WRITE)),
    ("ppo", |x, a, b| is_a(x, a, READ) && is_a(x, b, WRITE) && reached(&[a], |e| dependent(x, e)).contains(&b)),
    ("detour", |x, a, b| x.po.has(a, b) && source(x, b).is_some_and(|seen| goes_round(x, a, seen, b))),
    ("psc", |x, a, b| is_fence(x, a, &[4]) && is_fence(x, b, &[4]) && before_and_behind_eco(x, a).contains(&b)),
    ("[Wstrong];po;[W]", |x, a, b| x.po.has(a, b) && is_strong(x, a) && is_a(x, b, WRITE)),
];

/// ARMv8 and x86-TSO, SC-PER-LOC.
pub const PER_LOCATION: [Clause; 4] = [
    ("po-loc", same_place_later),
    ("rf", |x, a, b| x.rf.has(a, b)),
    ("fr", overwritten),
    ("co", |x, a, b| x.co.has(a, b)),
];

/// ARMv8, EXTERNAL: the parts of obs, dob, aob and bob.
pub const OB: [Clause; 14] = [
    ("rfe", |x, a, b| x.rf.has(a, b) && !x.po.has(a, b)),
    ("fre", |x, a, b| overwritten(x, a, b) && !x.po.has(a, b)),
    ("coe", |x, a, b| x.co.has(a, b) && !x.po.has(a, b)),
    ("(addr|data);rfi?", |x, a, b| {
        let by_link = |e| x.addr.has(a, e) || x.data.has(a, e);
        by_link(b) || source(x, b).is_some_and(|own| by_link(own) && x.po.has(own, b))
    }),
    ("(ctrl|data);[W];coi?", |x, a, b| {
        some(x, |w| is_a(x, w, WRITE) && (x.ctrl.has(a, w) || x.data.has(a, w)) && is_or_overwrites(x, w, b))
    }),
    ("addr;po;[W]", |x, a, b| is_a(x, b, WRITE) && past_address(x, a, b)),
    ("(ctrl|addr;po);[Fisb];po;[R]", |x, a, b| {
        let into = |isb| x.ctrl.has(a, isb) || past_address(x, a, isb);
        is_a(x, b, READ) && some(x, |isb| is_fence(x, isb, &[ISB]) && into(isb) && x.po.has(isb, b))
    }),
    ("rmw", |x, a, b| x.rmw.has(a, b)),
    ("[codom(rmw)];rfi;[Racq]", |x, a, b| {
        x.rf.has(a, b) && x.po.has(a, b) && is_acquire(x, b) && some(x, |read| x.rmw.has(read, a))
    }),
    ("po;[Fsy];po", |x, a, b| across(x, a, 6, b)),
    ("[R];po;[Fld];po", |x, a, b| is_a(x, a, READ) && across(x, a, 5, b)),
    ("[Racq];po", |x, a, b| x.po.has(a, b) && is_acquire(x, a)),
    ("po;[Wrel];coi?", |x, a, b| some(x, |w| x.po.has(a, w) && is_release(x, w) && is_or_overwrites(x, w, b))),
    ("[Wrel];po;[Racq]", |x, a, b| x.po.has(a, b) && is_release(x, a) && is_acquire(x, b)),
];

/// x86-TSO, by the words of the slip: "po between reads and writes except from a write to a read", "po into or out of an SC fence or an
/// event of an rmw pair", "rfe, co, fr".
pub const TSO: [Clause; 7] = [
    ("[R];po;([R]|[W])", |x, a, b| x.po.has(a, b) && is_a(x, a, READ) && !is_a(x, b, FENCE)),
    ("[W];po;[W]", |x, a, b| x.po.has(a, b) && is_a(x, a, WRITE) && is_a(x, b, WRITE)),
    ("node;po;full", |x, a, b| x.po.has(a, b) && has_steps(x, a) && is_full(x, b)),
    ("full;po;node", |x, a, b| x.po.has(a, b) && is_full(x, a) && has_steps(x, b)),
    ("rfe", |x, a, b| x.rf.has(a, b) && !x.po.has(a, b)),
    ("co", |x, a, b| x.co.has(a, b)),
    ("fr", overwritten),
];

/// The clauses of a model's rule; of a rule that shows no ring none.
pub fn clauses(model: &str, rule: u8) -> &'static [Clause] {
    LISTS.iter().find(|list| (list.0, list.1) == (model, rule)).map_or(&[], |list| list.2)
}

/// The name of the first clause that leads from an event to another.
pub fn clause(list: &[Clause], x: &Execution, a: u8, b: u8) -> Option<&'static str> {
    list.iter().find(|(_, leads)| leads(x, a, b)).map(|&(name, _)| name)
}

/// Whether some event is as asked for.
fn some(x: &Execution, test: impl Fn(u8) -> bool) -> bool {
    x.numbers.iter().any(|&e| test(e))
}

/// The events that are as asked for.
fn all(x: &Execution, test: impl Fn(u8) -> bool) -> Vec<u8> {
    x.numbers.iter().copied().filter(|&e| test(e)).collect()
}

fn is_a(x: &Execution, e: u8, class: u8) -> bool {
    x.label(e).class == class
}

fn is_fence(x: &Execution, e: u8, modes: &[u8]) -> bool {
    is_a(x, e, FENCE) && modes.contains(&x.label(e).mode)
}

fn is_acquire(x: &Execution, e: u8) -> bool {
    is_a(x, e, READ) && x.label(e).mode == 1
}

fn is_release(x: &Execution, e: u8) -> bool {
    is_a(x, e, WRITE) && x.label(e).mode == 2
}

fn is_strong(x: &Execution, e: u8) -> bool {
    is_a(x, e, WRITE) && x.label(e).flag == 1
}

/// A later read or write of the same location in a thread, or one behind its initial write.
fn same_place_later(x: &Execution, a: u8, b: u8) -> bool {
    let (first, second) = (x.label(a), x.label(b));
    x.po.has(a, b) && first.class != FENCE && second.class != FENCE && first.location == second.location
}

/// What a read reads from.
fn source(x: &Execution, read: u8) -> Option<u8> {
    x.numbers.iter().copied().find(|&w| x.rf.has(w, read))
}

/// fr: a read, and a write that overwrites what it reads.
fn overwritten(x: &Execution, read: u8, write: u8) -> bool {
    source(x, read).is_some_and(|seen| x.co.has(seen, write))
}

/// A write itself, or one of its thread that overwrites it.
fn is_or_overwrites(x: &Execution, write: u8, b: u8) -> bool {
    write == b || x.co.has(write, b) && x.po.has(write, b)
}

/// addr;po
fn past_address(x: &Execution, a: u8, b: u8) -> bool {
    some(x, |access| x.addr.has(a, access) && x.po.has(access, b))
}

/// A fence of a mode lies between two events of a thread.
fn across(x: &Execution, a: u8, mode: u8, b: u8) -> bool {
    some(x, |fence| is_fence(x, fence, &[mode]) && x.po.has(a, fence) && x.po.has(fence, b))
}

/// From a write to a write that overwrites it and on to a read of that, both without po.
fn goes_round(x: &Execution, write: u8, seen: u8, read: u8) -> bool {
    x.co.has(write, seen) && !x.po.has(write, seen) && !x.po.has(seen, read)
}

/// x86-TSO: "Fences of modes 1 to 3 have no step here".
fn has_steps(x: &Execution, e: u8) -> bool {
    !is_fence(x, e, &[1, 2, 3])
}

/// x86-TSO: "an SC fence or an event of an rmw pair".
fn is_full(x: &Execution, e: u8) -> bool {
    is_fence(x, e, &[4]) || some(x, |other| x.rmw.has(e, other) || x.rmw.has(other, e))
}

/// What is reached from some events by one or more steps, given by what each event leads to.
fn reached(from: &[u8], steps: impl Fn(u8) -> Vec<u8>) -> Vec<u8> {
    let mut left = from.to_vec();
    let mut found = Vec::new();
    while let Some(e) = left.pop() {
        for next in steps(e) {
            if !found.contains(&next) {
                found.push(next);
                left.push(next);
            }
        }
    }
    found
}

/// What data, ctrl, addr;po?, casdep or [Rex];po, or rfi, lead to from an event.
fn dependent(x: &Execution, e: u8) -> Vec<u8> {
    let exclusive = is_a(x, e, READ) && x.label(e).flag == 1;
    all(x, |f| {
        let by_link = x.data.has(e, f) || x.ctrl.has(e, f) || x.addr.has(e, f) || x.casdep.has(e, f);
        by_link || past_address(x, e, f) || x.po.has(e, f) && (exclusive || x.rf.has(e, f))
    })
}

/// What sw leads to from an event.
fn synchronized(x: &Execution, e: u8) -> Vec<u8> {
    let starts = |w: u8| is_a(x, w, WRITE) && (e == w && is_release(x, w) || is_fence(x, e, &[2, 3, 4]) && x.po.has(e, w));
    let mut reads = Vec::new();
    for start in all(x, starts) {
        for write in release_sequence(x, start) {
            reads.extend(observers(x, write));
        }
    }
    all(x, |end| reads.iter().any(|&read| end == read && is_acquire(x, read) || is_fence(x, end, &[1, 3, 4]) && x.po.has(read, end)))
}

/// rs: a write, the later writes of its location in its thread, and from pair to pair the writes of pairs.
fn release_sequence(x: &Execution, write: u8) -> Vec<u8> {
    let mut writes = all(x, |w| w == write || is_a(x, w, WRITE) && same_place_later(x, write, w));
    writes.extend(reached(&[write], |w| pairs_behind(x, w)));
    writes
}

/// po-loc?;rf;rmw
fn pairs_behind(x: &Execution, write: u8) -> Vec<u8> {
    let from = all(x, |w| w == write || same_place_later(x, write, w));
    all(x, |pair| some(x, |read| x.rmw.has(read, pair) && from.iter().any(|&w| x.rf.has(w, read))))
}

/// rfi ∪ po-loc?;rfe
fn observers(x: &Execution, write: u8) -> Vec<u8> {
    let later = all(x, |w| same_place_later(x, write, w));
    all(x, |read| x.rf.has(write, read) || later.iter().any(|&w| x.rf.has(w, read) && !x.po.has(w, read)))
}

/// What hb;eco;hb leads to from an event.
fn before_and_behind_eco(x: &Execution, e: u8) -> Vec<u8> {
    let ordered = |e: u8| [all(x, |later| x.po.has(e, later)), synchronized(x, e)].concat();
    let eco = &COHERENCE[2..];
    let before = reached(&[e], ordered);
    let behind = all(x, |b| before.iter().any(|&a| clause(eco, x, a, b).is_some()));
    reached(&behind, ordered)
}
