//! Recordings with one thing altered, for the tests of the check of renumbered copies.

use crate::draft::{Draft, DraftEvent};
use crate::generate::fence_mode;
use crate::random::Random;
use crate::recording::*;

/// Alters something in a draft; false where there is nothing of the kind.
pub type Alter = fn(&mut Random, &mut Draft) -> bool;

/// The altered file; nothing where there is nothing to alter, or it does not load.
pub fn apply(random: &mut Random, file: &[u8], alter: Alter) -> Option<Vec<u8>> {
    let mut draft = Draft::of(&load(file).ok()?);
    if !alter(random, &mut draft) {
        return None;
    }
    let altered = draft.to_bytes(random);
    load(&altered).ok().map(|_| altered)
}

/// What alters more than numbering for certain: the kind, the number of events or of locations, how many events have a record's fields, or
/// how many links there are of a type. Of 1,000 drawn recordings at the least so many are altered and load.
pub const OTHERWISE: [(&str, usize, Alter); 14] = [
    ("the kind", 150, |_, draft| {
        draft.kind = SOURCE + CHIP - draft.kind;
        true
    }),
    ("a location more", 700, |_, draft| {
        draft.locations += 1;
        true
    }),
    ("an event more", 700, |random, draft| {
        let mode = fence_mode(random, draft.kind);
        draft.events.push(DraftEvent { class: FENCE, mode, flag: 0, location: 0, value: 0 });
        draft.threads[random.below(4)].push(draft.events.len() as u8);
        true
    }),
    ("a fence's mode", 300, |random, draft| {
        let mode = fence_mode(random, draft.kind);
        of_some(random, draft, |e| e.class == FENCE && e.mode != mode, |e| e.mode = mode)
    }),
    // A read's mode is 0 or 1, a write's 0 or 2.
    ("the mode of a read or write", 700, |random, draft| of_some(random, draft, |e| e.class != FENCE, |e| e.mode ^= e.class)),
    ("a read's flag", 400, |random, draft| of_some(random, draft, |e| e.class == READ, |e| e.flag ^= 1)),
    ("a write's flag", 100, |random, draft| of_some(random, draft, |e| e.class == WRITE, |e| e.flag ^= 1)),
    ("a value", 150, |random, draft| of_some(random, draft, |e| e.class != FENCE, |e| e.value ^= 1)),
    ("the high byte of a value", 150, |random, draft| of_some(random, draft, |e| e.class != FENCE, |e| e.value ^= 256)),
    ("a location", 40, |random, draft| of_some(random, draft, |e| e.class != FENCE, |e| e.location ^= 1)),
    ("a class", 40, |random, draft| of_some(random, draft, |e| e.class != FENCE && e.mode == 0, |e| e.class ^= READ ^ WRITE)),
    ("a link less", 700, |random, draft| taken(random, draft).is_some()),
    ("a link more", 60, |random, draft| {
        let thread = &draft.threads[random.below(4)];
        if thread.len() < 2 {
            return false;
        }
        let later = random.between(1, thread.len() - 1);
        let (source, target) = (thread[random.below(later)], thread[later]);
        put(draft, (random.between(RF as usize, CASDEP as usize) as u8, source, target))
    }),
    ("a link's type", 100, |random, draft| {
        let link_type = random.pick(&[DATA, ADDR, CTRL]);
        taken(random, draft).is_some_and(|(old, source, target)| old != link_type && put(draft, (link_type, source, target)))
    }),
];

/// What may or may not alter more than numbering. Of 20,000 drawn recordings at the least so many are small, load and differ then in
/// more, and so many do not.
pub const MOVES: [(&str, [usize; 2], Alter); 8] = [
    ("nothing moved", [0, 2000], |_, _| true),
    ("two events of a thread exchanged", [300, 10], |random, draft| {
        let thread = random.below(4);
        let length = draft.threads[thread].len();
        if length < 2 {
            return false;
        }
        let place = random.below(length - 1);
        draft.threads[thread].swap(place, place + 1);
        true
    }),
    ("an event moved", [300, 200], |random, draft| {
        let from = random.below(4);
        let Some(event) = draft.threads[from].pop() else { return false };
        let to = random.below(4);
        let place = random.between(0, draft.threads[to].len());
        draft.threads[to].insert(place, event);
        true
    }),
    ("two events exchanged", [500, 50], |random, draft| {
        let (one, other) = (any_event(random, draft), any_event(random, draft));
        let turned = |n: u8| if n == one { other } else if n == other { one } else { n };
        draft.threads.iter_mut().flatten().for_each(|n| *n = turned(*n));
        one != other
    }),
    ("a link turned round", [200, 1], |random, draft| {
        taken(random, draft).is_some_and(|(link_type, source, target)| source < INITIAL && put(draft, (link_type, target, source)))
    }),
    ("another source", [50, 0], |random, draft| {
        let source = any_event(random, draft);
        taken(random, draft).is_some_and(|(link_type, old, target)| old != source && put(draft, (link_type, source, target)))
    }),
    ("another target", [40, 0], |random, draft| {
        let target = any_event(random, draft);
        taken(random, draft).is_some_and(|(link_type, source, old)| old != target && put(draft, (link_type, source, target)))
    }),
    ("all locations exchanged", [800, 50], |_, draft| {
        let accesses = draft.events.iter_mut().filter(|e| e.class != FENCE);
        accesses.for_each(|e| e.location ^= 1);
        draft.links.iter_mut().filter(|link| link.1 >= INITIAL).for_each(|link| link.1 ^= 1);
        true
    }),
];

fn any_event(random: &mut Random, draft: &Draft) -> u8 {
    random.between(1, draft.events.len().max(1)) as u8
}

/// Changes one of the events that are as asked for.
fn of_some(random: &mut Random, draft: &mut Draft, fits: impl Fn(&DraftEvent) -> bool, change: impl Fn(&mut DraftEvent)) -> bool {
    let mut fitting: Vec<&mut DraftEvent> = draft.events.iter_mut().filter(|e| fits(e)).collect();
    if fitting.is_empty() {
        return false;
    }
    let one = random.below(fitting.len());
    change(fitting[one]);
    true
}

/// Takes away a link, its repeats too.
fn taken(random: &mut Random, draft: &mut Draft) -> Option<(u8, u8, u8)> {
    if draft.links.is_empty() {
        return None;
    }
    let gone = random.pick(&draft.links);
    draft.links.retain(|&link| link != gone);
    Some(gone)
}

/// Puts in a link that is not there; false where it is, or where there is no room.
fn put(draft: &mut Draft, (link_type, source, target): (u8, u8, u8)) -> bool {
    let before = draft.links.len();
    if !draft.has_link(link_type, source, target) {
        draft.add_link(link_type, source, target);
    }
    draft.links.len() > before
}
