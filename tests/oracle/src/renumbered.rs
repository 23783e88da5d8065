//! Whether a file is a renumbered copy of another, by the definition (02, slip 7). It knows nothing of how copies are drawn:
//! it tries every way to pair the threads, which pairs the events by their places on the chains.

use crate::recording::*;
use std::collections::BTreeSet;

/// Both files load, and some renumbering of event records and threads turns one into the other, with the same set of links.
pub fn renumbered(one: &[u8], other: &[u8]) -> bool {
    let (Ok(one), Ok(other)) = (load(one), load(other)) else {
        return false;
    };
    let counts = |r: &Recording| (r.kind, r.events.len(), r.locations);
    counts(&one) == counts(&other) && pairings().into_iter().any(|threads| agree(&one, &other, threads))
}

/// Every way to pair four threads with four.
fn pairings() -> Vec<[usize; 4]> {
    let all = (0..256).map(|n| [n & 3, n >> 2 & 3, n >> 4 & 3, n >> 6]);
    all.filter(|threads| (0..4).all(|thread| threads.contains(&thread))).collect()
}

/// Where thread t of one is `threads[t]` of the other, so that events with the same place on their chains are the same,
/// the records say the same, and so do the links.
fn agree(one: &Recording, other: &Recording, threads: [usize; 4]) -> bool {
    let chains = || one.threads.iter().zip(threads.map(|t| &other.threads[t]));
    if chains().any(|(chain, theirs)| chain.len() != theirs.len()) {
        return false;
    }
    let mut theirs_of = vec![0; one.events.len() + 1];
    for (&n, &theirs) in chains().flat_map(|(chain, theirs)| chain.iter().zip(theirs)) {
        theirs_of[n as usize] = theirs;
    }
    let same_record = |n: u8| fields(one.event(n)) == fields(other.event(theirs_of[n as usize]));
    // An initial write keeps its number.
    let in_other = |n: u8| if n >= INITIAL { n } else { theirs_of[n as usize] };
    let links: BTreeSet<(u8, u8, u8)> = one.link_triples().into_iter().map(|(t, s, e)| (t, in_other(s), in_other(e))).collect();
    (1..=one.events.len() as u8).all(same_record) && links == other.link_triples().into_iter().collect()
}

/// What a record says but for its numbers of events and links.
fn fields(e: &Event) -> (u8, u8, u8, u8, u16) {
    (e.class, e.mode, e.flag, e.location, e.value)
}
