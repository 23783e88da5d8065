//! A draft: a recording as lists, before it is laid out in bytes.

use crate::random::Random;
use crate::recording::*;

#[derive(Clone)]
pub struct DraftEvent {
    pub class: u8,
    pub mode: u8,
    pub flag: u8,
    pub location: u8,
    pub value: u16,
}

#[derive(Clone)]
pub struct Draft {
    pub kind: u8,
    pub locations: u8,
    /// Event n is `events[n - 1]`.
    pub events: Vec<DraftEvent>,
    /// The event numbers of each thread in program order.
    pub threads: [Vec<u8>; 4],
    /// Links as type, source, target.
    pub links: Vec<(u8, u8, u8)>,
}

impl Draft {
    pub fn empty(kind: u8) -> Draft {
        Draft { kind, locations: 0, events: Vec::new(), threads: Default::default(), links: Vec::new() }
    }

    /// The draft of a recording that loads.
    pub fn of(recording: &Recording) -> Draft {
        let fields = |e: &Event| DraftEvent { class: e.class, mode: e.mode, flag: e.flag, location: e.location, value: e.value };
        let mut draft = Draft::empty(recording.kind);
        draft.locations = recording.locations;
        draft.events = recording.events.iter().map(fields).collect();
        draft.threads.clone_from_slice(&recording.threads);
        draft.links = recording.link_triples();
        draft
    }

    pub fn event(&self, n: u8) -> &DraftEvent {
        &self.events[n as usize - 1]
    }

    pub fn event_mut(&mut self, n: u8) -> &mut DraftEvent {
        &mut self.events[n as usize - 1]
    }

    pub fn is_isb(&self, n: u8) -> bool {
        self.event(n).class == FENCE && self.event(n).mode == ISB
    }

    pub fn most_links(&self) -> usize {
        if self.kind == SOURCE { 200 } else { 255 }
    }

    /// The recorded accesses of a location in each thread, in program order.
    pub fn accesses(&self, location: u8) -> Vec<Vec<u8>> {
        let here = |&n: &u8| self.event(n).class != FENCE && self.event(n).location == location;
        self.threads.iter().map(|t| t.iter().copied().filter(here).collect()).collect()
    }

    pub fn has_link(&self, link_type: u8, source: u8, target: u8) -> bool {
        self.links.contains(&(link_type, source, target))
    }

    pub fn add_link(&mut self, link_type: u8, source: u8, target: u8) {
        if self.links.len() < self.most_links() {
            self.links.push((link_type, source, target));
        }
    }

    /// Gives event n the number `numbers[n - 1]`.
    pub fn renumber(&mut self, numbers: &[u8]) {
        let new = |n: u8| if n >= INITIAL { n } else { numbers[n as usize - 1] };
        let old = self.events.clone();
        for (index, event) in old.into_iter().enumerate() {
            self.events[numbers[index] as usize - 1] = event;
        }
        for thread in &mut self.threads {
            thread.iter_mut().for_each(|n| *n = new(*n));
        }
        self.links.iter_mut().for_each(|(_, s, e)| (*s, *e) = (new(*s), new(*e)));
    }

    /// Lays the draft out in bytes. Links are numbered and chained in an order drawn at random.
    pub fn to_bytes(&self, random: &mut Random) -> Vec<u8> {
        let mut links = self.links.clone();
        if random.chance(70) {
            random.shuffle(&mut links);
        } else {
            links.sort_by_key(|&(t, s, e)| (e, t, s));
        }
        let mut chain_order: Vec<usize> = (0..links.len()).collect();
        if random.chance(60) {
            random.shuffle(&mut chain_order);
        }
        // For each event the numbers of the links into it, in chain order.
        let mut into: Vec<Vec<u8>> = vec![Vec::new(); self.events.len()];
        for index in chain_order {
            into[links[index].2 as usize - 1].push(index as u8 + 1);
        }
        let mut file = vec![self.kind, self.events.len() as u8, self.locations, links.len() as u8];
        file.extend(self.threads.iter().map(|t| t.first().copied().unwrap_or(0)));
        for (index, e) in self.events.iter().enumerate() {
            let next = follower(self.threads.iter().map(|t| t.as_slice()), index as u8 + 1);
            let [low, high] = e.value.to_le_bytes();
            let first = into[index].first().copied().unwrap_or(0);
            file.extend([next, e.class, e.mode, e.flag, e.location, low, high, first]);
        }
        for (index, &(link_type, source, target)) in links.iter().enumerate() {
            let chain = [into[target as usize - 1].as_slice()];
            file.extend([follower(chain.into_iter(), index as u8 + 1), link_type, source, 0]);
        }
        file
    }
}

/// What stands behind `number` in the list that holds it; 0 at the end.
fn follower<'a>(lists: impl Iterator<Item = &'a [u8]>, number: u8) -> u8 {
    for list in lists {
        if let Some(place) = list.iter().position(|&x| x == number) {
            return list.get(place + 1).copied().unwrap_or(0);
        }
    }
    0
}
