//! The recording: its layout, the causes of refusal 1 to 10 and 13 in their order, and decoding (01, "The recording").
//! The order is that of the numbers, but for 13, which comes directly after 6.

use crate::relation::{acyclic, Relation};

pub const SOURCE: u8 = 1;
pub const CHIP: u8 = 2;

pub const READ: u8 = 1;
pub const WRITE: u8 = 2;
pub const FENCE: u8 = 3;

/// The mode of a chip fence that is an instruction barrier (02, slip 3).
pub const ISB: u8 = 7;

pub const RF: u8 = 1;
pub const CO: u8 = 2;
pub const RMW: u8 = 3;
pub const DATA: u8 = 4;
pub const ADDR: u8 = 5;
pub const CTRL: u8 = 6;
pub const CASDEP: u8 = 7;

/// The initial write of location l has the number 56 + l.
pub const INITIAL: u8 = 56;

/// A thread has at most so many recorded events.
const MOST_IN_SOURCE_THREAD: usize = 12;
const MOST_IN_CHIP_THREAD: usize = 18;

/// The limit of a thread in a recording of this kind.
pub fn most_in_thread(kind: u8) -> usize {
    if kind == SOURCE { MOST_IN_SOURCE_THREAD } else { MOST_IN_CHIP_THREAD }
}

#[derive(Clone)]
pub struct Event {
    pub next: u8,
    pub class: u8,
    pub mode: u8,
    pub flag: u8,
    pub location: u8,
    pub value: u16,
    pub first_link: u8,
}

pub struct Link {
    pub next: u8,
    pub link_type: u8,
    pub source: u8,
    pub last: u8,
}

/// A recording that loads. Event n is `events[n - 1]`, link m is `links[m - 1]` and ends in `targets[m - 1]`.
pub struct Recording {
    pub kind: u8,
    pub locations: u8,
    pub heads: [u8; 4],
    pub events: Vec<Event>,
    pub links: Vec<Link>,
    /// The numbers of each thread's events, in program order.
    pub threads: Vec<Vec<u8>>,
    pub targets: Vec<u8>,
}

/// Loads a file or answers the number of the first cause of refusal that applies.
pub fn load(file: &[u8]) -> Result<Recording, u8> {
    if file.len() < 8 {
        return Err(1);
    }
    let (kind, n, locations, m) = (file[0], file[1], file[2], file[3]);
    if kind != SOURCE && kind != CHIP {
        return Err(2);
    }
    let (most_events, most_links) = if kind == SOURCE { (32, 200) } else { (48, 255) };
    if n > most_events || locations > 8 || m > most_links {
        return Err(3);
    }
    if file.len() != 8 + 8 * n as usize + 4 * m as usize {
        return Err(4);
    }
    let heads = [file[4], file[5], file[6], file[7]];
    let (event_part, link_part) = file[8..].split_at(8 * n as usize);
    let events: Vec<Event> = event_part.chunks(8).map(decode_event).collect();
    let links: Vec<Link> = link_part.chunks(4).map(decode_link).collect();
    if !events.iter().all(|e| event_as_listed(kind, locations, e)) {
        return Err(5);
    }
    let threads = thread_chains(&heads, &events).ok_or(6)?;
    if threads.iter().any(|thread| thread.len() > most_in_thread(kind)) {
        return Err(13);
    }
    let targets = link_targets(&events, &links).ok_or(7)?;
    let recording = Recording { kind, locations, heads, events, links, threads, targets };
    if !recording.link_conditions_hold() {
        return Err(8);
    }
    if !acyclic(&recording.co_links()) {
        return Err(9);
    }
    if !recording.strong_writes_have_rmw() {
        return Err(10);
    }
    Ok(recording)
}

fn decode_event(b: &[u8]) -> Event {
    Event {
        next: b[0],
        class: b[1],
        mode: b[2],
        flag: b[3],
        location: b[4],
        value: b[5] as u16 + 256 * b[6] as u16,
        first_link: b[7],
    }
}

fn decode_link(b: &[u8]) -> Link {
    Link { next: b[0], link_type: b[1], source: b[2], last: b[3] }
}

/// Cause 5 does not apply: class, mode and flag stand in 01's table, with isb among the chip fences, the location is below L,
/// and a fence has location and value 0.
fn event_as_listed(kind: u8, locations: u8, e: &Event) -> bool {
    let modes: &[u8] = match (kind, e.class) {
        (_, READ) => &[0, 1],
        (_, WRITE) => &[0, 2],
        (SOURCE, FENCE) => &[1, 2, 3, 4],
        (CHIP, FENCE) => &[5, 6, ISB],
        _ => return false,
    };
    let flags: &[u8] = match (kind, e.class) {
        (_, READ) => &[0, 1],
        (SOURCE, WRITE) => &[0, 1],
        _ => &[0],
    };
    let place = if e.class == FENCE { e.location == 0 && e.value == 0 } else { e.location < locations };
    modes.contains(&e.mode) && flags.contains(&e.flag) && place
}

/// The four thread chains, unless an index is over N or an event is met twice or never (cause 6).
fn thread_chains(heads: &[u8; 4], events: &[Event]) -> Option<Vec<Vec<u8>>> {
    let n = events.len();
    let mut met = vec![false; n + 1];
    let mut threads = Vec::new();
    for &head in heads {
        let mut thread = Vec::new();
        let mut at = head;
        while at != 0 {
            if at as usize > n || met[at as usize] {
                return None;
            }
            met[at as usize] = true;
            thread.push(at);
            at = events[at as usize - 1].next;
        }
        threads.push(thread);
    }
    met[1..].iter().all(|&m| m).then_some(threads)
}

/// The target of each link, unless an index is over M or a link is met twice or never (cause 7).
fn link_targets(events: &[Event], links: &[Link]) -> Option<Vec<u8>> {
    let mut targets = vec![0; links.len()];
    for (index, event) in events.iter().enumerate() {
        let mut at = event.first_link;
        while at != 0 {
            if at as usize > links.len() || targets[at as usize - 1] != 0 {
                return None;
            }
            targets[at as usize - 1] = index as u8 + 1;
            at = links[at as usize - 1].next;
        }
    }
    targets.iter().all(|&t| t != 0).then_some(targets)
}

impl Recording {
    /// The record of event n, 1 to N.
    pub fn event(&self, n: u8) -> &Event {
        &self.events[n as usize - 1]
    }

    pub fn is_recorded(&self, n: u8) -> bool {
        1 <= n && n as usize <= self.events.len()
    }

    pub fn is_initial(&self, n: u8) -> bool {
        INITIAL <= n && n < INITIAL + self.locations
    }

    /// Location and value of a write, recorded or initial; `None` for every other number.
    fn write_at(&self, n: u8) -> Option<(u8, u16)> {
        if self.is_initial(n) {
            Some((n - INITIAL, 0))
        } else if self.is_recorded(n) && self.event(n).class == WRITE {
            Some((self.event(n).location, self.event(n).value))
        } else {
            None
        }
    }

    /// Both are recorded and b stands later than a in one thread.
    pub fn po_later(&self, a: u8, b: u8) -> bool {
        self.threads.iter().any(|thread| {
            let place = |e: u8| thread.iter().position(|&x| x == e);
            matches!((place(a), place(b)), (Some(i), Some(j)) if i < j)
        })
    }

    /// The links as (type, source, target), repeats included.
    pub fn link_triples(&self) -> Vec<(u8, u8, u8)> {
        self.links.iter().zip(&self.targets).map(|(l, &t)| (l.link_type, l.source, t)).collect()
    }

    /// Cause 8 does not apply.
    fn link_conditions_hold(&self) -> bool {
        let triples = self.link_triples();
        let one_source_per_read = triples.iter().all(|&(t1, s1, e1)| {
            triples.iter().all(|&(t2, s2, e2)| !(t1 == RF && t2 == RF && e1 == e2) || s1 == s2)
        });
        self.links.iter().all(|l| l.last == 0)
            && triples.iter().all(|&(link_type, s, e)| self.link_allowed(link_type, s, e))
            && one_source_per_read
    }

    /// The condition of one link of the given type from s to e.
    fn link_allowed(&self, link_type: u8, s: u8, e: u8) -> bool {
        let target = self.event(e);
        match link_type {
            RF => target.class == READ && self.write_at(s) == Some((target.location, target.value)),
            CO => {
                let same_location = self.write_at(s).is_some_and(|(location, _)| location == target.location);
                target.class == WRITE && same_location && s != e
            }
            RMW..=CASDEP => {
                if !self.is_recorded(s) || self.event(s).class != READ {
                    return false;
                }
                let read = self.event(s);
                match link_type {
                    RMW => {
                        read.flag == 1
                            && read.next == e
                            && target.class == WRITE
                            && target.location == read.location
                    }
                    DATA => self.po_later(s, e) && target.class == WRITE,
                    ADDR => self.po_later(s, e) && (target.class == READ || target.class == WRITE),
                    CTRL => self.po_later(s, e),
                    _ => {
                        self.kind == SOURCE && self.po_later(s, e) && target.class == READ && target.flag == 1
                    }
                }
            }
            _ => false,
        }
    }

    fn co_links(&self) -> Relation {
        let mut co = Relation::empty();
        for (link_type, s, e) in self.link_triples() {
            if link_type == CO {
                co.add(s, e);
            }
        }
        co
    }

    /// Cause 10 does not apply. In a chip recording no write has flag 1.
    fn strong_writes_have_rmw(&self) -> bool {
        let triples = self.link_triples();
        (1..=self.events.len() as u8).all(|w| {
            let event = self.event(w);
            !(event.class == WRITE && event.flag == 1) || triples.iter().any(|&(t, _, e)| t == RMW && e == w)
        })
    }
}
