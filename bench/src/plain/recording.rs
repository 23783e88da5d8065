//! A recording, decoded once from a file's bytes, and the causes of refusal 1 to 10 and 13 in their order: 13 comes after 6.
//! Assumes nothing of the bytes.

use super::relation::{has, members, single, Relation, Set};

pub const SOURCE: u8 = 1;
pub const CHIP: u8 = 2;

pub const READ: u8 = 1;
pub const WRITE: u8 = 2;
pub const FENCE: u8 = 3;

pub const RF: usize = 1;
pub const CO: usize = 2;
pub const RMW: usize = 3;
pub const DATA: usize = 4;
pub const ADDR: usize = 5;
pub const CTRL: usize = 6;
pub const CASDEP: usize = 7;

/// The number of the initial write of location 0.
pub const INITIAL: usize = 56;

pub const MOST_EVENTS: usize = 48;

const MOST_IN_SOURCE_THREAD: usize = 12;
const MOST_IN_CHIP_THREAD: usize = 18;

/// The most events of a thread.
pub fn most_in_thread(kind: u8) -> usize {
    if kind == SOURCE { MOST_IN_SOURCE_THREAD } else { MOST_IN_CHIP_THREAD }
}

#[derive(Clone, Copy, Default)]
pub struct Event {
    pub next: u8,
    pub class: u8,
    pub mode: u8,
    pub flag: u8,
    pub location: u8,
    pub value: u16,
}

#[derive(Clone)]
pub struct Recording {
    pub kind: u8,
    pub locations: u8,
    pub heads: [u8; 4],
    pub count: usize,
    /// Event n stands at place n.
    pub events: [Event; MOST_EVENTS + 1],
    /// By the type of a link, from its target to its sources.
    pub sources: [Relation; 8],
}

/// A recording that loads, with its program order and coherence order.
pub struct Loaded {
    pub recording: Recording,
    pub po: Relation,
    pub co: Relation,
}

struct Header {
    kind: u8,
    count: usize,
    locations: u8,
    links: usize,
}

/// Loads a file, or answers the number of the first cause that applies.
pub fn load(file: &[u8]) -> Result<Loaded, u8> {
    let header = header(file)?;
    let (event_part, link_part) = file[8..].split_at(8 * header.count);
    let mut recording = Recording {
        kind: header.kind,
        locations: header.locations,
        heads: [file[4], file[5], file[6], file[7]],
        count: header.count,
        events: [Event::default(); MOST_EVENTS + 1],
        sources: [Relation::empty(); 8],
    };
    recording.read_events(event_part)?;
    let po = recording.program_order()?;
    let targets = link_targets(event_part, link_part, header.links).ok_or(7)?;
    recording.read_links(link_part, &targets, &po)?;
    let co = recording.coherence();
    if !co.is_irreflexive() {
        return Err(9);
    }
    if !recording.strong_writes_are_paired() {
        return Err(10);
    }
    Ok(Loaded { recording, po, co })
}

/// Causes 1 to 4.
fn header(file: &[u8]) -> Result<Header, u8> {
    if file.len() < 8 {
        return Err(1);
    }
    let header = Header { kind: file[0], count: file[1] as usize, locations: file[2], links: file[3] as usize };
    let (most_events, most_links) = match header.kind {
        SOURCE => (32, 200),
        CHIP => (MOST_EVENTS, 255),
        _ => return Err(2),
    };
    if header.count > most_events || header.locations > 8 || header.links > most_links {
        return Err(3);
    }
    if file.len() != 8 + 8 * header.count + 4 * header.links {
        return Err(4);
    }
    Ok(header)
}

/// The target of each link; none where cause 7 applies.
fn link_targets(event_part: &[u8], link_part: &[u8], links: usize) -> Option<[u8; 256]> {
    let mut targets = [0; 256];
    let mut met = 0;
    for (index, event) in event_part.chunks_exact(8).enumerate() {
        let mut at = event[7] as usize;
        while at != 0 {
            if at > links || targets[at] != 0 {
                return None;
            }
            targets[at] = index as u8 + 1;
            met += 1;
            at = link_part[4 * (at - 1)] as usize;
        }
    }
    (met == links).then_some(targets)
}

impl Recording {
    /// The numbers of the recorded events.
    pub fn recorded(&self) -> Set {
        (single(self.count) - 1) << 1
    }

    /// The numbers of the initial writes.
    pub fn initial(&self) -> Set {
        (single(self.locations as usize) - 1) << INITIAL
    }

    /// Decodes the event records; cause 5.
    fn read_events(&mut self, event_part: &[u8]) -> Result<(), u8> {
        for (index, b) in event_part.chunks_exact(8).enumerate() {
            let event = Event {
                next: b[0],
                class: b[1],
                mode: b[2],
                flag: b[3],
                location: b[4],
                value: u16::from_le_bytes([b[5], b[6]]),
            };
            if !self.event_is_legal(&event) {
                return Err(5);
            }
            self.events[index + 1] = event;
        }
        Ok(())
    }

    fn event_is_legal(&self, e: &Event) -> bool {
        let source = self.kind == SOURCE;
        match e.class {
            READ => e.mode <= 1 && e.flag <= 1 && e.location < self.locations,
            WRITE => (e.mode == 0 || e.mode == 2) && e.flag <= source as u8 && e.location < self.locations,
            FENCE => {
                let modes = if source { 1..=4 } else { 5..=7 };
                modes.contains(&e.mode) && e.flag == 0 && e.location == 0 && e.value == 0
            }
            _ => false,
        }
    }

    /// Earlier to later in a thread, and every initial write to every recorded event; causes 6 and 13.
    pub fn program_order(&self) -> Result<Relation, u8> {
        let mut po = Relation::empty();
        let mut met: Set = 0;
        let mut longest = 0;
        for head in self.heads {
            let mut thread = [0; MOST_EVENTS];
            let mut length = 0;
            let mut at = head as usize;
            while at != 0 {
                if at > self.count || has(met, at) {
                    return Err(6);
                }
                met |= single(at);
                thread[length] = at;
                length += 1;
                at = self.events[at].next as usize;
            }
            longest = longest.max(length);
            let mut later: Set = 0;
            for &e in thread[..length].iter().rev() {
                po[e] = later;
                later |= single(e);
            }
        }
        for e in members(self.initial()) {
            po[e] = self.recorded();
        }
        if met != self.recorded() {
            return Err(6);
        }
        if longest > most_in_thread(self.kind) {
            return Err(13);
        }
        Ok(po)
    }

    /// Decodes the link records; cause 8.
    fn read_links(&mut self, link_part: &[u8], targets: &[u8; 256], po: &Relation) -> Result<(), u8> {
        for (index, b) in link_part.chunks_exact(4).enumerate() {
            let (link_type, source, target) = (b[1] as usize, b[2] as usize, targets[index + 1] as usize);
            if b[3] != 0 || !self.link_is_legal(link_type, source, target, po) {
                return Err(8);
            }
            self.sources[link_type][target] |= single(source);
        }
        let several = |e: usize| self.sources[RF][e].count_ones() > 1;
        if (1..=self.count).any(several) {
            return Err(8);
        }
        Ok(())
    }

    /// Location and value of a write, recorded or initial; none for any other number.
    fn write_at(&self, e: usize) -> Option<(u8, u16)> {
        if e >= INITIAL && e < INITIAL + self.locations as usize {
            return Some(((e - INITIAL) as u8, 0));
        }
        let event = self.recorded_event(e)?;
        (event.class == WRITE).then_some((event.location, event.value))
    }

    fn recorded_event(&self, e: usize) -> Option<&Event> {
        if e == 0 || e > self.count {
            return None;
        }
        Some(&self.events[e])
    }

    fn link_is_legal(&self, link_type: usize, source: usize, target: usize, po: &Relation) -> bool {
        let to = &self.events[target];
        match link_type {
            RF => to.class == READ && self.write_at(source) == Some((to.location, to.value)),
            CO => {
                let same = self.write_at(source).is_some_and(|(location, _)| location == to.location);
                to.class == WRITE && same && source != target
            }
            RMW..=CASDEP => {
                let Some(read) = self.recorded_event(source) else {
                    return false;
                };
                read.class == READ && has(po[source], target) && self.dependency_is_legal(link_type, read, target)
            }
            _ => false,
        }
    }

    /// Types 3 to 7, from a read to a po-later event.
    fn dependency_is_legal(&self, link_type: usize, read: &Event, target: usize) -> bool {
        let to = &self.events[target];
        match link_type {
            RMW => {
                let directly_after = read.next as usize == target;
                read.flag == 1 && directly_after && to.class == WRITE && to.location == read.location
            }
            DATA => to.class == WRITE,
            ADDR => to.class != FENCE,
            CTRL => true,
            _ => self.kind == SOURCE && to.class == READ && to.flag == 1,
        }
    }

    /// co: the links and initial-before-recorded, taken transitively.
    fn coherence(&self) -> Relation {
        let mut co = self.sources[CO].inverse();
        for e in 1..=self.count {
            let event = &self.events[e];
            if event.class == WRITE {
                co[INITIAL + event.location as usize] |= single(e);
            }
        }
        co.closure()
    }

    fn strong_writes_are_paired(&self) -> bool {
        (1..=self.count).all(|e| {
            let event = &self.events[e];
            !(event.class == WRITE && event.flag == 1) || self.sources[RMW][e] != 0
        })
    }
}
