//! Random recordings that load: small dense ones mostly, some up to the limits of N, M and a thread.
//! Recordings with a thread over its limit. And recordings of full size.

use crate::draft::{Draft, DraftEvent};
use crate::generate_buffers::buffer_shaped;
use crate::generate_circles::circle_shaped;
use crate::generate_links::{co_of, dependencies, repeats, rf_of, values};
use crate::generate_rings::ring_shaped;
use crate::generate_syncs::sync_shaped;
use crate::random::Random;
use crate::recording::*;
use crate::shaped::mode_of;

/// What a recording is mostly made of, in percent.
pub struct Theme {
    pub fences: usize,
    pub pairs: usize,
    pub exclusive: usize,
    pub acquire: usize,
    pub release: usize,
    pub strong: usize,
    pub dependencies: usize,
}

const THEMES: [Theme; 7] = [
    Theme { fences: 12, pairs: 15, exclusive: 10, acquire: 40, release: 40, strong: 40, dependencies: 15 },
    Theme { fences: 5, pairs: 60, exclusive: 15, acquire: 30, release: 30, strong: 40, dependencies: 10 },
    Theme { fences: 35, pairs: 8, exclusive: 5, acquire: 25, release: 25, strong: 30, dependencies: 10 },
    Theme { fences: 4, pairs: 8, exclusive: 8, acquire: 10, release: 10, strong: 50, dependencies: 60 },
    Theme { fences: 3, pairs: 5, exclusive: 3, acquire: 5, release: 5, strong: 30, dependencies: 5 },
    Theme { fences: 20, pairs: 30, exclusive: 20, acquire: 60, release: 60, strong: 60, dependencies: 40 },
    // Pairs throughout, all strong.
    Theme { fences: 0, pairs: 100, exclusive: 10, acquire: 30, release: 30, strong: 100, dependencies: 10 },
];

/// How many events and locations there are, and how many events a thread may have.
struct Size {
    events: usize,
    locations: usize,
    thread: usize,
}

/// How rf and co are drawn.
#[derive(Clone, Copy, PartialEq)]
enum Policy {
    /// One interleaving of all threads: sequentially consistent.
    Sequential,
    /// The same, but one location is interleaved anew.
    NearlySequential,
    /// Each location interleaved on its own: coherent.
    PerLocation,
    /// As before, but some reads from any write of their location, and co at times in any order.
    Anyhow,
}

/// A recording of either kind, as a draft.
pub fn draft(random: &mut Random) -> Draft {
    let kind = any_kind(random);
    draft_of_kind(random, kind)
}

pub fn any_kind(random: &mut Random) -> u8 {
    if random.chance(60) { SOURCE } else { CHIP }
}

pub fn draft_of_kind(random: &mut Random, kind: u8) -> Draft {
    let theme = &THEMES[random.below(THEMES.len())];
    let mut draft = match random.below(100) {
        0..=33 => ring_shaped(random, kind, theme),
        34..=51 => sync_shaped(random, kind, theme),
        52..=55 => circle_shaped(random, kind, theme),
        56..=63 if kind == SOURCE => buffer_shaped(random, theme),
        _ => {
            let size = size_that_loads(random, kind);
            interleaved(random, kind, theme, size)
        }
    };
    repeats(random, &mut draft);
    draft
}

/// A recording whose only fault is a thread over its limit: by one event, by some, or with all events in one thread.
pub fn too_long(random: &mut Random, kind: u8) -> Draft {
    let theme = &THEMES[random.below(THEMES.len())];
    let limit = most_in_thread(kind);
    loop {
        let events = random.between(limit + 1, most_events(kind));
        let some = random.between(limit + 1, events);
        let size = Size { events, locations: random.between(1, 8), thread: random.pick(&[limit + 1, some, events]) };
        let mut draft = interleaved(random, kind, theme, size);
        if draft.threads.iter().any(|thread| thread.len() > limit) {
            repeats(random, &mut draft);
            return draft;
        }
    }
}

/// A recording with as many events as its kind may have, and at most so many in a thread. `fill` gives it as many links.
pub fn full(random: &mut Random, kind: u8, thread: usize) -> Draft {
    let theme = &THEMES[random.below(THEMES.len())];
    let size = Size { events: most_events(kind), locations: random.between(2, 8), thread };
    let draft = skeleton(random, kind, theme, size);
    let policy = random.pick(&[Policy::Sequential, Policy::NearlySequential, Policy::NearlySequential, Policy::Anyhow]);
    let mut draft = linked(random, draft, theme, policy);
    let more = random.pick(&[10, 50, 200]);
    dependencies(random, &mut draft, more);
    draft
}

pub fn most_events(kind: u8) -> usize {
    if kind == SOURCE { 32 } else { 48 }
}

fn size_that_loads(random: &mut Random, kind: u8) -> Size {
    let most = most_events(kind);
    let (events, locations) = match random.below(100) {
        0..=1 => (random.between(0, 1), random.between(0, 2)),
        2..=24 => (random.between(2, 6), random.between(1, 2)),
        25..=69 => (random.between(5, 10), random.between(1, 3)),
        70..=89 => (random.between(8, 16), random.between(2, 4)),
        90..=96 => (random.between(16, most), random.between(1, 8)),
        _ => (most, random.between(1, 8)),
    };
    Size { events, locations, thread: most_in_thread(kind) }
}

/// Threads drawn at random, then rf and co by a policy.
fn interleaved(random: &mut Random, kind: u8, theme: &Theme, size: Size) -> Draft {
    let events = size.events;
    let draft = skeleton(random, kind, theme, size);
    let policy = match random.below(100) {
        0..=7 => Policy::Sequential,
        8..=19 => Policy::NearlySequential,
        20..=69 if events <= 16 => Policy::PerLocation,
        70..=84 if events <= 16 => Policy::Anyhow,
        85..=92 => Policy::PerLocation,
        _ => Policy::NearlySequential,
    };
    linked(random, draft, theme, policy)
}

/// The draft with values, rf and co by a policy, and dependencies.
fn linked(random: &mut Random, mut draft: Draft, theme: &Theme, policy: Policy) -> Draft {
    let atomic = random.chance(35);
    values(random, &mut draft);
    let threads = draft.threads.to_vec();
    let global = interleave(random, &draft, &threads, atomic);
    let redrawn = random.below(draft.locations.max(1) as usize) as u8;
    let (drop_rf, drop_co) = (random.chance(8), random.chance(9));
    for location in 0..draft.locations {
        let accesses = draft.accesses(location);
        let order = match policy {
            Policy::PerLocation | Policy::Anyhow => interleave(random, &draft, &accesses, atomic),
            Policy::NearlySequential if location == redrawn => interleave(random, &draft, &accesses, atomic),
            _ => global.iter().copied().filter(|n| accesses.iter().any(|t| t.contains(n))).collect(),
        };
        let astray = if policy == Policy::Anyhow { 40 } else { 0 };
        rf_of(random, &mut draft, location, &order, astray, drop_rf);
        let mut coherence: Vec<u8> = order.iter().copied().filter(|&n| draft.event(n).class == WRITE).collect();
        if policy == Policy::Anyhow && random.chance(30) {
            random.shuffle(&mut coherence);
        }
        co_of(random, &mut draft, location, &coherence, drop_co);
    }
    dependencies(random, &mut draft, theme.dependencies);
    draft
}

/// The events and threads, and the rmw links of the pairs.
fn skeleton(random: &mut Random, kind: u8, theme: &Theme, size: Size) -> Draft {
    let mut numbers: Vec<u8> = (1..=size.events as u8).collect();
    if random.chance(60) {
        random.shuffle(&mut numbers);
    }
    let mut filling = Filling::new(random, size.thread);
    let locations = size.locations as u8;
    let blank = DraftEvent { class: FENCE, mode: 0, flag: 0, location: 0, value: 0 };
    let mut draft = Draft::empty(kind);
    draft.locations = locations;
    draft.events = vec![blank; size.events];
    let mut left = numbers;
    while let Some(number) = left.pop() {
        let location = if locations == 0 { 0 } else { random.below(locations as usize) as u8 };
        if locations == 0 || random.chance(theme.fences) {
            draft.event_mut(number).mode = fence_mode(random, kind);
            filling.put(random, &mut draft, &[number]);
            continue;
        }
        let reads = DraftEvent { class: READ, mode: mode_of(random, READ, theme), flag: 0, location, value: 0 };
        let writes = DraftEvent { class: WRITE, mode: mode_of(random, WRITE, theme), flag: 0, location, value: 0 };
        if !left.is_empty() && random.chance(theme.pairs) {
            let write = left.pop().unwrap();
            *draft.event_mut(number) = DraftEvent { flag: 1, ..reads };
            *draft.event_mut(write) = writes;
            filling.put(random, &mut draft, &[number, write]);
            // Seldom the exclusive read and the write behind it are no pair.
            if random.chance(93) {
                draft.add_link(RMW, number, write);
                draft.event_mut(write).flag = (kind == SOURCE && random.chance(theme.strong)) as u8;
            }
        } else {
            let read = random.chance(50);
            *draft.event_mut(number) = if read { reads } else { writes };
            draft.event_mut(number).flag = (read && random.chance(theme.exclusive)) as u8;
            filling.put(random, &mut draft, &[number]);
        }
    }
    draft
}

/// The threads of a draft as they fill up. Some are left empty while the others have room.
struct Filling {
    order: [usize; 4],
    /// So many of the order are used.
    used: usize,
    /// The most events of a thread.
    most: usize,
}

impl Filling {
    fn new(random: &mut Random, most: usize) -> Filling {
        let mut order = [0, 1, 2, 3];
        random.shuffle(&mut order);
        Filling { order, used: random.pick(&[1, 2, 2, 2, 2, 3, 3, 3, 4, 4]), most }
    }

    /// Puts events that stand together behind a used thread that has room for them all.
    /// Where none has, one more thread is used.
    fn put(&mut self, random: &mut Random, draft: &mut Draft, events: &[u8]) {
        let has_room = |thread: &usize| draft.threads[*thread].len() + events.len() <= self.most;
        let mut open: Vec<usize> = self.order[..self.used].iter().copied().filter(has_room).collect();
        if open.is_empty() {
            open.push(self.order[self.used]);
            self.used += 1;
        }
        draft.threads[random.pick(&open)].extend(events);
    }
}

pub fn fence_mode(random: &mut Random, kind: u8) -> u8 {
    let modes: &[u8] = if kind == SOURCE { &[1, 2, 3, 4] } else { &[5, 6, ISB] };
    random.pick(modes)
}

/// Merges lists at random, each kept in its order. With `atomic`, an rmw pair is taken at once.
fn interleave(random: &mut Random, draft: &Draft, lists: &[Vec<u8>], atomic: bool) -> Vec<u8> {
    let mut left: Vec<Vec<u8>> = lists.iter().filter(|l| !l.is_empty()).cloned().collect();
    let mut merged = Vec::new();
    while !left.is_empty() {
        let from = random.below(left.len());
        let first = left[from].remove(0);
        merged.push(first);
        if atomic && !left[from].is_empty() && draft.has_link(RMW, first, left[from][0]) {
            merged.push(left[from].remove(0));
        }
        if left[from].is_empty() {
            left.remove(from);
        }
    }
    merged
}
