//! Random recordings built around a ring: threads joined by rf, fr and co,
//! inside them fences, dependencies and pairs.
//! Whether a model forbids the ring depends on what stands in each thread.

use crate::draft::Draft;
use crate::generate::{fence_mode, Theme};
use crate::random::Random;
use crate::recording::*;
use crate::shaped::{mode_of, Shaped};

/// Which edges join the threads, and what is put inside them.
#[derive(Clone, Copy, PartialEq)]
enum Family {
    /// rf only: load buffering and its kin.
    ReadsFrom,
    Any,
    /// Any edges, with a full fence in each thread.
    Fenced,
    /// Chip only. rf into a thread and fr out of it, once or twice, and any other edges. Behind a first read there is an isb
    /// with a dependency, or something near it; threads that begin with a write have a full fence.
    Isb,
}

/// An edge goes from the last access of a thread to the first access of the next thread.
#[derive(Clone, Copy, PartialEq)]
enum Edge {
    Rf,
    Fr,
    Co,
}

pub fn ring_shaped(random: &mut Random, kind: u8, theme: &Theme) -> Draft {
    let families: &[Family] = match kind {
        SOURCE => &[Family::ReadsFrom, Family::Any, Family::Fenced],
        _ => &[Family::ReadsFrom, Family::Any, Family::Fenced, Family::Isb, Family::Isb],
    };
    let family = random.pick(families);
    let edges = edges(random, family);
    let threads = edges.len();

    let mut ring = Shaped::new(kind);
    // The ring is closed in the location that it starts in.
    let start = ring.new_location();
    let mut location = start;
    let mut start_event = 0;
    let mut last_of_thread = Vec::new();
    for thread in 0..threads {
        let into = edges[(thread + threads - 1) % threads];
        let first_class = if into == Edge::Rf { READ } else { WRITE };
        let last_class = if edges[thread] == Edge::Fr { READ } else { WRITE };
        let flag = (first_class == READ && random.chance(theme.exclusive)) as u8;
        // What is to be ordered by an isb is mostly not ordered by itself.
        let relaxed = family == Family::Isb && random.chance(75);
        let mode = if relaxed { 0 } else { mode_of(random, first_class, theme) };
        let first = ring.event(thread, first_class, mode, flag, location);
        if thread == 0 {
            start_event = first;
        } else {
            ring.orders[location as usize].push(first);
        }
        // At times one access is first and last, but no read that an isb may stand behind.
        let single = first_class == last_class && !(family == Family::Isb && first_class == READ);
        if thread > 0 && single && random.chance(40) {
            last_of_thread.push(first);
            continue;
        }
        for _ in 0..random.pick(&[1, 1, 1, 2, 2]) {
            inside(random, &mut ring, thread, first, theme, family);
        }
        // With two threads the second half of each may stand in a third and fourth, behind a release and an acquire.
        let mut at = thread;
        if threads == 2 && family == Family::Fenced && random.chance(35) {
            at = thread + 2;
            let passed = ring.new_location();
            let release = ring.event(thread, WRITE, 2, 0, passed);
            let acquire = ring.event(at, READ, 1, 0, passed);
            ring.orders[passed as usize].extend([release, acquire]);
            if random.chance(40) {
                inside(random, &mut ring, at, acquire, theme, family);
            }
        }
        location = if thread + 1 == threads { start } else { ring.new_location() };
        let last = ring.event(at, last_class, mode_of(random, last_class, theme), 0, location);
        ring.orders[location as usize].push(last);
        closing(random, &mut ring, at, last, theme);
        last_of_thread.push(last);
    }
    ring.draft.event_mut(start_event).location = location;
    ring.orders[location as usize].push(start_event);
    for (thread, &last) in last_of_thread.iter().enumerate() {
        if edges[thread] == Edge::Rf && random.chance(20) && ring.draft.events.len() < 28 {
            // A pair in some thread that reads from the last write and is read in its place.
            let location = ring.draft.event(last).location;
            let at = if random.chance(25) { thread } else { random.below(4) };
            if ring.room(at) >= 2 {
                let (read, write) = ring.pair(random, at, location, theme);
                ring.place_beside(write, last, true);
                ring.place_beside(read, last, true);
            }
        }
    }
    ring.finish(random, theme)
}

/// The edge out of each thread.
fn edges(random: &mut Random, family: Family) -> Vec<Edge> {
    let threads = random.pick(if family == Family::Isb { &[2, 2, 3, 4, 4, 4] } else { &[2, 2, 2, 3, 3, 4] });
    let mut edges: Vec<Edge> = (0..threads)
        .map(|_| match family {
            Family::ReadsFrom => Edge::Rf,
            _ => random.pick(&[Edge::Rf, Edge::Fr, Edge::Co]),
        })
        .collect();
    if family == Family::Isb {
        // One thread from a read to a read, or two.
        let places = random.between(1, 2);
        edges.chunks_exact_mut(2).take(places).for_each(|pair| pair.copy_from_slice(&[Edge::Rf, Edge::Fr]));
        edges.rotate_left(random.below(threads));
    }
    edges
}

/// Something between the first and the last access of a thread.
fn inside(random: &mut Random, ring: &mut Shaped, thread: usize, first: u8, theme: &Theme, family: Family) {
    let kind = ring.draft.kind;
    let first_reads = ring.draft.event(first).class == READ;
    // Room is kept for what is to come: at most 8 locations and 32 events.
    let has_location = ring.orders.len() < 5;
    if ring.draft.events.len() >= 20 || !has_location && family != Family::Isb {
        return;
    }
    if family == Family::Fenced || family == Family::Isb && !first_reads {
        ring.event(thread, FENCE, if kind == SOURCE { 4 } else { 6 }, 0, 0);
        return;
    }
    if family == Family::Isb {
        isb(random, ring, thread, first, has_location);
        return;
    }
    match random.below(9) {
        0..=1 => {
            let mode = fence_mode(random, kind);
            let fence = ring.event(thread, FENCE, mode, 0, 0);
            if mode == ISB && first_reads && random.chance(60) {
                ring.draft.add_link(CTRL, first, fence);
            }
        }
        // A write that depends on the first read, and a read of it in the same thread.
        2 => {
            let location = ring.new_location();
            let write = ring.event(thread, WRITE, 0, 0, location);
            let read = ring.event(thread, READ, mode_of(random, READ, theme), 0, location);
            ring.orders[location as usize].extend([write, read]);
            if first_reads && random.chance(80) {
                ring.depend(random, first, write);
            }
            // At times another thread's write comes between: a detour.
            if random.chance(30) {
                let other = ring.event((thread + 1) % 4, WRITE, 0, 0, location);
                ring.place_beside(other, write, true);
            }
        }
        // A pair of its own.
        3 => {
            let location = ring.new_location();
            let (read, write) = ring.pair(random, thread, location, theme);
            ring.orders[location as usize].extend([read, write]);
            if first_reads && random.chance(50) {
                ring.depend(random, first, read);
            }
        }
        // A failed exclusive read.
        4 => {
            let location = ring.new_location();
            let read = ring.event(thread, READ, mode_of(random, READ, theme), 1, location);
            ring.orders[location as usize].push(read);
            if first_reads {
                ring.depend(random, first, read);
            }
        }
        // An access whose address depends on the first read.
        5 => {
            let location = ring.new_location();
            let class = random.pick(&[READ, WRITE]);
            let access = ring.event(thread, class, 0, 0, location);
            ring.orders[location as usize].push(access);
            if first_reads {
                ring.draft.add_link(ADDR, first, access);
            }
        }
        // The write of a pair whose read is the first access.
        6 if first_reads && ring.draft.threads[thread].last() == Some(&first) && thread > 0 => {
            let location = ring.draft.event(first).location;
            let write = ring.event(thread, WRITE, mode_of(random, WRITE, theme), 0, location);
            ring.place_beside(write, first, true);
            ring.join(random, first, write, theme);
        }
        _ => {}
    }
}

/// An isb behind the first read of a thread that orders what is read behind it, or something that lacks one element of that.
/// An access goes with it only where there is a location for one.
fn isb(random: &mut Random, ring: &mut Shaped, thread: usize, first: u8, has_location: bool) {
    let barrier = |ring: &mut Shaped| ring.event(thread, FENCE, ISB, 0, 0);
    let access = |ring: &mut Shaped, link_type: u8, class: u8| {
        let location = ring.new_location();
        let access = ring.event(thread, class, 0, 0, location);
        ring.orders[location as usize].push(access);
        ring.draft.add_link(link_type, first, access);
    };
    let class = random.pick(&[READ, WRITE]);
    match random.below(if has_location { 13 } else { 3 }) {
        // ctrl into the isb, or no dependency.
        0..=1 => {
            let to = barrier(ring);
            ring.draft.add_link(CTRL, first, to);
        }
        2 => {
            barrier(ring);
        }
        // ctrl or addr into an access before the isb.
        3..=4 => {
            access(ring, CTRL, class);
            barrier(ring);
        }
        5..=7 => {
            access(ring, ADDR, class);
            barrier(ring);
        }
        // The isb comes too early, the dependency is another, there is no isb.
        8..=9 => {
            barrier(ring);
            access(ring, ADDR, class);
        }
        10..=11 => {
            access(ring, DATA, WRITE);
            barrier(ring);
        }
        _ => access(ring, CTRL, class),
    }
}

/// Something that ties the last access of a thread to what stands before it.
fn closing(random: &mut Random, ring: &mut Shaped, thread: usize, last: u8, theme: &Theme) {
    let last_writes = ring.draft.event(last).class == WRITE;
    let location = ring.draft.event(last).location;
    match random.below(6) {
        0..=2 => {
            let before = ring.draft.threads[thread].iter().copied().filter(|&n| n != last);
            let reads: Vec<u8> = before.filter(|&n| ring.draft.event(n).class == READ).collect();
            if !reads.is_empty() {
                let from = if random.chance(50) { reads[0] } else { random.pick(&reads) };
                ring.depend(random, from, last);
            }
        }
        // Another write of the same location, po-later; the ring goes on from it.
        3 if last_writes => {
            let again = ring.event(thread, WRITE, 0, 0, location);
            ring.place_beside(again, last, true);
        }
        // The last write is a pair's: its read is put directly before it.
        4 if last_writes => {
            let read = ring.event(thread, READ, mode_of(random, READ, theme), 1, location);
            let end = ring.draft.threads[thread].len() - 1;
            ring.draft.threads[thread].swap(end, end - 1);
            ring.place_beside(read, last, false);
            ring.join(random, read, last, theme);
        }
        _ => {}
    }
}
