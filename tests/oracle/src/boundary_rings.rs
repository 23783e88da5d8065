//! Recordings whose shortest rings are known by hand (02, slip 5): rings of one event, the longest that a shortest ring can be,
//! and short rings beside long ones. They are boundary files that load.

use crate::handmade::{thread_limit, Cases};
use crate::sketch::*;

/// A file with what is known of its rings.
pub struct Ringed {
    pub name: String,
    pub file: Vec<u8>,
    /// For each verdict on it the broken rule and the number of events of a shortest ring; of an allowed one 0 and all events.
    pub rings: Vec<(u8, usize)>,
    /// The place of a verdict and a longer ring of it, where one is known.
    pub longer: Option<(usize, Vec<u8>)>,
}

pub fn ringed() -> Vec<Ringed> {
    let mut all = one_event();
    all.extend(longest());
    all.extend(buffered());
    all.extend(decoys());
    all
}

pub fn add(cases: &mut Cases) {
    for ringed in ringed() {
        cases.add(ringed.name, ringed.file, 0);
    }
}

impl Sketch {
    fn ringed(&self, name: impl Into<String>, rings: &[(u8, usize)]) -> Ringed {
        Ringed { name: name.into(), file: self.file(), rings: rings.to_vec(), longer: None }
    }

    /// The sketch and the same backward, where its first events, up to `last`, are a longer ring of the verdict at place `of`.
    fn beside_longer(self, name: &str, rings: &[(u8, usize)], of: usize, last: u8) -> [Ringed; 2] {
        let all = self.events.len() as u8;
        let longer = Some((of, (1..=last).collect()));
        let forward = Ringed { longer, ..self.ringed(format!("{name}, the longer ring first"), rings) };
        let longer = Some((of, [all + 1 - last].into_iter().chain((all + 2 - last..=all).rev()).collect()));
        let backward = Ringed { longer, ..self.backward().ringed(format!("{name}, the longer ring last"), rings) };
        [forward, backward]
    }
}

/// R x 1, a fence, W x 1 at the end of a thread, and rf from the write to the read. A fence of mode 3 or 4 synchronizes with itself:
/// a ring of one event under IMM's rule 3. Under ARMv8's and x86-TSO's the read and the write are a ring.
fn own_fence(sketch: &mut Sketch, thread: usize, mode: u8) {
    let x = sketch.location();
    let read = sketch.event(thread, READ, RELAXED, x, 1);
    sketch.event(thread, FENCE, mode, 0, 0);
    let write = sketch.event(thread, WRITE, RELAXED, x, 1);
    sketch.link(RF, write, read);
}

/// Rings of one event, the fence the second of three, or with the smallest or the largest number of 32; and beside a ring of eight.
fn one_event() -> Vec<Ringed> {
    let rings = [(3, 1), (3, 2), (3, 2)];
    let mut all = Vec::new();
    for mode in [3, 4] {
        for thread in 0..4 {
            let mut sketch = Sketch::new(1);
            own_fence(&mut sketch, thread, mode);
            let name = format!("fence {mode} that synchronizes with itself, thread {}", thread + 1);
            all.push(sketch.ringed(&name, &rings));
            // Acquire fences, which start no sw, fill the recording up.
            for more in 0..29 {
                sketch.event((thread + 1 + more % 3) % 4, FENCE, 1, 0, 0);
            }
            all.push(numbered_first(&sketch, 2).ringed(format!("{name}, the first of 32"), &rings));
            all.push(numbered_first(&sketch, 2).backward().ringed(format!("{name}, the last of 32"), &rings));
        }
        let mut sketch = Sketch::new(1);
        synchronized(&mut sketch, 4);
        own_fence(&mut sketch, 0, mode);
        all.extend(sketch.beside_longer(&format!("fence {mode} that synchronizes with itself, beside eight"), &rings, 0, 8));
    }
    all
}

/// The sketch with the numbers 1 and `n` exchanged.
fn numbered_first(sketch: &Sketch, n: u8) -> Sketch {
    let turned = |e: u8| if e == n { 1 } else if e == 1 { n } else { e };
    let mut events = sketch.events.clone();
    events.swap(0, n as usize - 1);
    let threads = sketch.threads.clone().map(|thread| thread.into_iter().map(turned).collect());
    let links = sketch.links.iter().map(|&(link_type, source, target)| (link_type, turned(source), turned(target))).collect();
    Sketch { events, threads, links, ..*sketch }
}

/// In each of so many threads R acquire, W release; each read reads from the write of the thread before.
/// sw and po in turns, twice as many events as threads; on the chip rfe and bob, under x86-TSO rfe and R-W.
fn synchronized(sketch: &mut Sketch, threads: usize) {
    let reads: Vec<u8> = (0..threads)
        .map(|thread| {
            let location = sketch.location();
            let read = sketch.event(thread, READ, ACQUIRE, location, 1);
            let next = if thread + 1 == threads { sketch.locations - threads as u8 } else { sketch.locations };
            sketch.event(thread, WRITE, RELEASE, next, 1);
            read
        })
        .collect();
    for (thread, &read) in reads.iter().enumerate() {
        let before = reads[(thread + threads - 1) % threads] + 1;
        sketch.link(RF, before, read);
    }
}

/// W x 1, W release || R acquire, W release || .. || R acquire, R x 0. sw and po in turns, and fr from the last event to the first:
/// a ring that only eco closes, twice as many events as threads; under x86-TSO W-W, rfe and R-W in turns, R-R, fr.
fn passed_on(sketch: &mut Sketch, threads: usize) {
    let x = sketch.location();
    let mut write = sketch.event(0, WRITE, RELAXED, x, 1);
    for thread in 0..threads {
        if thread > 0 {
            let read = sketch.event(thread, READ, ACQUIRE, sketch.locations - 1, 1);
            sketch.link(RF, write, read);
        }
        if thread + 1 < threads {
            let flag = sketch.location();
            write = sketch.event(thread, WRITE, RELEASE, flag, 1);
        }
    }
    sketch.stale(threads - 1, x);
}

/// Pairs in a circle: pair k, from 0, is the read 2k + 1 and the write 2k + 2 of a thread, with data from the one to the other; the read
/// reads from the write of the pair before. Pair k is in thread k % 4, so that each rf is external.
/// Of the rounds, k / 4, the thread has first 2, then 3, 1, 0. Rounds 0 and 1 of a thread write one location, and so do 2 and 3.
/// So co goes with po, the reads of one location that share a thread have the order of what they read, and rules 1 to 4 hold. No co is
/// external, and there is no detour: ar is rfe and data, and the only ring has all events.
/// On the chip data then coi leads from a read of round 1 to the write of round 0 in its thread: a ring of eight, by the pairs between.
/// None is shorter: a step of ob from a write leads to the next thread, one from a read to its own or to the one before, and to go round
/// takes four writes. With fifteen pairs the step from the last to the first passes a thread by; a ring with it has all of rounds 0 and 1.
/// Under x86-TSO the ring of eight is one too. A shorter one goes round by rfe forth and fr back once each, and so is message passing:
/// write 15 and then 7, in the last thread, read 8 of the first, which reads from 7, and then 12, which reads what 15 overwrites. With
/// fifteen pairs there is no pair 15; of two neighbouring threads, and from round to round, reads have the order of what they read.
fn circle(sketch: &mut Sketch, pairs: u8) {
    let (first, base) = (sketch.locations, sketch.events.len() as u8);
    let location = |k: u8| first + k % 4 + 4 * (k / 8);
    let before = |k: u8| (k + pairs - 1) % pairs;
    sketch.locations += if pairs > 8 { 8 } else { 4 };
    for k in 0..pairs {
        sketch.events.push([READ, RELAXED, 0, location(before(k)), before(k) + 1]);
        sketch.events.push([WRITE, RELAXED, 0, location(k), k + 1]);
        sketch.link(RF, base + 2 * before(k) + 2, base + 2 * k + 1);
        sketch.link(DATA, base + 2 * k + 1, base + 2 * k + 2);
    }
    for round in [2, 3, 1, 0] {
        for k in (4 * round..4 * round + 4).filter(|&k| k < pairs) {
            sketch.threads[k as usize % 4].extend([base + 2 * k + 1, base + 2 * k + 2]);
        }
    }
    for (k, later) in (0..4).flat_map(|thread| [(8 + thread, 12 + thread), (4 + thread, thread)]) {
        if k.max(later) < pairs {
            sketch.link(CO, base + 2 * k + 2, base + 2 * later + 2);
        }
    }
}

/// In each of so many threads, three or four, W a, W b, R b', R a': b' is the b of the thread before, read from its write; a' is the a of
/// the thread before that, read from its initial write. All events are one ring of tso, by their numbers: W-W, rfe, R-R, fr. No other step
/// leads from any of them, as none leads from a write to a later read. Under IMM and ARMv8 no po is a step.
/// A shortest ring of tso has four events of a thread at most. It takes po once from an event at most, and once into one, and po is a step
/// but from a plain write to a plain read. So they are two; or a plain write, then at most one that is no plain read and two that are.
fn buffers(sketch: &mut Sketch, threads: u8) {
    let (a, b) = (sketch.locations, sketch.locations + threads);
    sketch.locations += 2 * threads;
    let mut halves = vec![[0; 2]; threads as usize];
    let mut thread = 0;
    for _ in 0..threads {
        let (next, before) = ((thread + 1) % threads, (thread + threads - 1) % threads);
        let first = sketch.events.len() as u8 + 1;
        sketch.events.push([WRITE, RELAXED, 0, a + thread, 1]);
        sketch.events.push([WRITE, RELAXED, 0, b + thread, 1]);
        sketch.events.push([READ, RELAXED, 0, b + thread, 1]);
        sketch.events.push([READ, RELAXED, 0, a + before, 0]);
        sketch.link(RF, first + 1, first + 2);
        sketch.link(RF, 56 + a + before, first + 3);
        halves[thread as usize][0] = first;
        halves[next as usize][1] = first + 2;
        thread = before;
    }
    for (thread, [writes, reads]) in halves.into_iter().enumerate() {
        sketch.threads[thread].extend([writes, writes + 1, reads, reads + 1]);
    }
}

/// In each of so many threads W x, an SC fence, R x' of the next thread's x, from the initial write: into and out of the fence and fr, a
/// ring of tso. Under IMM psc leads from fence to fence, on the chip bob from the write to the read.
fn fenced_buffers(sketch: &mut Sketch, threads: usize) {
    let first = sketch.locations;
    sketch.locations += threads as u8;
    for thread in 0..threads {
        sketch.event(thread, WRITE, RELAXED, first + thread as u8, 1);
        sketch.event(thread, FENCE, 4, 0, 0);
        sketch.stale(thread, first + ((thread + 1) % threads) as u8);
    }
}

/// A thread that reads y, then other reads, each with addr from the one before, then x, which it reads from the initial write: one step of
/// ob from each to the next, and fre on to the write of x. Nothing writes z, which the others read.
fn reads_on(sketch: &mut Sketch, thread: usize, count: u8, y: u8, z: u8, x: u8) -> u8 {
    let first = sketch.event(thread, READ, RELAXED, y, 1);
    for read in first + 1..first + count {
        let last = read + 1 == first + count;
        sketch.stale(thread, if last { x } else { z });
        sketch.link(ADDR, read - 1, read);
    }
    first
}

/// A chip recording of 48 events that are one ring of ob, by its numbers: in three threads reads, each with addr from the one before;
/// the last reads what a write of the fourth thread overwrites, and the first of the next thread reads from that write.
fn all_48() -> Sketch {
    let mut sketch = Sketch::new(2);
    let z = sketch.location();
    let mut y = [0; 3].map(|_| sketch.location());
    let lengths = [18, 18, 9];
    let mut written = Vec::new();
    let mut firsts = Vec::new();
    for (thread, count) in lengths.into_iter().enumerate() {
        firsts.push(reads_on(&mut sketch, thread, count, y[2], z, y[0]));
        written.push(sketch.event(3, WRITE, RELAXED, y[0], 1));
        y.rotate_left(1);
    }
    for (thread, &first) in firsts.iter().enumerate() {
        sketch.link(RF, written[(thread + 2) % 3], first);
    }
    sketch
}

/// Reads of x that see the write of another thread, then one that does not: W x 1 || R x 1, .., R x 0.
/// Under ARMv8's and x86-TSO's rule 3 a ring of three, the write, one of the reads and the last; longer ones have more of the reads.
/// Under IMM's eco leads from the last read to each other.
fn newer_before_older(sketch: &mut Sketch, threads: [usize; 2], newer: u8) {
    let x = sketch.location();
    let write = sketch.event(threads[0], WRITE, RELAXED, x, 1);
    for _ in 0..newer {
        let read = sketch.event(threads[1], READ, RELAXED, x, 1);
        sketch.link(RF, write, read);
    }
    sketch.stale(threads[1], x);
}

/// The longest rings that a shortest one can be.
/// ar and ob: all events of a recording. Nothing leads to an initial write.
/// IMM's rule 3: two events of each thread. A third between them can be left out, as po joins the other two; and of two visits to a thread
/// one event of the one is po-before one of the other, which leaves out what lies between.
/// ARMv8's and x86-TSO's rule 3: three. Of the events of a location some po goes against rf, co and fr. Of these, one or two lead back.
/// tso: sixteen, four of each thread (`buffers`).
fn longest() -> Vec<Ringed> {
    let mut all = Vec::new();
    for (pairs, tso) in [(15, 8), (16, 4)] {
        let rings = [(5, 2 * pairs as usize), (5, 8), (5, tso)];
        let mut sketch = Sketch::new(1);
        circle(&mut sketch, pairs);
        all.push(sketch.ringed(format!("{pairs} pairs in a circle"), &rings));
        all.push(sketch.backward().ringed(format!("{pairs} pairs in a circle, backward"), &rings));
    }
    all.push(all_48().ringed("48 events in a ring", &[(5, 48)]));
    all.push(all_48().backward().ringed("48 events in a ring, backward", &[(5, 48)]));
    for (name, shape) in [("sw alone", synchronized as fn(&mut Sketch, usize)), ("sw and fr", passed_on)] {
        for threads in 2..=4 {
            let mut sketch = Sketch::new(1);
            shape(&mut sketch, threads);
            let rings = [(3, 2 * threads), (5, 2 * threads), (5, 2 * threads)];
            all.push(sketch.ringed(format!("{threads} threads joined by {name}"), &rings));
        }
    }
    for kind in [1, 2] {
        let rings = if kind == 1 { &[(3, 2), (3, 3), (3, 3)][..] } else { &[(3, 3)] };
        for newer in [1, 2, thread_limit(kind) - 1] {
            let mut sketch = Sketch::new(kind);
            newer_before_older(&mut sketch, [2, 1], newer);
            all.push(sketch.ringed(format!("kind {kind}, {newer} newer reads before an older"), rings));
        }
        // R x 2, W x 1 || W x 2: po, co and rf.
        let mut sketch = Sketch::new(kind);
        let x = sketch.location();
        let [read, write] = [(READ, 2), (WRITE, 1)].map(|(class, value)| sketch.event(0, class, RELAXED, x, value));
        let later = sketch.event(3, WRITE, RELAXED, x, 2);
        sketch.link(CO, write, later);
        sketch.link(RF, later, read);
        all.push(sketch.ringed(format!("kind {kind}, a read of what is co-after a later write"), rings));
    }
    all
}

/// Store buffers, with fences and without.
fn buffered() -> Vec<Ringed> {
    let mut all = Vec::new();
    for threads in [3, 4] {
        let all_events = 6 * threads as usize;
        let rings = [(0, all_events), (0, all_events), (5, 4 * threads as usize)];
        let mut sketch = Sketch::new(1);
        buffers(&mut sketch, threads);
        all.push(sketch.ringed(format!("{threads} threads with a store buffer each"), &rings));
        all.push(sketch.backward().ringed(format!("{threads} threads with a store buffer each, backward"), &rings));
    }
    for threads in 2..=4 {
        let mut sketch = Sketch::new(1);
        fenced_buffers(&mut sketch, threads);
        let rings = [(5, threads), (5, 2 * threads), (5, 3 * threads)];
        all.push(sketch.ringed(format!("{threads} threads with a fenced store buffer each"), &rings));
    }
    all
}

/// Long rings whose events have the smaller numbers, short ones that have the larger; and with the numbers the other way round.
fn decoys() -> Vec<Ringed> {
    type Shape = fn(&mut Sketch);
    let shapes: [(&str, u8, Shape, Shape, &[(u8, usize)], usize); 9] = [
        ("ar, fourteen and four", 1, |s| circle(s, 7), |s| circle(s, 2), &[(5, 4), (5, 4), (5, 4)], 0),
        ("sw, eight and four", 1, |s| synchronized(s, 4), |s| synchronized(s, 2), &[(3, 4), (5, 4), (5, 4)], 0),
        ("sw, eight, and four that eco closes", 1, |s| synchronized(s, 4), |s| passed_on(s, 2), &[(3, 4), (5, 4), (5, 4)], 0),
        ("eight that eco closes, and sw, four", 1, |s| passed_on(s, 4), |s| synchronized(s, 2), &[(3, 4), (5, 4), (5, 4)], 0),
        (
            "sw, eight, and two that eco closes",
            1,
            |s| synchronized(s, 4),
            |s| newer_before_older(s, [0, 1], 1),
            &[(3, 2), (3, 3), (3, 3)],
            0,
        ),
        ("tso, twelve and four", 1, |s| buffers(s, 3), |s| synchronized(s, 2), &[(3, 4), (5, 4), (5, 4)], 2),
        ("tso, twelve by fences and four", 1, |s| fenced_buffers(s, 4), |s| passed_on(s, 2), &[(3, 4), (5, 4), (5, 4)], 2),
        ("ob, fourteen and four", 2, message_passing_of_14, |s| circle(s, 2), &[(5, 4)], 0),
        ("po-loc, three to fourteen and two", 2, |s| newer_before_older(s, [0, 1], 12), read_before_own_write, &[(3, 2)], 0),
    ];
    let mut all = Vec::new();
    for (name, kind, long, short, rings, of) in shapes {
        let mut sketch = Sketch::new(kind);
        long(&mut sketch);
        let last = sketch.events.len() as u8;
        short(&mut sketch);
        all.extend(sketch.beside_longer(name, rings, of, last));
    }
    all
}

/// W x 1, W release y 1 || R y 1, ten reads, R x 0, each with addr from the one before: a ring of ob of fourteen events.
fn message_passing_of_14(sketch: &mut Sketch) {
    let [x, y, z] = [0; 3].map(|_| sketch.location());
    sketch.event(2, WRITE, RELAXED, x, 1);
    let write = sketch.event(2, WRITE, RELEASE, y, 1);
    let first = reads_on(sketch, 3, 12, y, z, x);
    sketch.link(RF, write, first);
}

/// R x 1, W x 1 of a thread, and rf from the write to the read.
fn read_before_own_write(sketch: &mut Sketch) {
    let x = sketch.location();
    let read = sketch.event(3, READ, RELAXED, x, 1);
    let write = sketch.event(3, WRITE, RELAXED, x, 1);
    sketch.link(RF, write, read);
}
