//! Recordings around x86-TSO (02, slip 6) whose tso verdicts are known by hand: rings that one step decides, between accesses of two sorts
//! or past something third, and orders that show which events a step joins. They are boundary files that load.

use crate::handmade::Cases;
use crate::sketch::*;

/// A file with what is known of its tso verdict.
pub struct Known {
    pub name: String,
    pub file: Vec<u8>,
    /// The broken rule and the number of events of a shortest ring; where it is allowed 0 and all events.
    pub shown: (u8, usize),
    /// The order of an allowed one, where it is known.
    pub order: Option<Vec<u8>>,
}

pub fn known() -> Vec<Known> {
    let mut all = ends();
    all.extend(middles());
    all.extend(buffers());
    all.extend(writes_only());
    all.extend(write_then_read());
    all.extend(forwarded());
    all.extend(orders());
    all
}

pub fn add(cases: &mut Cases) {
    for known in known() {
        cases.add(known.name, known.file, 0);
    }
}

/// What an access is besides a read or a write.
#[derive(Clone, Copy, PartialEq)]
enum Sort {
    Plain,
    /// Acquire or release.
    Ordered,
    /// An exclusive read without rmw.
    Failed,
    /// The one or the other event of a pair, which is strong or not.
    Pair,
    Strong,
}
use Sort::*;

/// The class of an access, and its sort.
type End = (u8, Sort);

#[derive(Clone, Copy)]
enum Item {
    Fence(u8),
    /// Of an access of a pair both events.
    Access(End),
}
use Item::*;

const READS: [Sort; 5] = [Plain, Ordered, Failed, Pair, Strong];
const WRITES: [Sort; 4] = [Plain, Ordered, Pair, Strong];
const MIDDLES: [Item; 9] = [
    Fence(1),
    Fence(2),
    Fence(3),
    Fence(4),
    Access((READ, Plain)),
    Access((READ, Failed)),
    Access((WRITE, Plain)),
    Access((READ, Pair)),
    Access((READ, Strong)),
];

/// A thread of a ring.
#[derive(Clone, Copy)]
struct Thread {
    first: End,
    middle: Option<Item>,
    last: End,
}

impl Thread {
    fn of(first: u8, middle: Option<Item>, last: u8) -> Thread {
        Thread { first: (first, Plain), middle, last: (last, Plain) }
    }

    /// So many of its events a shortest ring has: the accesses, and what orders a write before a read where these do not.
    /// None where the read may come before the write.
    fn in_ring(&self) -> Option<usize> {
        let is_pair = |(_, sort): End| matches!(sort, Pair | Strong);
        if self.first.0 == READ || self.last.0 == WRITE || is_pair(self.first) || is_pair(self.last) {
            return Some(2);
        }
        match self.middle {
            Some(Fence(4) | Access((_, Pair | Strong))) => Some(3),
            _ => None,
        }
    }

    fn name(&self) -> String {
        let middle = self.middle.map_or(String::new(), |item| item_name(item) + ", ");
        format!("{}, {middle}{}", end_name(self.first), end_name(self.last))
    }
}

fn end_name((class, sort): End) -> String {
    let class = if class == READ { "read" } else { "write" };
    match sort {
        Plain => class.to_string(),
        Ordered => format!("ordered {class}"),
        Failed => format!("exclusive {class}"),
        Pair => format!("{class} of a pair"),
        Strong => format!("{class} of a strong pair"),
    }
}

fn item_name(item: Item) -> String {
    match item {
        Fence(mode) => format!("fence {mode}"),
        Access((_, Pair)) => "pair".to_string(),
        Access((_, Strong)) => "strong pair".to_string(),
        Access(end) => end_name(end),
    }
}

/// Puts an access at the end of a thread, or the pair that it is of. The events.
fn put_access(sketch: &mut Sketch, thread: usize, (class, sort): End, location: u8) -> Vec<u8> {
    let mut put = |class: u8, mode: u8| {
        let value = sketch.events.len() as u8 + 1;
        sketch.event(thread, class, mode, location, value)
    };
    let ordered = if class == READ { ACQUIRE } else { RELEASE };
    match sort {
        Plain => vec![put(class, RELAXED)],
        Ordered => vec![put(class, ordered)],
        Failed => {
            let read = put(class, RELAXED);
            sketch.set_flag(read);
            vec![read]
        }
        Pair | Strong => {
            let (read, write) = (put(READ, RELAXED), put(WRITE, RELAXED));
            sketch.link(RMW, read, write);
            sketch.set_flag(read);
            if sort == Strong {
                sketch.set_flag(write);
            }
            vec![read, write]
        }
    }
}

/// The same of an item; an access has a location of its own, and reads its initial write.
fn put_item(sketch: &mut Sketch, thread: usize, item: Item) -> Vec<u8> {
    match item {
        Fence(mode) => vec![sketch.event(thread, FENCE, mode, 0, 0)],
        Access(end) => {
            let location = sketch.location();
            let events = put_access(sketch, thread, end, location);
            in_turn(sketch, location, &events);
            events
        }
    }
}

/// rf and co of a location whose accesses come one after the other.
fn in_turn(sketch: &mut Sketch, location: u8, accesses: &[u8]) {
    let mut latest = 56 + location;
    for &access in accesses {
        let [class, ..] = sketch.events[access as usize - 1];
        if class == WRITE {
            if latest < 56 {
                sketch.link(CO, latest, access);
            }
            latest = access;
        } else {
            let value = if latest < 56 { latest } else { 0 };
            sketch.events[access as usize - 1][4] = value;
            sketch.link(RF, latest, access);
        }
    }
}

/// Two threads, the last access of each before the first of the other in the order of their location: fr, rf or co leads from the one to
/// the other. Rule 5 is broken where each thread orders its last access behind its first.
fn ring(name: &str, threads: [Thread; 2]) -> Known {
    let mut sketch = Sketch::new(1);
    let locations = [0; 2].map(|_| sketch.location());
    let placed = [0, 1].map(|t: usize| {
        let Thread { first, middle, last } = threads[t];
        let firsts = put_access(&mut sketch, t, first, locations[t]);
        middle.map(|item| put_item(&mut sketch, t, item));
        [firsts, put_access(&mut sketch, t, last, locations[1 - t])]
    });
    for t in [0, 1] {
        let accesses = [placed[1 - t][1].as_slice(), &placed[t][0]].concat();
        in_turn(&mut sketch, locations[t], &accesses);
    }
    let [one, other] = threads.map(|thread| thread.in_ring());
    let all = sketch.events.len() + sketch.locations as usize;
    let shown = one.zip(other).map_or((0, all), |(one, other)| (5, one + other));
    let name = format!("tso, {name}: {}; {}", threads[0].name(), threads[1].name());
    Known { name, file: sketch.file(), shown, order: None }
}

/// A thread beside one that has an SC fence between accesses, to and from which fr and rf lead.
fn beside_fenced(name: &str, thread: Thread) -> Known {
    let other = |class: u8| if class == READ { WRITE } else { READ };
    ring(name, [thread, Thread::of(other(thread.last.0), Some(Fence(4)), other(thread.first.0))])
}

/// A thread of any two accesses.
fn ends() -> Vec<Known> {
    let ends: Vec<End> = READS.map(|sort| (READ, sort)).into_iter().chain(WRITES.map(|sort| (WRITE, sort))).collect();
    let each = |&first: &End| ends.iter().map(move |&last| beside_fenced("ends", Thread { first, middle: None, last }));
    ends.iter().flat_map(each).collect()
}

/// A thread with something between its accesses. Two plain ones, a write and a read, are among those of store buffering.
fn middles() -> Vec<Known> {
    let ends = [
        ((READ, Plain), (READ, Plain)),
        ((READ, Plain), (WRITE, Plain)),
        ((WRITE, Plain), (WRITE, Plain)),
        ((WRITE, Ordered), (READ, Ordered)),
        ((WRITE, Plain), (READ, Failed)),
    ];
    let each = |(first, last): (End, End)| MIDDLES.map(|item| beside_fenced("between", Thread { first, middle: Some(item), last }));
    ends.into_iter().flat_map(each).collect()
}

/// Store buffering, with anything in each thread.
fn buffers() -> Vec<Known> {
    let mut threads = vec![Thread::of(WRITE, None, READ)];
    threads.extend(MIDDLES.map(|item| Thread::of(WRITE, Some(item), READ)));
    threads.push(Thread { first: (WRITE, Pair), middle: None, last: (READ, Plain) });
    threads.push(Thread { first: (WRITE, Plain), middle: None, last: (READ, Pair) });
    let each = |&one: &Thread| threads.iter().map(move |&other| ring("store buffering", [one, other]));
    threads.iter().flat_map(each).collect()
}

/// Two writes in each thread, joined by co.
fn writes_only() -> Vec<Known> {
    let each = |first: Sort| {
        WRITES.map(|last| {
            let thread = Thread { first: (WRITE, first), middle: None, last: (WRITE, last) };
            ring("writes only", [thread, Thread::of(WRITE, None, WRITE)])
        })
    };
    WRITES.into_iter().flat_map(each).collect()
}

/// Two writes in a thread, in the other a write that is co-after the second, and a read that does not see the first.
fn write_then_read() -> Vec<Known> {
    let mut threads = vec![Thread::of(WRITE, None, READ)];
    threads.extend(MIDDLES.map(|item| Thread::of(WRITE, Some(item), READ)));
    threads.push(Thread { first: (WRITE, Pair), middle: None, last: (READ, Plain) });
    threads.push(Thread { first: (WRITE, Plain), middle: None, last: (READ, Pair) });
    threads.into_iter().map(|thread| ring("co and fr", [Thread::of(WRITE, None, WRITE), thread])).collect()
}

/// Store buffering where each thread reads its own write before the other's location, with something before that read or behind it: rf from
/// the own write is no step, and R-R behind it no help.
fn forwarded() -> Vec<Known> {
    let places = MIDDLES.into_iter().flat_map(|item| [(Some(item), None), (None, Some(item))]);
    [(None, None)].into_iter().chain(places).map(|(before, behind)| forwarded_by(before, behind)).collect()
}

fn forwarded_by(before: Option<Item>, behind: Option<Item>) -> Known {
    let mut sketch = Sketch::new(1);
    let locations = [0; 2].map(|_| sketch.location());
    let plain = |sketch: &mut Sketch, thread, class, location| put_access(sketch, thread, (class, Plain), location)[0];
    let placed = [0, 1].map(|t: usize| {
        let write = plain(&mut sketch, t, WRITE, locations[t]);
        before.map(|item| put_item(&mut sketch, t, item));
        let own = plain(&mut sketch, t, READ, locations[t]);
        behind.map(|item| put_item(&mut sketch, t, item));
        [write, own, plain(&mut sketch, t, READ, locations[1 - t])]
    });
    for t in [0, 1] {
        in_turn(&mut sketch, locations[t], &[placed[1 - t][2], placed[t][0], placed[t][1]]);
    }
    let all = sketch.events.len() + sketch.locations as usize;
    let in_ring = Thread::of(WRITE, before.or(behind), READ).in_ring();
    let shown = in_ring.map_or((0, all), |events| (5, 2 * events));
    let name = |item: Option<Item>| item.map_or("nothing".to_string(), item_name);
    let name = format!("tso, forwarding: write, {}, own read, {}, read", name(before), name(behind));
    Known { name, file: sketch.file(), shown, order: None }
}

const ITEMS: [Item; 11] = [
    Access((READ, Plain)),
    Access((READ, Ordered)),
    Access((READ, Failed)),
    Access((WRITE, Plain)),
    Access((WRITE, Ordered)),
    Access((READ, Pair)),
    Access((READ, Strong)),
    Fence(1),
    Fence(2),
    Fence(3),
    Fence(4),
];

/// By items, for the first of two in a thread a row and for the second a column: `+` where po from the one to the other is a step.
/// The columns are three reads, two writes, two pairs, fences 1 to 3, fence 4.
const STEPS: [&str; 11] = [
    "+++ ++ ++ ... +",
    "+++ ++ ++ ... +",
    "+++ ++ ++ ... +",
    "... ++ ++ ... +",
    "... ++ ++ ... +",
    "+++ ++ ++ ... +",
    "+++ ++ ++ ... +",
    "... .. .. ... .",
    "... .. .. ... .",
    "... .. .. ... .",
    "+++ ++ ++ ... +",
];

/// Two items of a thread, the second with the smaller numbers. It comes first where no step leads to it: none from the first item, and
/// none from the initial writes of two locations, which come before writes, pairs and SC fences.
fn orders() -> Vec<Known> {
    let mut all = Vec::new();
    for (one, steps) in ITEMS.into_iter().zip(STEPS) {
        let steps = steps.chars().filter(|step| *step != ' ');
        for (two, step) in ITEMS.into_iter().zip(steps) {
            all.push(order_of(one, two, step == '+'));
        }
    }
    all
}

fn order_of(one: Item, two: Item, step: bool) -> Known {
    let mut sketch = Sketch::new(1);
    let second = put_item(&mut sketch, 0, two);
    let first = put_item(&mut sketch, 0, one);
    sketch.threads[0] = [first.as_slice(), &second].concat();
    sketch.locations = 2;
    let waits = |item: Item| matches!(item, Fence(4) | Access((WRITE, _) | (_, Pair | Strong)));
    let initial = vec![56, 57];
    let order = match (step, waits(one), waits(two)) {
        (true, true, _) => [initial, first, second],
        (true, false, true) => [first, initial, second],
        (true, false, false) => [first, second, initial],
        (false, true, true) => [initial, second, first],
        (false, true, false) => [second, initial, first],
        (false, false, true) => [first, initial, second],
        (false, false, false) => [second, first, initial],
    }
    .concat();
    let name = format!("tso, order: {}, then {} with the smaller number", item_name(one), item_name(two));
    Known { name, file: sketch.file(), shown: (0, order.len()), order: Some(order) }
}
