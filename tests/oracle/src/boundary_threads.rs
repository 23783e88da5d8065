//! Boundary files for the length of a thread (cause 13): at most 12 events in a source file, 18 in a chip file.

use crate::boundary_events::writes;
use crate::handmade::*;

pub fn add(cases: &mut Cases) {
    lengths(cases);
    between_the_limits(cases);
    numberings(cases);
    classes(cases);
    strong_pairs(cases);
    broken_chains(cases);
}

/// A file of relaxed writes in threads that list them.
fn in_threads(kind: u8, threads: &[Vec<u8>; 4]) -> Vec<u8> {
    let (heads, nexts) = chained(threads);
    writes(kind, heads, &nexts)
}

/// Lengths of four threads, up to the limit of N, and what is expected; each is tried in each of the threads.
const LENGTHS: [(u8, [u8; 4], u8); 40] = [
    (1, [11, 0, 0, 0], 0),
    (1, [12, 0, 0, 0], 0),
    (1, [13, 0, 0, 0], 13),
    (1, [14, 0, 0, 0], 13),
    (1, [18, 0, 0, 0], 13),
    (1, [19, 0, 0, 0], 13),
    (1, [31, 0, 0, 0], 13),
    (1, [32, 0, 0, 0], 13),
    (1, [12, 1, 0, 0], 0),
    (1, [13, 1, 0, 0], 13),
    (1, [12, 7, 7, 6], 0),
    (1, [13, 7, 6, 6], 13),
    (1, [12, 12, 8, 0], 0),
    (1, [12, 12, 0, 8], 0),
    (1, [12, 12, 4, 4], 0),
    (1, [12, 13, 7, 0], 13),
    (1, [13, 12, 7, 0], 13),
    (1, [13, 13, 6, 0], 13),
    (1, [16, 16, 0, 0], 13),
    (1, [31, 1, 0, 0], 13),
    (2, [12, 0, 0, 0], 0),
    (2, [13, 0, 0, 0], 0),
    (2, [17, 0, 0, 0], 0),
    (2, [18, 0, 0, 0], 0),
    (2, [19, 0, 0, 0], 13),
    (2, [20, 0, 0, 0], 13),
    (2, [47, 0, 0, 0], 13),
    (2, [48, 0, 0, 0], 13),
    (2, [18, 1, 0, 0], 0),
    (2, [19, 1, 0, 0], 13),
    (2, [18, 10, 10, 10], 0),
    (2, [19, 10, 10, 9], 13),
    (2, [18, 18, 12, 0], 0),
    (2, [18, 18, 0, 12], 0),
    (2, [18, 18, 6, 6], 0),
    (2, [18, 19, 11, 0], 13),
    (2, [19, 18, 11, 0], 13),
    (2, [19, 19, 10, 0], 13),
    (2, [24, 24, 0, 0], 13),
    (2, [47, 1, 0, 0], 13),
];

fn lengths(cases: &mut Cases) {
    for (kind, lengths, expected) in LENGTHS {
        for turn in 0..4 {
            let mut turned = lengths;
            turned.rotate_right(turn);
            let [a, b, c, d] = turned;
            let name = format!("kind {kind}, threads of {a}, {b}, {c} and {d}");
            cases.add(name, in_threads(kind, &numbered(turned)), expected);
        }
    }
    cases.add("kind 1, four threads of 8", in_threads(1, &numbered([8; 4])), 0);
    cases.add("kind 2, four threads of 12", in_threads(2, &numbered([12; 4])), 0);
}

/// One thread of events that both kinds have, with a ctrl link from the first, a read, to the last.
fn either_kind(kind: u8, length: u8) -> Vec<u8> {
    let labels = [[1, 1, 0], [2, 0, 0], [1, 0, 1], [2, 2, 0]];
    let event = |e: u8| {
        let [class, mode, flag] = labels[(e - 1) as usize % 4];
        [if e == length { 0 } else { e + 1 }, class, mode, flag, 0, 0, 0]
    };
    let events: Vec<EventBytes> = (1..=length).map(event).collect();
    file(kind, 1, [1, 0, 0, 0], &events, &[(6, 1, length)])
}

/// The same events in both kinds: from 13 to 18 they are too many for a source thread and not for a chip thread.
fn between_the_limits(cases: &mut Cases) {
    for (length, source, chip) in [
        (12, 0, 0),
        (13, 13, 0),
        (14, 13, 0),
        (15, 13, 0),
        (16, 13, 0),
        (17, 13, 0),
        (18, 13, 0),
        (19, 13, 13),
    ] {
        for (kind, expected) in [(1, source), (2, chip)] {
            cases.add(format!("kind {kind}, {length} events of either kind"), either_kind(kind, length), expected);
        }
    }
}

/// Threads whose events are not numbered as they stand.
fn numberings(cases: &mut Cases) {
    for kind in [1, 2] {
        let limit = thread_limit(kind);
        for (length, expected) in [(limit, 0), (limit + 1, 13)] {
            let forward: Vec<u8> = (1..=length).collect();
            let backward = forward.iter().rev().copied().collect();
            // Behind the odd numbers come the even ones.
            let (mut parted, even): (Vec<u8>, Vec<u8>) = forward.iter().partition(|&e| e % 2 == 1);
            parted.extend(even);
            let mut shifted = forward.clone();
            shifted.rotate_left(5);
            let orders = [("backward", backward), ("odd before even", parted), ("from 6 on and round", shifted)];
            for (name, thread) in orders {
                let file = in_threads(kind, &[vec![], vec![], thread, vec![]]);
                cases.add(format!("kind {kind}, a thread of {length}, {name}"), file, expected);
            }
            // Two threads take turns; the longer has one event more at its end.
            let all = limit + length;
            let (odd, even): (Vec<u8>, Vec<u8>) = (1..=all).partition(|&e| e % 2 == 1);
            let name = format!("kind {kind}, threads of {} and {} that take turns", even.len(), odd.len());
            cases.add(name, in_threads(kind, &[even, odd, vec![], vec![]]), expected);
        }
    }
}

/// Every class and mode counts, fences too; initial writes do not.
fn classes(cases: &mut Cases) {
    let sorts: [(u8, u8, u8); 15] = [
        (1, 1, 0),
        (1, 1, 1),
        (1, 2, 0),
        (1, 2, 2),
        (1, 3, 1),
        (1, 3, 2),
        (1, 3, 3),
        (1, 3, 4),
        (2, 1, 0),
        (2, 1, 1),
        (2, 2, 0),
        (2, 2, 2),
        (2, 3, 5),
        (2, 3, 6),
        (2, 3, 7),
    ];
    for (kind, class, mode) in sorts {
        let limit = thread_limit(kind);
        for (length, expected) in [(limit, 0), (limit + 1, 13)] {
            let (heads, nexts) = chained(&numbered([0, length, 0, 0]));
            let events: Vec<EventBytes> = nexts.iter().map(|&next| [next, class, mode, 0, 0, 0, 0]).collect();
            let name = format!("kind {kind}, a thread of {length} of class {class} and mode {mode}");
            cases.add(name.clone(), file(kind, 8, heads, &events, &[]), expected);
            // One fence at either end of the thread.
            let fence = if kind == 1 { 1 } else { 5 };
            for place in [0, length as usize - 1] {
                let mut fenced = events.clone();
                fenced[place] = [nexts[place], 3, fence, 0, 0, 0, 0];
                cases.add(format!("{name}, event {} a fence", place + 1), file(kind, 8, heads, &fenced, &[]), expected);
            }
        }
    }
}

/// A source file of strong pairs, so many in each thread.
/// Pair k is the exclusive read 2k - 1 and the write 2k, joined by rmw.
pub fn pairs(each: [u8; 4]) -> Vec<u8> {
    let (heads, nexts) = chained(&numbered(each.map(|pairs| 2 * pairs)));
    let events: Vec<EventBytes> = (1..).zip(nexts).map(|(e, next)| [next, 2 - e % 2, 0, 1, 0, 1 - e % 2, 0]).collect();
    let links: Vec<LinkEnds> = (1..=events.len() as u8 / 2).map(|k| (3, 2 * k - 1, 2 * k)).collect();
    file(1, 1, heads, &events, &links)
}

/// Its translation: behind write 2k stands a fence, numbered on from the writes; the writes are not strong,
/// and ctrl stands beside rmw. At the end of thread 1 stand `more` fences.
pub fn translated_pairs(each: [u8; 4], more: u8) -> Vec<u8> {
    let total: u8 = each.iter().sum();
    let pair = |k: u8| [2 * k - 1, 2 * k, 2 * total + k];
    let mut threads: [Vec<u8>; 4] = numbered(each).map(|pairs| pairs.into_iter().flat_map(pair).collect());
    threads[0].extend(3 * total + 1..=3 * total + more);
    let (heads, nexts) = chained(&threads);
    let event = |(e, next): (u8, u8)| match e {
        _ if e > 2 * total => [next, 3, 5, 0, 0, 0, 0],
        _ if e % 2 == 1 => [next, 1, 0, 1, 0, 0, 0],
        _ => [next, 2, 0, 0, 0, 1, 0],
    };
    let events: Vec<EventBytes> = (1..).zip(nexts).map(event).collect();
    let links: Vec<LinkEnds> = (1..=total).flat_map(|k| [(3, 2 * k - 1, 2 * k), (6, 2 * k - 1, 2 * k)]).collect();
    file(2, 1, heads, &events, &links)
}

/// A thread of 12 with six strong pairs becomes one of 18.
fn strong_pairs(cases: &mut Cases) {
    for (each, expected) in [
        ([6, 0, 0, 0], 0),
        ([0, 0, 6, 0], 0),
        ([6, 6, 4, 0], 0),
        ([7, 0, 0, 0], 13),
        ([6, 2, 0, 7], 13),
        ([8, 8, 0, 0], 13),
        ([16, 0, 0, 0], 13),
    ] {
        cases.add(format!("strong pairs in threads {each:?}"), pairs(each), expected);
        cases.add(format!("strong pairs in threads {each:?}, translated"), translated_pairs(each, 0), expected);
    }
    for (each, more) in [([6, 0, 0, 0], 1), ([6, 6, 3, 0], 1), ([6, 0, 0, 0], 30)] {
        let name = format!("strong pairs in threads {each:?}, translated, fences behind thread 1: {more}");
        cases.add(name, translated_pairs(each, more), 13);
    }
}

/// A thread too long, or one that seems so, beside a broken chain: 6 comes before 13.
fn broken_chains(cases: &mut Cases) {
    for kind in [1, 2] {
        let limit = thread_limit(kind);
        let over = limit + 1;
        let (heads, nexts) = chained(&numbered([over, 1, 0, 0]));
        let last = over as usize - 1;
        let table: [(&str, &[(usize, u8)], &[(usize, u8)]); 9] = [
            ("an event on no chain", &[(1, 0)], &[]),
            ("a head over N", &[(2, over + 2)], &[]),
            ("a second head on its first event", &[(2, 1)], &[]),
            ("a second head on its last event", &[(3, over)], &[]),
            ("its last event leads over N", &[], &[(last, over + 2)]),
            ("its last event leads to itself", &[], &[(last, over)]),
            ("its last event leads back to the first", &[], &[(last, 1)]),
            ("its last event leads into another thread", &[], &[(last, over + 1)]),
            ("the other thread leads into it", &[], &[(over as usize, 5)]),
        ];
        for (name, head_edits, next_edits) in table {
            let (mut heads, mut nexts) = (heads, nexts.clone());
            head_edits.iter().for_each(|&(place, value)| heads[place] = value);
            next_edits.iter().for_each(|&(place, value)| nexts[place] = value);
            cases.add(format!("kind {kind}, a thread of {over}: {name}"), writes(kind, heads, &nexts), 6);
        }
        // Within the limit, but a walk that went on would pass it.
        let (heads, mut nexts) = chained(&numbered([limit, 1, 0, 0]));
        nexts[limit as usize - 1] = 2;
        cases.add(format!("kind {kind}, a thread of {limit} that leads back to 2"), writes(kind, heads, &nexts), 6);
        let (heads, mut nexts) = chained(&numbered([limit, limit, 0, 0]));
        nexts[limit as usize - 1] = limit + 1;
        cases.add(format!("kind {kind}, a thread of {limit} that leads into another"), writes(kind, heads, &nexts), 6);
    }
}
