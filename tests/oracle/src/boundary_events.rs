//! Boundary files for the event records (cause 5) and the thread chains (cause 6).

use crate::handmade::*;

pub fn add(cases: &mut Cases) {
    labels(cases);
    places(cases);
    two_events(cases);
    chains(cases);
}

/// A file of one event, alone in thread 1, without links.
fn single(kind: u8, locations: u8, class: u8, mode: u8, flag: u8, location: u8, value: [u8; 2]) -> Vec<u8> {
    let event = [0, class, mode, flag, location, value[0], value[1]];
    file(kind, locations, [1, 0, 0, 0], &[event], &[])
}

/// The table of classes, modes and flags in 01, with 02's isb: for each kind and class the legal modes and flags.
const TABLE: [(u8, u8, &[u8], &[u8]); 6] = [
    (1, 1, &[0, 1], &[0, 1]),
    (1, 2, &[0, 2], &[0, 1]),
    (1, 3, &[1, 2, 3, 4], &[0]),
    (2, 1, &[0, 1], &[0, 1]),
    (2, 2, &[0, 2], &[0]),
    (2, 3, &[5, 6, 7], &[0]),
];

/// Every class, and for each class every mode with flag 0 and every flag with a legal mode.
fn labels(cases: &mut Cases) {
    for kind in [1, 2] {
        for class in (0..=0).chain(4..=255) {
            for mode in [0, 1, 2, 5] {
                let name = format!("kind {kind}, class {class}, mode {mode}");
                cases.add(name, single(kind, 1, class, mode, 0, 0, [0, 0]), 5);
            }
        }
    }
    for (kind, class, modes, flags) in TABLE {
        for mode in 0..=255 {
            let expected = if modes.contains(&mode) { 0 } else { 5 };
            let name = format!("kind {kind}, class {class}, mode {mode}, flag 0");
            cases.add(name, single(kind, 1, class, mode, 0, 0, [0, 0]), expected);
        }
        for &mode in modes {
            for flag in 1..=255 {
                // A source write of flag 1 is strong, and without rmw here.
                let strong = kind == 1 && class == 2 && flag == 1;
                let expected = if strong { 10 } else if flags.contains(&flag) { 0 } else { 5 };
                let name = format!("kind {kind}, class {class}, mode {mode}, flag {flag}");
                cases.add(name, single(kind, 1, class, mode, flag, 0, [0, 0]), expected);
            }
        }
    }
}

/// Locations and values.
fn places(cases: &mut Cases) {
    for kind in [1, 2] {
        for (class, name) in [(1, "read"), (2, "write")] {
            for (locations, location, expected) in [
                (0, 0, 5),
                (0, 1, 5),
                (1, 0, 0),
                (1, 1, 5),
                (1, 255, 5),
                (2, 1, 0),
                (2, 2, 5),
                (7, 7, 5),
                (8, 7, 0),
                (8, 8, 5),
                (8, 56, 5),
                (8, 255, 5),
            ] {
                let label = format!("kind {kind}, {name} of location {location} with L {locations}");
                cases.add(label, single(kind, locations, class, 0, 0, location, [0, 0]), expected);
            }
            for value in [[1, 0], [0, 1], [255, 0], [0, 255], [255, 255]] {
                let label = format!("kind {kind}, {name} of value {}", u16::from_le_bytes(value));
                cases.add(label, single(kind, 1, class, 0, 0, 0, value), 0);
            }
        }
    }
    // A fence has none; one of each kind, and isb.
    for (kind, fence) in [(1, 4), (2, 6), (2, 7)] {
        for locations in [0, 1, 8] {
            let label = |what: &str| format!("kind {kind}, L {locations}, fence of mode {fence}, {what}");
            cases.add(label("location and value 0"), single(kind, locations, 3, fence, 0, 0, [0, 0]), 0);
            cases.add(label("location 1"), single(kind, locations, 3, fence, 0, 1, [0, 0]), 5);
            cases.add(label("location 255"), single(kind, locations, 3, fence, 0, 255, [0, 0]), 5);
            cases.add(label("value 1"), single(kind, locations, 3, fence, 0, 0, [1, 0]), 5);
            cases.add(label("value 255"), single(kind, locations, 3, fence, 0, 0, [255, 0]), 5);
            cases.add(label("value 256"), single(kind, locations, 3, fence, 0, 0, [0, 1]), 5);
            cases.add(label("value 65535"), single(kind, locations, 3, fence, 0, 0, [255, 255]), 5);
        }
    }
    cases.add("a fence where L is 0, in bytes", bytes("01 01 00 00 01 00 00 00 | 00 03 04 00 00 00 00 00"), 0);
}

/// The fault in the second of two events, in another thread.
fn two_events(cases: &mut Cases) {
    for kind in [1, 2] {
        let good = file(kind, 1, [1, 2, 0, 0], &[[0, 1, 0, 0, 0, 0, 0], [0, 2, 0, 0, 0, 1, 0]], &[]);
        cases.add(format!("kind {kind}, two events"), good.clone(), 0);
        for (what, field, value) in [
            ("class 0", CLASS, 0),
            ("class 4", CLASS, 4),
            ("mode 1 of a write", MODE, 1),
            ("mode 3 of a write", MODE, 3),
            ("flag 2", FLAG, 2),
            ("location 1", LOCATION, 1),
        ] {
            let changed = set(&good, &[(in_event(2, field), value)]);
            cases.add(format!("kind {kind}, second event: {what}"), changed, 5);
        }
        let fence = if kind == 1 { 1 } else { 5 };
        let fenced = set(&good, &[(in_event(2, CLASS), 3), (in_event(2, MODE), fence), (in_event(2, VALUE_LOW), 0)]);
        cases.add(format!("kind {kind}, second event: a fence"), fenced.clone(), 0);
        let valued = set(&fenced, &[(in_event(2, VALUE_HIGH), 1)]);
        cases.add(format!("kind {kind}, second event: a fence of value 256"), valued, 5);
        let barrier = set(&fenced, &[(in_event(2, MODE), 7)]);
        cases.add(format!("kind {kind}, second event: isb"), barrier.clone(), if kind == 1 { 5 } else { 0 });
        let beyond = set(&barrier, &[(in_event(2, MODE), 8)]);
        cases.add(format!("kind {kind}, second event: a fence of the mode after isb"), beyond, 5);
    }
    cases.add("a chip fence mode in a source file", single(1, 0, 3, 6, 0, 0, [0, 0]), 5);
    cases.add("isb in a source file", single(1, 0, 3, 7, 0, 0, [0, 0]), 5);
    cases.add("a source fence mode in a chip file", single(2, 0, 3, 4, 0, 0, [0, 0]), 5);
}

/// A file of relaxed writes of location 0 with the given heads and next fields.
pub fn writes(kind: u8, heads: [u8; 4], nexts: &[u8]) -> Vec<u8> {
    let events: Vec<EventBytes> = nexts.iter().map(|&next| [next, 2, 0, 0, 0, 1, 0]).collect();
    file(kind, 1, heads, &events, &[])
}

/// Thread chains: loads when every event stands once on the four chains.
fn chains(cases: &mut Cases) {
    for kind in [1, 2] {
        let table: [(&str, [u8; 4], &[u8], u8); 45] = [
            ("one event in thread 1", [1, 0, 0, 0], &[0], 0),
            ("one event in thread 2", [0, 1, 0, 0], &[0], 0),
            ("one event in thread 3", [0, 0, 1, 0], &[0], 0),
            ("one event in thread 4", [0, 0, 0, 1], &[0], 0),
            ("two in order", [1, 0, 0, 0], &[2, 0], 0),
            ("two in reverse", [2, 0, 0, 0], &[0, 1], 0),
            ("a chain that jumps about", [3, 0, 0, 0], &[4, 0, 1, 2], 0),
            ("four threads of one", [4, 3, 2, 1], &[0, 0, 0, 0], 0),
            ("two threads that take turns", [1, 2, 0, 0], &[3, 4, 0, 0], 0),
            ("an empty thread between", [1, 0, 2, 0], &[0, 0], 0),
            ("N 0, head 1 set", [1, 0, 0, 0], &[], 6),
            ("N 0, head 2 set", [0, 1, 0, 0], &[], 6),
            ("N 0, head 3 set", [0, 0, 255, 0], &[], 6),
            ("N 0, head 4 set", [0, 0, 0, 56], &[], 6),
            ("head 1 one over N", [2, 0, 0, 0], &[0], 6),
            ("head 2 one over N", [1, 2, 0, 0], &[0], 6),
            ("head 3 one over N", [1, 0, 2, 0], &[0], 6),
            ("head 4 one over N", [1, 0, 0, 2], &[0], 6),
            ("head 4 is 255", [1, 0, 0, 255], &[0], 6),
            ("head 2 is the initial write", [1, 56, 0, 0], &[0], 6),
            ("next one over N", [1, 0, 0, 0], &[2], 6),
            ("next one over N at the end of three", [1, 0, 0, 0], &[2, 3, 4], 6),
            ("next is 255", [1, 0, 0, 0], &[255], 6),
            ("next is the initial write", [1, 0, 0, 0], &[56], 6),
            ("next is 64", [1, 0, 0, 0], &[64], 6),
            ("an event leads to itself", [1, 0, 0, 0], &[1], 6),
            ("the last event leads to itself", [1, 0, 0, 0], &[2, 2], 6),
            ("a loop of two", [1, 0, 0, 0], &[2, 1], 6),
            ("a loop of three", [1, 0, 0, 0], &[2, 3, 1], 6),
            ("a loop behind the first event", [1, 0, 0, 0], &[2, 3, 2], 6),
            ("a loop on no chain", [1, 0, 0, 0], &[0, 3, 2], 6),
            ("a loop of all on no chain", [0, 0, 0, 0], &[2, 1], 6),
            ("an event on no chain that leads to itself", [1, 0, 0, 0], &[0, 2], 6),
            ("two heads on one event", [1, 1, 0, 0], &[0], 6),
            ("first and last head on one event", [1, 0, 0, 1], &[0], 6),
            ("a head inside another thread", [1, 2, 0, 0], &[2, 0], 6),
            ("a head at the end of another thread", [1, 0, 0, 3], &[2, 3, 0], 6),
            ("two threads end in one event", [1, 2, 0, 0], &[3, 3, 0], 6),
            ("two threads cross", [1, 2, 0, 0], &[3, 3, 4, 0], 6),
            ("a thread leads into the start of another", [1, 2, 0, 0], &[2, 0], 6),
            ("no head", [0, 0, 0, 0], &[0], 6),
            ("the first event on no chain", [2, 0, 0, 0], &[0, 0], 6),
            ("the last event on no chain", [1, 0, 0, 0], &[0, 0], 6),
            ("an event between on no chain", [1, 0, 0, 0], &[3, 0, 0], 6),
            ("an event on no chain leads into one", [1, 0, 0, 0], &[0, 1], 6),
        ];
        for (name, heads, nexts, expected) in table {
            cases.add(format!("kind {kind}: {name}"), writes(kind, heads, nexts), expected);
        }
        // At the limit of N the largest number is legal, the next one is not.
        let most: u8 = if kind == 1 { 32 } else { 48 };
        let threads = numbered(packed(kind, most));
        let (heads, full) = chained(&threads);
        cases.add(format!("kind {kind}: all {most} in full threads"), writes(kind, heads, &full), 0);
        let (last_heads, backward) = chained(&threads.map(|thread| thread.into_iter().rev().collect()));
        cases.add(format!("kind {kind}: all {most} in full threads, backward"), writes(kind, last_heads, &backward), 0);
        for (next, name) in [
            (most + 1, "to the number after it"),
            (1, "back to 1"),
            (heads[2], "back to the start of its thread"),
        ] {
            let mut changed = full.clone();
            changed[most as usize - 1] = next;
            cases.add(format!("kind {kind}: {most} leads {name}"), writes(kind, heads, &changed), 6);
        }
        let mut skipping = full;
        skipping[0] = 3;
        cases.add(format!("kind {kind}: 2 of {most} skipped"), writes(kind, heads, &skipping), 6);
    }
}
