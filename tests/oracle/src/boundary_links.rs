//! Boundary files for the link chains (cause 7) and the conditions of single links (cause 8).

use crate::handmade::*;

pub fn add(cases: &mut Cases) {
    chains(cases);
    conditions(cases);
    changed_events(cases);
    barrier_links(cases);
}

/// 1 R x; 2 R x; 3 fence in one thread. All links are ctrl from 1; their targets follow from the chains.
fn ctrl_links(kind: u8, firsts: [u8; 3], nexts: &[u8]) -> Vec<u8> {
    let fence = if kind == 1 { 4 } else { 6 };
    let mut all = vec![kind, 3, 1, nexts.len() as u8, 1, 0, 0, 0];
    all.extend([2, 1, 0, 0, 0, 0, 0, firsts[0]]);
    all.extend([3, 1, 0, 0, 0, 0, 0, firsts[1]]);
    all.extend([0, 3, fence, 0, 0, 0, 0, firsts[2]]);
    for &next in nexts {
        all.extend([next, 6, 1, 0]);
    }
    all
}

/// Link chains: every link stands once on the chains of the events.
fn chains(cases: &mut Cases) {
    for kind in [1, 2] {
        let table: [(&str, [u8; 3], &[u8], u8); 38] = [
            ("no link", [0, 0, 0], &[], 0),
            ("no link, first link 1", [0, 1, 0], &[], 7),
            ("no link, first link 255", [0, 0, 255], &[], 7),
            ("one link into a read", [0, 1, 0], &[0], 0),
            ("one link into a fence", [0, 0, 1], &[0], 0),
            ("one link on no chain", [0, 0, 0], &[0], 7),
            ("one link on two chains", [0, 1, 1], &[0], 7),
            ("first link one over M", [0, 2, 0], &[0], 7),
            ("a chain and another first link over M", [0, 1, 2], &[0], 7),
            ("first link of the first event over M", [2, 1, 0], &[0], 7),
            ("a link leads to itself", [0, 1, 0], &[1], 7),
            ("a link leads one over M", [0, 1, 0], &[2], 7),
            ("a link leads to 255", [0, 1, 0], &[255], 7),
            ("two links in order", [0, 1, 0], &[2, 0], 0),
            ("two links in reverse", [0, 2, 0], &[0, 1], 0),
            ("two links into two events", [0, 1, 2], &[0, 0], 0),
            ("two links into two events, crosswise", [0, 2, 1], &[0, 0], 0),
            ("the second link on no chain", [0, 1, 0], &[0, 0], 7),
            ("the first link on no chain", [0, 2, 0], &[0, 0], 7),
            ("a loop of two links", [0, 1, 0], &[2, 1], 7),
            ("a loop of two links on no chain", [0, 0, 0], &[2, 1], 7),
            ("the last link leads to itself", [0, 1, 0], &[2, 2], 7),
            ("a link on no chain leads to itself", [0, 1, 0], &[0, 2], 7),
            ("a chain leads into the start of a later one", [0, 1, 2], &[2, 0], 7),
            ("a chain leads into the start of an earlier one", [0, 1, 2], &[0, 1], 7),
            ("a link on no chain leads into one", [0, 1, 0], &[0, 1], 7),
            ("three links in reverse", [0, 3, 0], &[0, 1, 2], 0),
            ("three links that jump about", [0, 2, 0], &[0, 3, 1], 0),
            ("three links, two chains", [0, 1, 3], &[2, 0, 0], 0),
            ("three links, two chains that take turns", [0, 1, 2], &[3, 0, 0], 0),
            ("two chains end in one link", [0, 1, 2], &[3, 3, 0], 7),
            ("a loop behind the first link", [0, 1, 0], &[2, 3, 2], 7),
            ("a link between on no chain", [0, 1, 0], &[3, 0, 0], 7),
            ("a loop beside a chain", [0, 1, 0], &[0, 3, 2], 7),
            ("the third link leads one over M", [0, 1, 0], &[2, 3, 4], 7),
            ("the third link leads back to the first", [0, 1, 0], &[2, 3, 1], 7),
            ("a chain of the first event", [1, 2, 0], &[0, 0], 8),
            ("one link on three chains", [1, 1, 1], &[0], 7),
        ];
        for (name, firsts, nexts, expected) in table {
            cases.add(format!("kind {kind}, link chains: {name}"), ctrl_links(kind, firsts, nexts), expected);
        }
        let most: u8 = if kind == 1 { 200 } else { 255 };
        let full: Vec<u8> = (1..=most).map(|l| if l == most { 0 } else { l + 1 }).collect();
        let backward: Vec<u8> = (1..=most).map(|l| l - 1).collect();
        let mut round = full.clone();
        round[most as usize - 1] = 1;
        let mut missed = full.clone();
        missed[most as usize - 2] = 0;
        let mut over: Vec<u8> = full[..most as usize - 1].to_vec();
        over[most as usize - 2] = most;
        cases.add(format!("kind {kind}: {most} links in one chain"), ctrl_links(kind, [0, 1, 0], &full), 0);
        cases.add(format!("kind {kind}: {most} links backward"), ctrl_links(kind, [0, 0, most], &backward), 0);
        cases.add(format!("kind {kind}: link {most} leads back to 1"), ctrl_links(kind, [0, 1, 0], &round), 7);
        cases.add(format!("kind {kind}: link {most} missed"), ctrl_links(kind, [0, 1, 0], &missed), 7);
        cases.add(format!("kind {kind}: M {}, an index of {most}", most - 1), ctrl_links(kind, [0, 1, 0], &over), 7);
        for m in [1, 200] {
            let mut lone = vec![kind, 0, 0, m, 0, 0, 0, 0];
            lone.extend(vec![0; 4 * m as usize]);
            cases.add(format!("kind {kind}: no event and {m} links"), lone, 7);
        }
    }
}

/// Thread 1: 1 R x 1; 2 R exclusive x 1; 3 W x 2; 4 W y 1; 5 fence; 6 W x 1.
/// Thread 2: 7 W x 1; 8 R y 1; 9 R exclusive y 0; 10 R x 257; 11 W y 256; 12 R x 0.
pub fn linked(kind: u8, links: &[LinkEnds]) -> Vec<u8> {
    let fence = if kind == 1 { 4 } else { 6 };
    let events = [
        [2, 1, 0, 0, 0, 1, 0],
        [3, 1, 0, 1, 0, 1, 0],
        [4, 2, 0, 0, 0, 2, 0],
        [5, 2, 0, 0, 1, 1, 0],
        [6, 3, fence, 0, 0, 0, 0],
        [0, 2, 0, 0, 0, 1, 0],
        [8, 2, 0, 0, 0, 1, 0],
        [9, 1, 0, 0, 1, 1, 0],
        [10, 1, 0, 1, 1, 0, 0],
        [11, 1, 0, 0, 0, 1, 1],
        [12, 2, 0, 0, 1, 0, 1],
        [0, 1, 0, 0, 0, 0, 0],
    ];
    file(kind, 2, [1, 7, 0, 0], &events, links)
}

const NAMES: [&str; 8] = ["type 0", "rf", "co", "rmw", "data", "addr", "ctrl", "casdep"];

/// One link each: those that hold, and those that break one condition.
fn conditions(cases: &mut Cases) {
    // rf: from another thread, from a po-later write, of y, from the initial writes.
    // co: both ways between threads, along po, against po, from the initial writes.
    const HOLD: [LinkEnds; 36] = [
        (1, 7, 1), (1, 6, 1), (1, 7, 2), (1, 4, 8), (1, 57, 9), (1, 56, 12),
        (2, 7, 3), (2, 3, 7), (2, 3, 6), (2, 6, 3), (2, 4, 11), (2, 56, 3), (2, 56, 7), (2, 57, 4),
        (3, 2, 3),
        (4, 1, 3), (4, 1, 4), (4, 1, 6), (4, 2, 3), (4, 8, 11), (4, 9, 11),
        (5, 1, 2), (5, 1, 3), (5, 2, 4), (5, 8, 9), (5, 9, 12), (5, 10, 11),
        (6, 1, 2), (6, 1, 3), (6, 1, 5), (6, 2, 3), (6, 2, 6), (6, 9, 10),
        (6, 8, 12), (6, 10, 11), (6, 1, 6),
    ];
    const BREAK: [(&str, LinkEnds); 84] = [
        ("another value", (1, 3, 1)),
        ("another high byte of the value, 1 and 257", (1, 7, 10)),
        ("another high byte of the value, 256 and 0", (1, 11, 9)),
        ("the initial write and value 1", (1, 56, 1)),
        ("the initial write and value 257", (1, 56, 10)),
        ("the other location and value 1", (1, 4, 1)),
        ("the initial write of the other location", (1, 56, 9)),
        ("the initial write of y into x", (1, 57, 12)),
        ("a location that is none", (1, 58, 9)),
        ("from a read", (1, 2, 1)),
        ("from a read to itself", (1, 1, 1)),
        ("from a fence", (1, 5, 12)),
        ("into a write", (1, 7, 6)),
        ("from a write to itself", (1, 7, 7)),
        ("from the initial write into a fence", (1, 56, 5)),
        ("into a fence", (1, 7, 5)),
        ("from a write to itself", (2, 3, 3)),
        ("another location", (2, 4, 3)),
        ("another location, across", (2, 7, 11)),
        ("the initial write of x into y", (2, 56, 4)),
        ("the initial write of y into x", (2, 57, 3)),
        ("a location that is none", (2, 58, 4)),
        ("from a read", (2, 1, 3)),
        ("from a fence", (2, 5, 3)),
        ("into a read", (2, 7, 1)),
        ("into a read of value 0 from the initial write", (2, 56, 12)),
        ("into a fence", (2, 7, 5)),
        ("from the initial write into a fence", (2, 56, 5)),
        ("not the write directly after", (3, 2, 6)),
        ("the write after that, other location", (3, 2, 4)),
        ("not exclusive and not directly after", (3, 1, 3)),
        ("a write of another thread", (3, 2, 7)),
        ("from the initial write", (3, 56, 3)),
        ("from the initial write into the first event", (3, 56, 7)),
        ("to itself", (3, 2, 2)),
        ("from a fence", (3, 5, 6)),
        ("from a write", (3, 3, 4)),
        ("into a read", (3, 9, 10)),
        ("into a write not directly after", (3, 9, 11)),
        ("into a read", (4, 1, 2)),
        ("into a fence", (4, 1, 5)),
        ("from a write", (4, 3, 4)),
        ("from a fence", (4, 5, 6)),
        ("into another thread", (4, 1, 7)),
        ("into another thread, larger to smaller", (4, 8, 3)),
        ("into a po-earlier write", (4, 8, 7)),
        ("into the write directly before", (4, 12, 11)),
        ("from the initial write", (4, 56, 3)),
        ("to itself", (4, 1, 1)),
        ("into a fence", (5, 1, 5)),
        ("from a write", (5, 3, 4)),
        ("from a fence", (5, 5, 6)),
        ("into a po-earlier read", (5, 2, 1)),
        ("into a po-earlier write", (5, 12, 11)),
        ("into another thread", (5, 1, 8)),
        ("into another thread, larger to smaller", (5, 12, 6)),
        ("to itself", (5, 1, 1)),
        ("from the initial write", (5, 56, 1)),
        ("from the initial write of y", (5, 57, 4)),
        ("from a write", (6, 3, 4)),
        ("from a fence", (6, 5, 6)),
        ("into a po-earlier read", (6, 2, 1)),
        ("into a po-earlier write", (6, 12, 7)),
        ("to itself", (6, 1, 1)),
        ("into another thread", (6, 1, 7)),
        ("into another thread, larger to smaller", (6, 8, 1)),
        ("into a fence of another thread", (6, 8, 5)),
        ("from the initial write", (6, 56, 1)),
        ("from the initial write into a fence", (6, 57, 5)),
        ("into a write", (7, 1, 3)),
        ("into a fence", (7, 1, 5)),
        ("into a read not exclusive", (7, 8, 10)),
        ("to itself", (7, 2, 2)),
        ("into a po-earlier exclusive read", (7, 10, 9)),
        ("into another thread", (7, 1, 9)),
        ("into another thread, larger to smaller", (7, 8, 2)),
        ("from a write", (7, 7, 9)),
        ("from the initial write", (7, 57, 9)),
        ("rf's ends", (0, 7, 1)),
        ("ctrl's ends", (0, 1, 2)),
        ("rf's ends", (8, 7, 1)),
        ("casdep's ends", (8, 1, 2)),
        ("ctrl's ends", (9, 1, 2)),
        ("ctrl's ends", (255, 1, 2)),
    ];
    let name_of = |t: u8| NAMES.get(t as usize).map_or(format!("type {t}"), |n| n.to_string());
    for kind in [1, 2] {
        let casdep = if kind == 1 { 0 } else { 8 };
        let mut ends: Vec<(LinkEnds, u8)> = HOLD.iter().map(|&l| (l, 0)).collect();
        ends.extend([((7, 1, 2), casdep), ((7, 8, 9), casdep)]);
        for ((t, s, e), expected) in ends {
            let label = format!("kind {kind}, {} {s} to {e}", name_of(t));
            let good = linked(kind, &[(t, s, e)]);
            cases.add(label.clone(), good.clone(), expected);
            for last in [1, 255] {
                let changed = set(&good, &[(in_link(12, 1, LINK_LAST), last)]);
                cases.add(format!("{label}, last byte {last}"), changed, 8);
            }
            // N is 12 and L is 2, so 0, 13 to 55 and 58 upward are no events.
            for source in [0, 13, 48, 49, 54, 55, 58, 63, 64, 120, 255] {
                let changed = set(&good, &[(in_link(12, 1, LINK_SOURCE), source)]);
                cases.add(format!("{label}, source {source} instead"), changed, 8);
            }
            for other in [0, 8, 16, 128, 255] {
                let changed = set(&good, &[(in_link(12, 1, LINK_TYPE), other)]);
                cases.add(format!("{label}, type {other} instead"), changed, 8);
            }
        }
        for (what, (t, s, e)) in BREAK {
            let label = format!("kind {kind}, {} {s} to {e}: {what}", name_of(t));
            cases.add(label, linked(kind, &[(t, s, e)]), 8);
        }
    }
}

/// One link and one changed event, so that a single condition breaks or holds.
fn changed_events(cases: &mut Cases) {
    let table: [(&str, LinkEnds, &[(usize, usize, u8)], u8); 16] = [
        ("rmw from a read not exclusive", (3, 2, 3), &[(2, FLAG, 0)], 8),
        ("rmw into another location", (3, 2, 3), &[(3, LOCATION, 1)], 8),
        ("rmw from another location", (3, 2, 3), &[(2, LOCATION, 1)], 8),
        ("rmw of y", (3, 2, 3), &[(2, LOCATION, 1), (3, LOCATION, 1)], 0),
        ("rmw into a release write", (3, 2, 3), &[(3, MODE, 2)], 0),
        ("rmw from an acquire read", (3, 2, 3), &[(2, MODE, 1)], 0),
        ("rmw into the read directly after", (3, 1, 2), &[(1, FLAG, 1)], 8),
        ("rmw into the fence directly after", (3, 4, 5), &[(4, CLASS, 1), (4, FLAG, 1), (4, LOCATION, 0)], 8),
        ("rmw from the write directly before", (3, 3, 4), &[(4, LOCATION, 0)], 8),
        ("rmw into the write directly before", (3, 2, 1), &[(1, CLASS, 2)], 8),
        ("rf of value 256", (1, 11, 9), &[(9, VALUE_HIGH, 1)], 0),
        ("rf from the initial write, value 256", (1, 57, 9), &[(9, VALUE_HIGH, 1)], 8),
        ("rf from the initial write, value 1", (1, 57, 9), &[(9, VALUE_LOW, 1)], 8),
        ("rf of value 257", (1, 7, 10), &[(7, VALUE_HIGH, 1)], 0),
        ("rf into a write of the read's place", (1, 7, 1), &[(1, CLASS, 2)], 8),
        ("addr into the fence's place, a read", (5, 1, 5), &[(5, CLASS, 1), (5, MODE, 0)], 0),
    ];
    for kind in [1, 2] {
        for (name, link, edits, expected) in table {
            let places = edits.iter().map(|&(e, field, value)| (in_event(e, field), value));
            let edits: Vec<(usize, u8)> = places.collect();
            cases.add(format!("kind {kind}: {name}"), set(&linked(kind, &[link]), &edits), expected);
        }
    }
    let failed = set(&linked(1, &[(7, 8, 9)]), &[(in_event(9, FLAG), 0)]);
    cases.add("casdep into a read no longer exclusive", failed, 8);
    // Initial writes: 56 to 56 + L - 1.
    for (locations, source, expected) in [(1, 56, 0), (1, 57, 8), (8, 56, 0), (8, 63, 8), (8, 64, 8)] {
        let read = [0, 1, 0, 0, 0, 0, 0];
        let name = format!("rf from {source} into x with L {locations}");
        cases.add(name, file(1, locations, [1, 0, 0, 0], &[read], &[(1, source, 1)]), expected);
    }
    for (location, source, expected) in [(7, 63, 0), (7, 62, 8), (7, 64, 8), (6, 62, 0)] {
        let write = [0, 2, 0, 0, location, 5, 0];
        let name = format!("co from {source} into location {location} with L 8");
        cases.add(name, file(2, 8, [0, 0, 0, 1], &[write], &[(2, source, 1)]), expected);
    }
}

/// Links of every type into an isb and out of it, in the chip file of `linked` with 5 for the isb:
/// only ctrl from a po-earlier read may end in it, and none may start in it.
fn barrier_links(cases: &mut Cases) {
    let barrier = |link: LinkEnds| set(&linked(2, &[link]), &[(in_event(5, MODE), 7)]);
    const INTO: [(u8, &str); 8] = [
        (1, "a read"),
        (2, "an exclusive read"),
        (3, "a write"),
        (4, "the write directly before"),
        (5, "itself"),
        (6, "a po-later write"),
        (8, "a read of another thread"),
        (56, "the initial write"),
    ];
    const OUT_OF: [(u8, &str); 5] = [
        (2, "a po-earlier exclusive read"),
        (4, "the write directly before"),
        (6, "the write directly behind"),
        (8, "a read of another thread"),
        (11, "a write of another thread"),
    ];
    for (t, name) in (0..).zip(NAMES) {
        for (source, what) in INTO {
            let expected = if t == 6 && (source == 1 || source == 2) { 0 } else { 8 };
            cases.add(format!("{name} into an isb from {what}"), barrier((t, source, 5)), expected);
        }
        for (target, what) in OUT_OF {
            cases.add(format!("{name} out of an isb into {what}"), barrier((t, 5, target)), 8);
        }
        // The event directly before is an exclusive read, the one directly behind a read.
        let reads = [(in_event(4, CLASS), 1), (in_event(4, FLAG), 1), (in_event(6, CLASS), 1)];
        let expected = if t == 6 { 0 } else { 8 };
        let into = set(&barrier((t, 4, 5)), &reads);
        cases.add(format!("{name} into an isb from the exclusive read directly before"), into, expected);
        let out_of = set(&barrier((t, 5, 6)), &reads);
        cases.add(format!("{name} out of an isb into the read directly behind"), out_of, 8);
    }
}
