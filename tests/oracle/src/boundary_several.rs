//! Boundary files with several links: repeats, sources of one read (cause 8), rings of co (9), strong writes (10).

use crate::boundary_links::linked;
use crate::handmade::*;

pub fn add(cases: &mut Cases) {
    several(cases);
    strong(cases);
}

/// Several links: repeats, sources of one read, rings of co.
fn several(cases: &mut Cases) {
    let table: [(&str, &[LinkEnds], u8); 29] = [
        ("rf twice", &[(1, 7, 1), (1, 7, 1)], 0),
        ("rf three times", &[(1, 7, 1), (1, 7, 1), (1, 7, 1)], 0),
        ("rf from the initial write twice", &[(1, 56, 12), (1, 56, 12)], 0),
        ("co twice", &[(2, 3, 6), (2, 3, 6)], 0),
        ("rmw twice", &[(3, 2, 3), (3, 2, 3)], 0),
        ("data twice", &[(4, 1, 3), (4, 1, 3)], 0),
        ("addr twice", &[(5, 1, 2), (5, 1, 2)], 0),
        ("ctrl twice", &[(6, 1, 2), (6, 1, 2)], 0),
        ("four types between two events", &[(3, 2, 3), (4, 2, 3), (5, 2, 3), (6, 2, 3)], 0),
        ("one write read twice", &[(1, 7, 1), (1, 7, 2)], 0),
        ("rf from two writes of one value", &[(1, 7, 1), (1, 6, 1)], 8),
        ("rf from two writes, parted by another link", &[(1, 7, 2), (6, 1, 2), (1, 6, 2)], 8),
        ("rf twice, parted by another link", &[(1, 7, 2), (6, 1, 2), (1, 7, 2)], 0),
        ("rf from two writes, the first again", &[(1, 7, 1), (1, 7, 1), (1, 6, 1)], 8),
        ("a good link before a bad one", &[(6, 1, 2), (4, 1, 2)], 8),
        ("a bad link before a good one", &[(4, 1, 2), (6, 1, 2)], 8),
        ("co along three writes", &[(2, 7, 3), (2, 3, 6)], 0),
        ("co of all pairs of three writes", &[(2, 7, 3), (2, 3, 6), (2, 7, 6)], 0),
        ("co of two locations", &[(2, 3, 6), (2, 11, 4)], 0),
        ("co from the initial writes", &[(2, 56, 3), (2, 56, 6), (2, 56, 7), (2, 57, 4), (2, 3, 6)], 0),
        ("a ring of two within a thread", &[(2, 3, 6), (2, 6, 3)], 9),
        ("a ring of two across threads", &[(2, 3, 7), (2, 7, 3)], 9),
        ("a ring of two in y", &[(2, 4, 11), (2, 11, 4)], 9),
        ("a ring of three", &[(2, 3, 6), (2, 6, 7), (2, 7, 3)], 9),
        ("a ring of three the other way", &[(2, 7, 6), (2, 6, 3), (2, 3, 7)], 9),
        ("a ring of two behind a write", &[(2, 7, 3), (2, 3, 6), (2, 6, 3)], 9),
        ("a ring and the initial write", &[(2, 56, 3), (2, 3, 6), (2, 6, 3)], 9),
        ("a ring and a link to itself", &[(2, 3, 3), (2, 3, 6), (2, 6, 3)], 8),
        ("a ring and a bad link", &[(2, 3, 6), (2, 6, 3), (4, 1, 2)], 8),
    ];
    for kind in [1, 2] {
        for (name, links, expected) in table {
            cases.add(format!("kind {kind}: {name}"), linked(kind, links), expected);
            // The same links listed the other way.
            let turned: Vec<LinkEnds> = links.iter().rev().copied().collect();
            cases.add(format!("kind {kind}: {name}, listed backward"), linked(kind, &turned), expected);
        }
    }
    cases.add("casdep twice", linked(1, &[(7, 1, 2), (7, 1, 2)]), 0);
    cases.add("casdep beside addr and ctrl", linked(1, &[(7, 1, 2), (5, 1, 2), (6, 1, 2)]), 0);
    let zero = set(&linked(1, &[(1, 56, 12), (1, 3, 12)]), &[(in_event(3, VALUE_LOW), 0)]);
    cases.add("rf from the initial write and a write of 0", zero, 8);
}

/// Strong writes with and without rmw.
fn strong(cases: &mut Cases) {
    let table: [(&str, &[LinkEnds], &[usize], u8); 10] = [
        ("a strong write with rmw", &[(3, 2, 3)], &[3], 0),
        ("a strong write with rmw twice", &[(3, 2, 3), (3, 2, 3)], &[3], 0),
        ("a strong write with rmw and data", &[(4, 2, 3), (3, 2, 3)], &[3], 0),
        ("a strong write without link", &[], &[3], 10),
        ("a strong write with data only", &[(4, 2, 3)], &[3], 10),
        ("a strong write with all but rmw", &[(4, 2, 3), (5, 2, 3), (6, 2, 3), (2, 7, 3)], &[3], 10),
        ("a strong write behind a fence", &[(3, 2, 3)], &[6], 10),
        ("two strong writes, one with rmw", &[(3, 2, 3)], &[3, 4], 10),
        ("a strong write without rmw and a ring of co", &[(2, 3, 6), (2, 6, 3)], &[3], 9),
        ("a strong write without rmw and a bad link", &[(4, 1, 2)], &[3], 8),
    ];
    for (name, links, writes, expected) in table {
        let edits: Vec<(usize, u8)> = writes.iter().map(|&w| (in_event(w, FLAG), 1)).collect();
        cases.add(name, set(&linked(1, links), &edits), expected);
        cases.add(format!("{name}, in a chip file"), set(&linked(2, links), &edits), 5);
    }
    let release = set(&linked(1, &[(3, 2, 3)]), &[(in_event(3, FLAG), 1), (in_event(3, MODE), 2)]);
    cases.add("a strong release write with rmw", release, 0);
}
