//! Boundary files made by hand: header, limits, length (causes 1 to 4), and causes that meet in one file.
//! What is expected of each is read off 01, never worked out by the loader.

use crate::boundary_events;
use crate::boundary_links;
use crate::boundary_rings;
use crate::boundary_several;
use crate::boundary_threads;
use crate::boundary_tso;
use crate::boundary_why;
use crate::handmade::*;

pub fn cases() -> Vec<Case> {
    let mut cases = Cases(Vec::new());
    short_files(&mut cases);
    kinds(&mut cases);
    limits(&mut cases);
    lengths(&mut cases);
    meetings(&mut cases);
    long_meetings(&mut cases);
    barrier_meetings(&mut cases);
    boundary_events::add(&mut cases);
    boundary_threads::add(&mut cases);
    boundary_links::add(&mut cases);
    boundary_several::add(&mut cases);
    boundary_rings::add(&mut cases);
    boundary_tso::add(&mut cases);
    boundary_why::add(&mut cases);
    cases.0
}

/// Cause 1, whatever the bytes are.
fn short_files(cases: &mut Cases) {
    for length in 0..8 {
        cases.add(format!("zeros, {length} bytes"), vec![0; length], 1);
        cases.add(format!("ones, {length} bytes"), vec![1; length], 1);
        for kind in [1, 2] {
            let cut = vec![kind, 0, 0, 0, 0, 0, 0, 0][..length].to_vec();
            cases.add(format!("an empty file of kind {kind} cut to {length} bytes"), cut, 1);
        }
        cases.add(format!("255 in each byte, {length} bytes"), vec![255; length], 1);
    }
}

/// Cause 2: every kind but 1 and 2.
fn kinds(cases: &mut Cases) {
    cases.add("the empty source file", bytes("01 00 00 00 00 00 00 00"), 0);
    cases.add("the empty chip file", bytes("02 00 00 00 00 00 00 00"), 0);
    for kind in (0..=0).chain(3..=255) {
        cases.add(format!("an empty file of kind {kind}"), vec![kind, 0, 0, 0, 0, 0, 0, 0], 2);
    }
}

/// A file of `n` relaxed writes of location 0 in as few threads as may be,
/// and `m` times the same co link, from write 1 to write 2.
fn filled(kind: u8, n: u8, m: u8) -> Vec<u8> {
    let (heads, nexts) = chained(&numbered(packed(kind, n)));
    let writes: Vec<EventBytes> = (1..=n).zip(nexts).map(|(e, next)| [next, 2, 0, 0, 0, e, 0]).collect();
    file(kind, 1, heads, &writes, &vec![(2, 1, 2); m as usize])
}

/// Cause 3: N, L and M at their limits and over.
fn limits(cases: &mut Cases) {
    for (kind, n, m, expected) in [
        (1, 2, 0, 0),
        (1, 31, 0, 0),
        (1, 32, 0, 0),
        (1, 33, 0, 3),
        (1, 48, 0, 3),
        (1, 255, 0, 3),
        (1, 2, 199, 0),
        (1, 2, 200, 0),
        (1, 2, 201, 3),
        (1, 2, 255, 3),
        (1, 32, 200, 0),
        (1, 33, 200, 3),
        (1, 32, 201, 3),
        (1, 33, 201, 3),
        (2, 32, 200, 0),
        (2, 33, 201, 0),
        (2, 47, 0, 0),
        (2, 48, 0, 0),
        (2, 49, 0, 3),
        (2, 255, 0, 3),
        (2, 2, 254, 0),
        (2, 2, 255, 0),
        (2, 48, 255, 0),
        (2, 49, 255, 3),
    ] {
        cases.add(format!("kind {kind}, N {n}, M {m}"), filled(kind, n, m), expected);
    }
    for kind in [1, 2] {
        for (locations, expected) in [(0, 0), (1, 0), (7, 0), (8, 0), (9, 3), (16, 3), (255, 3)] {
            let name = format!("kind {kind}, L {locations}, no event");
            cases.add(name, vec![kind, 0, locations, 0, 0, 0, 0, 0], expected);
        }
        cases.add(format!("kind {kind}, L 8, N at its limit"), set(&filled(kind, 32, 0), &[(COUNT_LOCATIONS, 8)]), 0);
        cases.add(format!("kind {kind}, L 9 with events"), set(&filled(kind, 3, 1), &[(COUNT_LOCATIONS, 9)]), 3);
    }
    // The header alone, with a limit passed: 3 comes before the length.
    cases.add("source header alone, N 33", bytes("01 21 00 00 00 00 00 00"), 3);
    cases.add("source header alone, M 201", bytes("01 00 00 c9 00 00 00 00"), 3);
    cases.add("chip header alone, N 49", bytes("02 31 00 00 00 00 00 00"), 3);
    cases.add("chip header alone, M 255", bytes("02 00 00 ff 00 00 00 00"), 4);
    cases.add("source header alone, N 32", bytes("01 20 00 00 00 00 00 00"), 4);
    cases.add("source header alone, M 200", bytes("01 00 00 c8 00 00 00 00"), 4);
    cases.add("chip header alone, N 48", bytes("02 30 00 00 00 00 00 00"), 4);
}

/// Cause 4: shorter and longer than 8 + 8 N + 4 M.
fn lengths(cases: &mut Cases) {
    let good = filled(1, 3, 2);
    for cut in 8..good.len() {
        cases.add(format!("cut to {cut} of {} bytes", good.len()), good[..cut].to_vec(), 4);
    }
    cases.add("not cut", good.clone(), 0);
    for (name, base) in [
        ("the empty source file", bytes("01 00 00 00 00 00 00 00")),
        ("the empty chip file", bytes("02 00 00 00 00 00 00 00")),
        ("a source file", good.clone()),
        ("a chip file", filled(2, 3, 2)),
        ("the longest source file", filled(1, 32, 200)),
        ("the longest chip file", filled(2, 48, 255)),
    ] {
        cases.add(format!("{name} and one byte"), lengthened(&base, base.len() + 1, 0), 4);
        cases.add(format!("{name} and one byte of 255"), lengthened(&base, base.len() + 1, 255), 4);
        cases.add(format!("{name} and four bytes"), lengthened(&base, base.len() + 4, 0), 4);
        cases.add(format!("{name} and eight bytes"), lengthened(&base, base.len() + 8, 0), 4);
        cases.add(format!("{name} up to 5000 bytes"), lengthened(&base, 5000, 0), 4);
        let other_kind = set(&base, &[(KIND, 3)]);
        cases.add(format!("{name} up to 5000 bytes, kind 3"), lengthened(&other_kind, 5000, 0), 2);
        let over_l = set(&base, &[(COUNT_LOCATIONS, 9)]);
        cases.add(format!("{name} up to 5000 bytes, L 9"), lengthened(&over_l, 5000, 0), 3);
        if base.len() > 8 {
            cases.add(format!("{name} without its last byte"), base[..base.len() - 1].to_vec(), 4);
        }
    }
    cases.add("one event counted too few", set(&good, &[(COUNT_EVENTS, 2)]), 4);
    cases.add("one event counted too many", set(&good, &[(COUNT_EVENTS, 4)]), 4);
    cases.add("one link counted too few", set(&good, &[(COUNT_LINKS, 1)]), 4);
    cases.add("one link counted too many", set(&good, &[(COUNT_LINKS, 3)]), 4);
    // One event fewer and two links more have the length right; the last event's bytes are then read as links.
    cases.add("an event counted as two links", set(&good, &[(COUNT_EVENTS, 2), (COUNT_LINKS, 4)]), 6);
    cases.add("5000 bytes of zero", vec![0; 5000], 2);
    cases.add("5000 bytes of one", vec![1; 5000], 4);
    cases.add("5000 bytes of 255", vec![255; 5000], 2);
}

/// A source file with room for every fault.
/// Thread 1: 1 W x 1; 2 W x 2. Thread 2: 3 R exclusive x 0; 4 W strong x 3. Heads 3 and 4 are 0.
/// Links: 1 co 56 to 1; 2 co 1 to 2; 3 rf 56 to 3; 4 rmw 3 to 4.
fn roomy() -> Vec<u8> {
    bytes(
        "01 04 01 04 01 03 00 00
         | 02 02 00 00 00 01 00 01 | 00 02 00 00 00 02 00 02 | 04 01 00 01 00 00 00 03 | 00 02 00 01 00 03 00 04
         | 00 02 38 00 | 00 02 01 00 | 00 01 38 00 | 00 03 03 00",
    )
}

/// Gives the roomy file, or a long one, the fault of one cause. No two of these edits touch the same byte.
fn with_cause(file: &[u8], cause: u8) -> Vec<u8> {
    let n = file[COUNT_EVENTS] as usize;
    match cause {
        1 => file[..7].to_vec(),
        2 => set(file, &[(KIND, 3)]),
        3 => set(file, &[(COUNT_LOCATIONS, 9)]),
        4 => lengthened(file, file.len() + 1, 0),
        // A write of mode 1.
        5 => set(file, &[(in_event(1, MODE), 1)]),
        // The third head meets event 1 a second time.
        6 => set(file, &[(HEAD_1 + 2, 1)]),
        // Link 3 leads on to a link over M.
        7 => set(file, &[(in_link(n, 3, LINK_NEXT), 5)]),
        // The last byte of link 2 is not 0.
        8 => set(file, &[(in_link(n, 2, LINK_LAST), 1)]),
        // co 2 to 1 against co 1 to 2.
        9 => set(file, &[(in_link(n, 1, LINK_SOURCE), 2)]),
        // data 3 to 4 instead of rmw.
        10 => set(file, &[(in_link(n, 4, LINK_TYPE), 4)]),
        // Of the long file: thread 2 leads on into thread 4.
        13 => set(file, &[(in_event(4, NEXT), 5), (HEAD_1 + 3, 0)]),
        _ => unreachable!(),
    }
}

/// Every cause alone, every two that can meet in one file, and all at once: of these ten the lowest number wins.
/// A file under 8 bytes has no records, so cause 1 meets only 2 and 3, and 4 always.
fn meetings(cases: &mut Cases) {
    cases.add("the file with room for every fault", roomy(), 0);
    for cause in 1..=10 {
        cases.add(format!("cause {cause} alone"), with_cause(&roomy(), cause), cause);
    }
    for low in 1..=9 {
        let highest = if low == 1 { 3 } else { 10 };
        for high in low + 1..=highest {
            let both = with_cause(&with_cause(&roomy(), high), low);
            cases.add(format!("causes {low} and {high}"), both, low);
        }
        if low >= 2 {
            let all = (low..=10).rev().fold(roomy(), |f, cause| with_cause(&f, cause));
            cases.add(format!("causes {low} to 10"), all, low);
        }
    }
    // Cause 3 by N and by M, with a fault of each later cause that can be had in the same file.
    let many_events = filled(1, 33, 2);
    let many_links = filled(1, 2, 201);
    for (name, base, n) in [("N 33", &many_events, 33), ("M 201", &many_links, 2)] {
        cases.add(format!("{name} and kind 0"), set(base, &[(KIND, 0)]), 2);
        cases.add(format!("{name} and a byte too many"), lengthened(base, base.len() + 1, 0), 3);
        cases.add(format!("{name} and a class 0"), set(base, &[(in_event(1, CLASS), 0)]), 3);
        cases.add(format!("{name} and a head met twice"), set(base, &[(HEAD_1 + 1, 1)]), 3);
        cases.add(format!("{name} and a link met twice"), set(base, &[(in_link(n, 2, LINK_NEXT), 1)]), 3);
        cases.add(format!("{name} and a link type 0"), set(base, &[(in_link(n, 1, LINK_TYPE), 0)]), 3);
    }
    // The heads of a file whose length is wrong are not judged.
    cases.add("a head over N and a byte missing", set(&filled(1, 3, 2), &[(HEAD_1, 9)])[..39].to_vec(), 4);
}

/// The order in which the causes are tried.
const ORDER: [u8; 11] = [1, 2, 3, 4, 5, 6, 13, 7, 8, 9, 10];

/// The roomy file with writes of x in thread 4, one fewer than a thread may have. In a chip file event 4 is not strong.
fn long(kind: u8) -> Vec<u8> {
    let mut file = roomy();
    let last = 4 + thread_limit(kind) - 1;
    let writes = (5..=last).flat_map(|e| [if e == last { 0 } else { e + 1 }, 2, 0, 0, 0, e, 0, 0]);
    file.splice(in_event(5, 0)..in_event(5, 0), writes);
    let strong = (kind == 1) as u8;
    set(&file, &[(KIND, kind), (COUNT_EVENTS, last), (HEAD_1 + 3, 5), (in_event(4, FLAG), strong)])
}

/// Cause 13 alone, with each other cause, and with all that come after one: the first in the order wins.
/// A chip file has no cause 10; a file that is cut to cause 1 has lost its threads.
fn long_meetings(cases: &mut Cases) {
    for kind in [1, 2] {
        let order = if kind == 1 { &ORDER[..] } else { &ORDER[..10] };
        let place = |cause: u8| order.iter().position(|&c| c == cause);
        cases.add(format!("kind {kind}, the long file with room for every fault"), long(kind), 0);
        for &cause in order {
            let alone = with_cause(&long(kind), cause);
            cases.add(format!("kind {kind}, cause {cause} alone in the long file"), alone, cause);
            if cause != 13 {
                let both = with_cause(&with_cause(&long(kind), 13), cause);
                let first = if place(cause) < place(13) { cause } else { 13 };
                cases.add(format!("kind {kind}, causes {cause} and 13"), both, first);
            }
        }
        for from in 1..order.len() {
            let all = order[from..].iter().rev().fold(long(kind), |f, &cause| with_cause(&f, cause));
            cases.add(format!("kind {kind}, cause {} and all that are tried after it", order[from]), all, order[from]);
        }
    }
}

/// The long chip file with a fence of some mode for the first event of thread 4. An isb is no fault, so that any other cause is found;
/// the mode after it is cause 5, before all that are tried later.
fn barrier_meetings(cases: &mut Cases) {
    let fenced = |mode: u8| set(&long(2), &[(in_event(5, CLASS), 3), (in_event(5, MODE), mode), (in_event(5, VALUE_LOW), 0)]);
    cases.add("the long chip file with an isb", fenced(7), 0);
    cases.add("the long chip file with the mode after isb", fenced(8), 5);
    for &cause in &ORDER[..10] {
        cases.add(format!("an isb and cause {cause}"), with_cause(&fenced(7), cause), cause);
        let first = if cause < 5 { cause } else { 5 };
        cases.add(format!("the mode after isb and cause {cause}"), with_cause(&fenced(8), cause), first);
    }
}
