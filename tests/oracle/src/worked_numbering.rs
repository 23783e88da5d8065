//! Worked examples of renumbered files (02, slip 7), made by hand: pairs that differ in numbering only, and pairs that do not,
//! each by one difference.

use crate::sketch::*;
use crate::worked::{EXAMPLE, NEWER_FIRST, STALE};

const CTRL: u8 = 6;

/// 1 R exclusive x 0; 2 W strong x 1; 9 W y 1 || 3 W x 2; 4 F SC; 5 R y 0 || 6 R x 2; 7 W release y 1; 8 W y 0 || none.
/// rf 56 to 1, 57 to 5 and 3 to 6; co 2 to 3 and 7 to 8; rmw and data 1 to 2, data 6 to 7, ctrl 6 to 8.
pub const FILE: &str = "01 09 02 09 01 03 06 00
    | 02 01 00 01 00 00 00 01 | 09 02 00 01 00 01 00 02 | 04 02 00 00 00 02 00 04
    | 05 03 04 00 00 00 00 00 | 00 01 00 00 01 00 00 05 | 07 01 00 00 00 02 00 06
    | 08 02 02 00 01 01 00 07 | 00 02 00 00 01 00 00 08 | 00 02 00 00 01 01 00 00
    | 00 01 38 00 | 03 03 01 00 | 00 04 01 00 | 00 02 02 00 | 00 01 39 00 | 00 01 03 00 | 00 04 06 00 | 09 06 06 00 | 00 02 07 00";

/// FILE with other numbers: its events 1 to 9 are 8, 3, 5, 1, 7, 2, 6, 4 and 9, its threads 1 to 4 are 3, 4, 1 and 2. One link is there twice.
pub fn copy() -> Sketch {
    Sketch {
        kind: 1,
        locations: 2,
        events: vec![
            [FENCE, 4, 0, 0, 0],
            [READ, RELAXED, 0, 0, 2],
            [WRITE, RELAXED, 1, 0, 1],
            [WRITE, RELAXED, 0, 1, 0],
            [WRITE, RELAXED, 0, 0, 2],
            [WRITE, RELEASE, 0, 1, 1],
            [READ, RELAXED, 0, 1, 0],
            [READ, RELAXED, 1, 0, 0],
            [WRITE, RELAXED, 0, 1, 1],
        ],
        threads: [vec![2, 6, 4], vec![], vec![8, 3, 9], vec![5, 1, 7]],
        links: vec![
            (DATA, 2, 6),
            (RF, 5, 2),
            (CO, 3, 5),
            (CTRL, 2, 4),
            (RF, 56, 8),
            (CO, 6, 4),
            (DATA, 8, 3),
            (RF, 5, 2),
            (RF, 57, 7),
            (RMW, 8, 3),
        ],
    }
}

/// Puts another link in the place of one, which is there once.
fn replace(sketch: &mut Sketch, old: (u8, u8, u8), new: (u8, u8, u8)) {
    let place = sketch.links.iter().position(|&link| link == old).expect("the copy has this link");
    sketch.links[place] = new;
}

fn exchange_locations(sketch: &mut Sketch) {
    sketch.events.iter_mut().filter(|e| e[0] != FENCE).for_each(|e| e[3] ^= 1);
    sketch.links.iter_mut().filter(|link| link.1 >= 56).for_each(|link| link.1 ^= 1);
}

/// What is altered in the copy, which still loads and differs from FILE in more than numbering.
pub const ALTERED: [(&str, fn(&mut Sketch)); 31] = [
    ("a fence's mode", |c| c.events[0][1] = 3),
    ("a read's mode", |c| c.events[1][1] = ACQUIRE),
    ("a write's mode", |c| c.events[5][1] = RELAXED),
    ("a read's flag", |c| c.events[1][2] = 1),
    ("a write's flag", |c| c.events[2][2] = 0),
    ("a value", |c| c.events[5][4] = 2),
    ("a location", |c| c.events[8][3] = 0),
    ("the locations exchanged in all events", exchange_locations),
    ("a class", |c| c.events[8][0] = READ),
    ("the first two events of a thread exchanged", |c| c.threads[3] = vec![1, 5, 7]),
    ("the last two events of a thread exchanged", |c| c.threads[3] = vec![5, 7, 1]),
    ("a thread the other way round", |c| c.threads[3] = vec![7, 1, 5]),
    ("an event moved to another thread", |c| (c.threads[0], c.threads[2]) = (vec![2, 6, 4, 9], vec![8, 3])),
    ("an event moved to the empty thread", |c| (c.threads[1], c.threads[2]) = (vec![9], vec![8, 3])),
    ("two events of two threads exchanged", |c| (c.threads[2], c.threads[3]) = (vec![8, 3, 7], vec![5, 1, 9])),
    ("an event more", |c| {
        c.event(2, FENCE, 4, 0, 0);
    }),
    ("an event less", |c| {
        c.events.pop();
        c.threads[2].pop();
    }),
    ("a location more", |c| c.locations = 3),
    ("a location more, the last one used", |c| (c.locations, c.events[8][3]) = (3, 2)),
    ("a dependency missing", |c| c.links.retain(|&link| link != (CTRL, 2, 4))),
    ("an rf missing", |c| c.links.retain(|&link| link != (RF, 57, 7))),
    ("a link missing, which is there twice", |c| c.links.retain(|&link| link != (RF, 5, 2))),
    ("a link missing and another repeated", |c| replace(c, (DATA, 8, 3), (RMW, 8, 3))),
    ("a dependency more", |c| c.link(CTRL, 2, 6)),
    ("co from an initial write more", |c| c.link(CO, 57, 6)),
    ("a link's type", |c| replace(c, (DATA, 2, 6), (ADDR, 2, 6))),
    ("a link's source, a write for an initial write", |c| replace(c, (RF, 57, 7), (RF, 4, 7))),
    ("a read of another initial write", |c| {
        c.events[6][3] = 0;
        replace(c, (RF, 57, 7), (RF, 56, 7));
    }),
    ("a link's source, another write", |c| replace(c, (CO, 6, 4), (CO, 9, 4))),
    ("a link's target", |c| replace(c, (CTRL, 2, 4), (CTRL, 2, 6))),
    ("co the other way", |c| replace(c, (CO, 6, 4), (CO, 4, 6))),
];

/// 1 W x 1 || 2 W x 1 || 3 R x 1, from 1 || 4 R x 1, from 2.
const TWO_READ: &str = "01 04 01 02 01 02 03 04 | 00 02 00 00 00 01 00 00 | 00 02 00 00 00 01 00 00 | 00 01 00 00 00 01 00 01
    | 00 01 00 00 00 01 00 02 | 00 01 01 00 | 00 01 02 00";
/// 1 ldr x 0; 2 isb; 3 ldar y 1 || 4 str y 1. rf 56 to 1 and 4 to 3, ctrl 1 to 2.
const CHIP: &str = "02 04 02 03 01 04 00 00 | 02 01 00 00 00 00 00 01 | 03 03 07 00 00 00 00 02 | 00 01 01 00 01 01 00 03
    | 00 02 00 00 01 01 00 00 | 00 01 38 00 | 00 06 01 00 | 00 01 04 00";
const EMPTY: &str = "01 00 02 00 00 00 00 00";
const ONE_WRITE: &str = "01 01 01 00 01 00 00 00 | 00 02 00 00 00 01 00 00";

/// Files that differ in numbering only.
pub const SAME: [(&str, &str, &str); 15] = [
    ("the same file", FILE, FILE),
    ("no event, the same file", EMPTY, EMPTY),
    (
        "two events of a thread numbered the other way",
        EXAMPLE,
        "01 02 01 01 02 00 00 00 | 00 01 00 00 00 01 00 01 | 01 02 00 00 00 01 00 00 | 00 01 02 00",
    ),
    (
        "two events of two threads numbered the other way",
        STALE,
        "01 04 02 02 01 02 00 00 | 03 02 00 00 00 01 00 00 | 04 01 01 00 01 01 00 01
         | 00 02 02 00 01 01 00 00 | 00 01 00 00 00 00 00 02 | 00 01 03 00 | 00 01 38 00",
    ),
    (
        "two threads exchanged",
        STALE,
        "01 04 02 02 03 01 00 00 | 02 02 00 00 00 01 00 00 | 00 02 02 00 01 01 00 00
         | 04 01 01 00 01 01 00 01 | 00 01 00 00 00 00 00 02 | 00 01 02 00 | 00 01 38 00",
    ),
    (
        "an empty thread moved",
        EXAMPLE,
        "01 02 01 01 00 00 00 01 | 02 02 00 00 00 01 00 00 | 00 01 00 00 00 01 00 01 | 00 01 01 00",
    ),
    (
        "links in another order",
        NEWER_FIRST,
        "01 04 01 03 01 03 00 00 | 02 02 00 00 00 01 00 00 | 00 02 00 00 00 02 00 03
         | 04 01 00 00 00 02 00 01 | 00 01 00 00 00 01 00 02 | 00 01 02 00 | 00 01 01 00 | 00 02 01 00",
    ),
    (
        // Into 2 first data, then rmw; into 8 first co, then ctrl.
        "links chained in another order",
        FILE,
        "01 09 02 09 01 03 06 00
         | 02 01 00 01 00 00 00 01 | 09 02 00 01 00 01 00 03 | 04 02 00 00 00 02 00 04
         | 05 03 04 00 00 00 00 00 | 00 01 00 00 01 00 00 05 | 07 01 00 00 00 02 00 06
         | 08 02 02 00 01 01 00 07 | 00 02 00 00 01 00 00 09 | 00 02 00 00 01 01 00 00
         | 00 01 38 00 | 00 03 01 00 | 02 04 01 00 | 00 02 02 00 | 00 01 39 00 | 00 01 03 00 | 00 04 06 00 | 00 06 06 00 | 08 02 07 00",
    ),
    (
        "a link twice",
        EXAMPLE,
        "01 02 01 02 01 00 00 00 | 02 02 00 00 00 01 00 00 | 00 01 00 00 00 01 00 01 | 02 01 01 00 | 00 01 01 00",
    ),
    (
        "a link three times, in another order than twice",
        "01 02 01 02 01 00 00 00 | 02 02 00 00 00 01 00 00 | 00 01 00 00 00 01 00 01 | 02 01 01 00 | 00 01 01 00",
        "01 02 01 03 01 00 00 00 | 02 02 00 00 00 01 00 00 | 00 01 00 00 00 01 00 03 | 00 01 01 00 | 01 01 01 00 | 02 01 01 00",
    ),
    (
        // The writes alone are exchanged, or the reads.
        "each read reads what the other read",
        TWO_READ,
        "01 04 01 02 01 02 03 04 | 00 02 00 00 00 01 00 00 | 00 02 00 00 00 01 00 00 | 00 01 00 00 00 01 00 01
         | 00 01 00 00 00 01 00 02 | 00 01 02 00 | 00 01 01 00",
    ),
    (
        "two equal threads, each with an rf of its own",
        "01 04 01 02 01 03 00 00 | 02 02 00 00 00 01 00 00 | 00 01 00 00 00 01 00 01 | 04 02 00 00 00 01 00 00
         | 00 01 00 00 00 01 00 02 | 00 01 01 00 | 00 01 03 00",
        "01 04 01 02 02 01 00 00 | 04 02 00 00 00 01 00 00 | 03 02 00 00 00 01 00 00 | 00 01 00 00 00 01 00 01
         | 00 01 00 00 00 01 00 02 | 00 01 02 00 | 00 01 01 00",
    ),
    ("a chip file, the same file", CHIP, CHIP),
    (
        // 4 ldr x 0; 1 isb; 2 ldar y 1 in thread 4, 3 str y 1 in thread 1.
        "a chip file",
        CHIP,
        "02 04 02 03 03 00 00 04 | 02 03 07 00 00 00 00 03 | 00 01 01 00 01 01 00 02 | 00 02 00 00 01 01 00 00
         | 01 01 00 00 00 00 00 01 | 00 01 38 00 | 00 01 03 00 | 00 06 04 00",
    ),
    (
        "two fences alike, numbered the other way",
        "02 02 00 00 01 00 00 00 | 02 03 05 00 00 00 00 00 | 00 03 05 00 00 00 00 00",
        "02 02 00 00 02 00 00 00 | 00 03 05 00 00 00 00 00 | 01 03 05 00 00 00 00 00",
    ),
];

/// Files that both load and differ in more than numbering.
pub const OTHERS: [(&str, &str, &str); 10] = [
    ("the kind", ONE_WRITE, "02 01 01 00 01 00 00 00 | 00 02 00 00 00 01 00 00"),
    ("the high byte of a value", ONE_WRITE, "01 01 01 00 01 00 00 00 | 00 02 00 00 00 01 01 00"),
    ("a location more and no event", EMPTY, "01 00 03 00 00 00 00 00"),
    ("no event and one", "01 00 01 00 00 00 00 00", ONE_WRITE),
    (
        "both reads read one write",
        TWO_READ,
        "01 04 01 02 01 02 03 04 | 00 02 00 00 00 01 00 00 | 00 02 00 00 00 01 00 00 | 00 01 00 00 00 01 00 01
         | 00 01 00 00 00 01 00 02 | 00 01 01 00 | 00 01 01 00",
    ),
    (
        "two equal threads that read each other",
        "01 04 01 02 01 03 00 00 | 02 02 00 00 00 01 00 00 | 00 01 00 00 00 01 00 01 | 04 02 00 00 00 01 00 00
         | 00 01 00 00 00 01 00 02 | 00 01 01 00 | 00 01 03 00",
        "01 04 01 02 01 03 00 00 | 02 02 00 00 00 01 00 00 | 00 01 00 00 00 01 00 01 | 04 02 00 00 00 01 00 00
         | 00 01 00 00 00 01 00 02 | 00 01 03 00 | 00 01 01 00",
    ),
    (
        "dmb ld for isb",
        CHIP,
        "02 04 02 03 01 04 00 00 | 02 01 00 00 00 00 00 01 | 03 03 05 00 00 00 00 02 | 00 01 01 00 01 01 00 03
         | 00 02 00 00 01 01 00 00 | 00 01 38 00 | 00 06 01 00 | 00 01 04 00",
    ),
    (
        "two events in one thread and in two",
        "01 02 01 00 01 00 00 00 | 02 02 00 00 00 01 00 00 | 00 02 00 00 00 01 00 00",
        "01 02 01 00 01 02 00 00 | 00 02 00 00 00 01 00 00 | 00 02 00 00 00 01 00 00",
    ),
    (
        "co between two equal writes of a thread, along po and against it",
        "01 02 01 01 01 00 00 00 | 02 02 00 00 00 01 00 00 | 00 02 00 00 00 01 00 01 | 00 02 01 00",
        "01 02 01 01 01 00 00 00 | 02 02 00 00 00 01 00 01 | 00 02 00 00 00 01 00 00 | 00 02 02 00",
    ),
    ("no link and one", "01 02 01 00 01 00 00 00 | 02 02 00 00 00 01 00 00 | 00 01 00 00 00 01 00 00", EXAMPLE),
];

/// Files of which the second does not load: they are never the same but for numbering, also where they are equal.
pub const REFUSED: [(&str, &str, &str); 4] = [
    ("a file of another kind", "03 00 00 00 00 00 00 00", "03 00 00 00 00 00 00 00"),
    ("no file", "", ""),
    ("a byte more", EMPTY, "01 00 02 00 00 00 00 00 00"),
    ("an event in no chain", ONE_WRITE, "01 01 01 00 00 00 00 00 | 00 02 00 00 00 01 00 00"),
];
