//! Worked examples of rings (01, "What is shown"; 02, slip 5), derived by hand: shortest rings, of which any may be shown, and answers with
//! a ring that may not be, often for its length alone.

use crate::worked::{NEWER_FIRST, ONE_EVENT, STALE};

/// 1 W x 1 || 2 R x 1; 3 R x 1; 4 R x 0. fr leads from 4 to 1, eco from 4 to 2 and 3 too.
pub const OLDER_LAST: &str = "01 04 01 03 01 02 00 00 | 00 02 00 00 00 01 00 00 | 03 01 00 00 00 01 00 01
    | 04 01 00 00 00 01 00 02 | 00 01 00 00 00 00 00 03 | 00 01 01 00 | 00 01 01 00 | 00 01 38 00";
/// 1 R acquire x 1; 2 W z 1; 3 W release y 1 || 4 R acquire y 1; 5 W release x 1. sw leads from 3 to 4 and from 5 to 1.
const LOADS: &str = "01 05 03 02 01 04 00 00 | 02 01 01 00 00 01 00 01 | 03 02 00 00 02 01 00 00 | 00 02 02 00 01 01 00 00
    | 05 01 01 00 01 01 00 02 | 00 02 02 00 00 01 00 00 | 00 01 05 00 | 00 01 03 00";
/// 1 R acquire x 1; 2 W release y 1 || 3 R acquire y 1; 4 W release x 1; 5 R x 0. sw from 2 to 3 and from 4 to 1, fr from 5 to 4.
const LOADS_STALE: &str = "01 05 02 03 01 03 00 00 | 02 01 01 00 00 01 00 01 | 00 02 02 00 01 01 00 00 | 04 01 01 00 01 01 00 02
    | 05 02 02 00 00 01 00 00 | 00 01 00 00 00 00 00 03 | 00 01 04 00 | 00 01 02 00 | 00 01 38 00";
/// 1 R x 1; 2 F acquire; 3 W y 1, data from 1 || 4 R y 1; 5 W x 1, data from 4. ar leads from 1 to 3, and by the fence.
const DATA_AND_FENCE: &str = "01 05 02 04 01 04 00 00 | 02 01 00 00 00 01 00 01 | 03 03 01 00 00 00 00 00 | 00 02 00 00 01 01 00 02
    | 05 01 00 00 01 01 00 03 | 00 02 00 00 00 01 00 04 | 00 01 05 00 | 00 04 01 00 | 00 01 03 00 | 00 04 04 00";
/// 1 R x 1; 2 F acquire; 3 F acquire; 4 W y 1 || 5 R y 1; 6 W x 1, data from 5. ar leads from 1 to 4 by either fence.
const TWO_FENCES: &str = "01 06 02 03 01 05 00 00 | 02 01 00 00 00 01 00 01 | 03 03 01 00 00 00 00 00 | 04 03 01 00 00 00 00 00
    | 00 02 00 00 01 01 00 00 | 06 01 00 00 01 01 00 02 | 00 02 00 00 00 01 00 03 | 00 01 06 00 | 00 01 04 00 | 00 04 05 00";
/// Message passing by release and acquire, and by relaxed accesses: 1 W x 1; 2 W release y 1 || 3 R acquire y 1; 4 R x 0
/// || 5 W z 1; 6 W u 1 || 7 R u 1; 8 R z 0.
const PASSED_TWICE: &str = "01 08 04 04 01 03 05 07 | 02 02 00 00 00 01 00 00 | 00 02 02 00 01 01 00 00 | 04 01 01 00 01 01 00 01
    | 00 01 00 00 00 00 00 02 | 06 02 00 00 02 01 00 00 | 00 02 00 00 03 01 00 00 | 08 01 00 00 03 01 00 03 | 00 01 00 00 02 00 00 04
    | 00 01 02 00 | 00 01 38 00 | 00 01 06 00 | 00 01 3a 00";

/// Files with their answers; of several shortest rings each is right.
pub const ANSWERS: [(&str, &str, &str); 9] = [
    ("the first of two newer reads", OLDER_LAST, "source broken 3 2 4;chip broken 3 1 2 4;tso broken 3 1 2 4;"),
    ("the second of two newer reads", OLDER_LAST, "source broken 3 3 4;chip broken 3 1 3 4;tso broken 3 1 3 4;"),
    ("another in each line", OLDER_LAST, "source broken 3 2 4;chip broken 3 1 3 4;tso broken 3 1 2 4;"),
    ("po past a write", LOADS, "source broken 3 1 3 4 5;chip broken 5 1 3 4 5;tso broken 5 1 3 4 5;"),
    ("eco closes a shorter ring than sw", LOADS_STALE, "source broken 3 4 5;chip broken 3 4 5;tso broken 3 4 5;"),
    ("data past a fence", DATA_AND_FENCE, "source broken 5 1 3 4 5;chip broken 5 1 3 4 5;tso broken 5 1 3 4 5;"),
    ("one step of eco", PASSED_TWICE, "source broken 3 1 2 3 4;chip broken 5 1 2 3 4;tso broken 5 1 2 3 4;"),
    ("the first of two fences", TWO_FENCES, "source broken 5 1 2 4 5 6;chip broken 5 1 4 5 6;tso broken 5 1 4 5 6;"),
    ("the second of two fences", TWO_FENCES, "source broken 5 1 3 4 5 6;chip broken 5 1 4 5 6;tso broken 5 1 4 5 6;"),
];

/// Wrong answers, each with the reason for which it is rejected.
pub const WRONG: [(&str, &str, &str, &str); 22] = [
    (
        "the smallest event is not first",
        STALE,
        "source broken 3 2 3 4 1;chip broken 5 1 2 3 4;tso broken 5 1 2 3 4;",
        "the source ring: the smallest event is not first",
    ),
    (
        "an event twice",
        STALE,
        "source broken 3 1 2 3 4 1 2 3 4;chip broken 5 1 2 3 4;tso broken 5 1 2 3 4;",
        "the source ring: event 1 stands twice",
    ),
    (
        "a step that is none",
        STALE,
        "source broken 3 1 2 3;chip broken 5 1 2 3 4;tso broken 5 1 2 3 4;",
        "the source ring: 3 to 1 is no step",
    ),
    (
        "the chip ring turned round",
        STALE,
        "source broken 3 1 2 3 4;chip broken 5 1 4 3 2;tso broken 5 1 2 3 4;",
        "the chip ring: 1 to 4 is no step",
    ),
    (
        "a number no event has",
        STALE,
        "source broken 3 1 2 3 4;chip broken 5 1 2 3 64;tso broken 5 1 2 3 4;",
        "the chip ring: 64 is no event",
    ),
    (
        "two steps that are eco only",
        NEWER_FIRST,
        "source broken 3 2 3 4;chip broken 3 2 3 4;tso broken 3 2 3 4;",
        "the source ring: 2 steps are eco only",
    ),
    (
        "two steps that are eco only, and no more events than a shortest ring",
        PASSED_TWICE,
        "source broken 3 5 6 7 8;chip broken 5 1 2 3 4;tso broken 5 1 2 3 4;",
        "the source ring: 2 steps are eco only",
    ),
    (
        "a ring of one event that is none",
        NEWER_FIRST,
        "source broken 3 3;chip broken 3 2 3 4;tso broken 3 2 3 4;",
        "the source ring: 3 to 3 is no step",
    ),
    (
        "eco closes a longer ring than one event",
        ONE_EVENT,
        "source broken 3 1 2 3;chip broken 3 1 3;tso broken 3 1 3;",
        "the source ring: 3 events, where a ring of 1 may be shown",
    ),
    (
        "eco closes a ring of two, where one event is a ring",
        ONE_EVENT,
        "source broken 3 1 3;chip broken 3 1 3;tso broken 3 1 3;",
        "the source ring: 2 events, where a ring of 1 may be shown",
    ),
    (
        "IMM, rule 3: by each read in turn",
        OLDER_LAST,
        "source broken 3 2 3 4;chip broken 3 1 2 4;tso broken 3 1 2 4;",
        "the source ring: 3 events, where a ring of 2 may be shown",
    ),
    (
        "IMM, rule 3: by a write that po can leave out, po and sw alone",
        LOADS,
        "source broken 3 1 2 3 4 5;chip broken 5 1 3 4 5;tso broken 5 1 3 4 5;",
        "the source ring: 5 events, where a ring of 4 may be shown",
    ),
    (
        "IMM, rule 3: po and sw alone, where eco closes a shorter ring",
        LOADS_STALE,
        "source broken 3 1 2 3 4;chip broken 3 4 5;tso broken 3 4 5;",
        "the source ring: 4 events, where a ring of 2 may be shown",
    ),
    (
        "IMM, rule 3: eco, and more events than it needs",
        LOADS_STALE,
        "source broken 3 1 2 3 5;chip broken 3 4 5;tso broken 3 4 5;",
        "the source ring: 4 events, where a ring of 2 may be shown",
    ),
    (
        "IMM, rule 5: by a fence, where data leads past it",
        DATA_AND_FENCE,
        "source broken 5 1 2 3 4 5;chip broken 5 1 3 4 5;tso broken 5 1 3 4 5;",
        "the source ring: 5 events, where a ring of 4 may be shown",
    ),
    (
        "IMM, rule 5: by two fences, where one is enough",
        TWO_FENCES,
        "source broken 5 1 2 3 4 5 6;chip broken 5 1 4 5 6;tso broken 5 1 4 5 6;",
        "the source ring: 6 events, where a ring of 5 may be shown",
    ),
    (
        "ARMv8, rule 3: by each read in turn",
        OLDER_LAST,
        "source broken 3 2 4;chip broken 3 1 2 3 4;tso broken 3 1 2 4;",
        "the chip ring: 4 events, where a ring of 3 may be shown",
    ),
    (
        "ARMv8, rule 5: into and out of a write that can be left out",
        LOADS,
        "source broken 3 1 3 4 5;chip broken 5 1 2 3 4 5;tso broken 5 1 3 4 5;",
        "the chip ring: 5 events, where a ring of 4 may be shown",
    ),
    // Steps of hb are no steps of a ring, so that none is counted as one: here po then sw, then po.
    ("hb for a step", STALE, "source broken 3 1 4;chip broken 5 1 2 3 4;tso broken 5 1 2 3 4;", "the source ring: 1 to 4 is no step"),
    (
        "hb for a step, of two",
        STALE,
        "source broken 3 1 3 4;chip broken 5 1 2 3 4;tso broken 5 1 2 3 4;",
        "the source ring: 1 to 3 is no step",
    ),
    // sw then po, and po then sw.
    ("hb for each step", LOADS, "source broken 3 1 4;chip broken 5 1 3 4 5;tso broken 5 1 3 4 5;", "the source ring: 1 to 4 is no step"),
    (
        "hb from an event to itself",
        LOADS,
        "source broken 3 1;chip broken 5 1 3 4 5;tso broken 5 1 3 4 5;",
        "the source ring: 1 to 1 is no step",
    ),
];
