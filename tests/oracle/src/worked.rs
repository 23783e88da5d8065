//! Worked examples derived by hand: exact answers, a translation, and answers that must be rejected.

/// Files with their answers; where a ring is shown, it is a shortest one.
pub const ANSWERS: [(&str, &str, &str); 11] = [
    (
        // tso: from 1 to 2 leads po from a write to a read, and rf within po.
        "the example of 01",
        EXAMPLE,
        "source allowed 1 2 56;chip allowed 1 2 56;tso allowed 2 56 1;",
    ),
    ("two locations and no event", "01 00 02 00 00 00 00 00", "source allowed 56 57;chip allowed 56 57;tso allowed 56 57;"),
    ("an empty chip file", "02 00 00 00 00 00 00 00", "chip allowed;"),
    (
        // ar and tso go from the initial write into the fence, ob only past it.
        "one SC fence and one location",
        ONE_SC_FENCE,
        "source allowed 56 1;chip allowed 1 56;tso allowed 56 1;",
    ),
    (
        "one fence and no location",
        "01 01 00 00 01 00 00 00 | 00 03 04 00 00 00 00 00",
        "source allowed 1;chip allowed 1;tso allowed 1;",
    ),
    (
        "two reads without rf",
        "01 02 01 00 01 02 00 00 | 00 01 00 00 00 00 00 00 | 00 01 00 00 00 00 00 00",
        "source broken 1 1;chip broken 1 1;tso broken 1 1;",
    ),
    (
        // co orders 1 and 3 only.
        "three writes without all of co",
        "02 03 01 01 01 02 03 00 | 00 02 00 00 00 01 00 00 | 00 02 00 00 00 02 00 00
         | 00 02 00 00 00 03 00 01 | 00 02 01 00",
        "chip broken 2 1 2;",
    ),
    (
        // 1 R x 1; 2 F both; 3 W x 1; rf 3 to 1 is external, and 2 synchronizes with itself.
        "a ring of one event",
        ONE_EVENT,
        "source broken 3 2;chip broken 3 1 3;tso broken 3 1 3;",
    ),
    (
        // 1 W x 1; 2 dmb ld; 3 R y 0 || 4 W y 1; 5 dmb ld; 6 R x 0
        "dmb ld orders nothing for an earlier write",
        "02 06 02 02 01 04 00 00 | 02 02 00 00 00 01 00 00 | 03 03 05 00 00 00 00 00 | 00 01 00 00 01 00 00 01
         | 05 02 00 00 01 01 00 00 | 06 03 05 00 00 00 00 00 | 00 01 00 00 00 00 00 02 | 00 01 39 00 | 00 01 38 00",
        "chip allowed 2 3 4 5 6 1 56 57;",
    ),
    (
        // 1 W y 1; 2 W release x 1 || 3 R exclusive x 1; 4 W x 2, rmw; 5 W x 3; 6 R acquire x 3, from 5; 7 R y 0
        // tso: W-W, rfe, R-R, fr.
        "a release sequence does not end in po-loc after an rmw",
        "01 07 02 06 01 03 00 00 | 02 02 00 00 01 01 00 00 | 00 02 02 00 00 01 00 00 | 04 01 00 01 00 01 00 01
         | 05 02 00 00 00 02 00 02 | 06 02 00 00 00 03 00 04 | 07 01 01 00 00 03 00 05 | 00 01 00 00 01 00 00 06
         | 00 01 02 00 | 03 02 02 00 | 00 03 03 00 | 00 02 04 00 | 00 01 05 00 | 00 01 39 00",
        "source allowed 1 6 7 56 57 2 3 4 5;chip allowed 6 7 1 56 57 2 3 4 5;tso broken 5 1 2 3 7;",
    ),
    ("a file of another kind", "03 00 00 00 00 00 00 00", "refused 2;"),
];

/// Thread 1: 3 R y; 1 R exclusive acquire x; 4 W release strong x, rmw and twice data from 1; 2 F acquire.
/// Thread 2: 5 F both; 6 R exclusive y, failed.
/// Further links: rf from the initial writes, casdep 3 to 1, ctrl 3 to 2.
pub const TRANSLATION_FROM: &str = "01 06 02 08 03 05 00 00
    | 04 01 01 01 00 00 00 01 | 00 03 01 00 00 00 00 08 | 01 01 00 00 01 00 00 03
    | 02 02 02 01 00 01 00 04 | 06 03 03 00 00 00 00 00 | 00 01 00 01 01 00 00 07
    | 02 01 38 00 | 00 07 03 00 | 00 01 39 00 | 05 03 01 00 | 06 04 01 00 | 00 04 01 00 | 00 01 39 00 | 00 06 03 00";

/// Fence 7 stands behind 4. New ctrl links: 1 to 7 (rmw and data), 3 to 4 (casdep);
/// none for 6, the last of its thread.
pub const TRANSLATION_TO: &str = "02 07 02 08 03 05 00 00
    | 04 01 01 01 00 00 00 01 | 00 03 05 00 00 00 00 02 | 01 01 00 00 01 00 00 03
    | 07 02 02 00 00 01 00 04 | 06 03 06 00 00 00 00 00 | 00 01 00 01 01 00 00 07 | 02 03 05 00 00 00 00 08
    | 00 01 38 00 | 00 06 03 00 | 00 01 39 00 | 05 03 01 00 | 06 04 01 00 | 00 06 03 00 | 00 01 39 00 | 00 06 01 00";

pub const ONE_EVENT: &str = "01 03 01 01 01 00 00 00 | 02 01 00 00 00 01 00 01 | 03 03 03 00 00 00 00 00
    | 00 02 00 00 00 01 00 00 | 00 01 03 00";
pub const STALE: &str = "release_and_acquire_with_stale_read";
pub const NEWER_FIRST: &str = "newer_value_read_before_older";
/// 1 W x 1; 2 R x 1.
pub const EXAMPLE: &str = "worked_example";
const ONE_SC_FENCE: &str = "01 01 01 00 01 00 00 00 | 00 03 04 00 00 00 00 00";

/// Wrong answers, each with what is wrong in it.
pub const WRONG: [(&str, &str, &str); 13] = [
    ("the rule is another", STALE, "source broken 5 1 2 3 4;chip broken 5 1 2 3 4;tso broken 5 1 2 3 4;"),
    ("no ring", STALE, "source broken 3;chip broken 5 1 2 3 4;tso broken 5 1 2 3 4;"),
    ("one line only", EXAMPLE, "source allowed 1 2 56;"),
    ("two lines only", EXAMPLE, "source allowed 1 2 56;chip allowed 1 2 56;"),
    ("a line too many", EXAMPLE, "source allowed 1 2 56;chip allowed 1 2 56;tso allowed 2 56 1;tso allowed 2 56 1;"),
    ("the first lines exchanged", EXAMPLE, "chip allowed 1 2 56;source allowed 1 2 56;tso allowed 2 56 1;"),
    ("the last lines exchanged", EXAMPLE, "source allowed 1 2 56;tso allowed 2 56 1;chip allowed 1 2 56;"),
    ("a tso line of a chip file", "02 00 00 00 00 00 00 00", "chip allowed;tso allowed;"),
    ("the last line not ended", EXAMPLE, "source allowed 1 2 56;chip allowed 1 2 56;tso allowed 2 56 1"),
    ("two blanks", EXAMPLE, "source allowed 1 2  56;chip allowed 1 2 56;tso allowed 2 56 1;"),
    ("a leading zero", STALE, "source broken 3 01 2 3 4;chip broken 5 1 2 3 4;tso broken 5 1 2 3 4;"),
    ("the order not the smallest", ONE_SC_FENCE, "source allowed 56 1;chip allowed 56 1;tso allowed 56 1;"),
    ("a refusal of a file that loads", EXAMPLE, "refused 5;"),
];
