//! Worked examples of isb (02, slip 3), derived by hand: exact answers, and answers that must be rejected.

pub const CTRL_ISB: &str = "message_passing_with_dmb_sy_ctrl_link_and_isb";
const ISB_ALONE: &str = "message_passing_with_dmb_sy_and_isb";
const ISB_FIRST: &str = "02 07 03 04 01 04 00 00 | 02 02 00 00 00 01 00 00 | 03 03 06 00 00 00 00 00 | 00 02 00 00 01 01 00 00
    | 05 01 00 00 01 01 00 01 | 06 03 07 00 00 00 00 00 | 07 01 00 00 02 00 00 02 | 00 01 00 00 00 00 00 04
    | 00 01 03 00 | 03 01 3a 00 | 00 05 04 00 | 00 01 38 00";
const ISB_FENCE: &str = "02 03 01 02 03 00 00 00 | 00 03 05 00 00 00 00 00 | 01 03 07 00 00 00 00 01 | 02 01 00 00 00 00 00 02
    | 00 06 03 00 | 00 01 38 00";

/// Files with their answers; where a ring is shown, it is a shortest one.
/// In a comment `..` is 1 W x 1; 2 dmb sy; 3 W y 1, and a thread is written in program order.
pub const ANSWERS: [(&str, &str, &str); 29] = [
    (
        "one isb and no location",
        "02 01 00 00 01 00 00 00 | 00 03 07 00 00 00 00 00",
        "chip allowed 1;",
    ),
    (
        // .. || 4 R y 1; 5 isb, ctrl from 4; 6 R x 0. 1 to 3 by dmb sy, 3 to 4 is rf, 4 to 6 by the isb, 6 to 1 is fr.
        "ctrl into an isb, then a read",
        CTRL_ISB,
        "chip broken 5 1 3 4 6;",
    ),
    (
        // .. || 4 R y 1; 5 R z 0, ctrl from 4; 6 isb; 7 R x 0
        "ctrl is taken on to an isb",
        "02 07 03 04 01 04 00 00 | 02 02 00 00 00 01 00 00 | 03 03 06 00 00 00 00 00 | 00 02 00 00 01 01 00 00
         | 05 01 00 00 01 01 00 01 | 06 01 00 00 02 00 00 02 | 07 03 07 00 00 00 00 00 | 00 01 00 00 00 00 00 04
         | 00 01 03 00 | 03 01 3a 00 | 00 06 04 00 | 00 01 38 00",
        "chip broken 5 1 3 4 7;",
    ),
    (
        // .. || 4 R y 1; 5 R x 0, ctrl from 4: nothing from 4 to 5. dmb sy leads from the initial writes to 3 too.
        "ctrl and no isb",
        "message_passing_with_dmb_sy_and_ctrl_link",
        "chip allowed 2 5 1 56 57 3 4;",
    ),
    (
        // .. || 4 R y 1; 5 isb; 6 R x 0
        "an isb and no dependency",
        ISB_ALONE,
        "chip allowed 2 5 6 1 56 57 3 4;",
    ),
    (
        // .. || 4 R y 1; 5 R x 0; 6 isb, ctrl from 4
        "an isb behind the last read",
        "02 06 02 03 01 04 00 00 | 02 02 00 00 00 01 00 00 | 03 03 06 00 00 00 00 00 | 00 02 00 00 01 01 00 00
         | 05 01 00 00 01 01 00 01 | 06 01 00 00 00 00 00 02 | 00 03 07 00 00 00 00 03 | 00 01 03 00 | 00 01 38 00
         | 00 06 04 00",
        "chip allowed 2 5 1 6 56 57 3 4;",
    ),
    (
        // .. || 4 R y 1; 5 R z 0, addr from 4; 6 isb; 7 R x 0
        "addr, then an isb, then a read",
        "message_passing_with_dmb_sy_addr_link_and_isb",
        "chip broken 5 1 3 4 7;",
    ),
    (
        // .. || 4 R y 1; 5 W z 1, addr from 4; 6 isb; 7 R x 0
        "addr into a write, then an isb, then a read",
        "02 07 03 03 01 04 00 00 | 02 02 00 00 00 01 00 00 | 03 03 06 00 00 00 00 00 | 00 02 00 00 01 01 00 00
         | 05 01 00 00 01 01 00 01 | 06 02 00 00 02 01 00 02 | 07 03 07 00 00 00 00 00 | 00 01 00 00 00 00 00 03
         | 00 01 03 00 | 00 05 04 00 | 00 01 38 00",
        "chip broken 5 1 3 4 7;",
    ),
    (
        // .. || 4 R y 1; 5 isb; 6 R z 0, addr from 4; 7 R x 0: addr then po does not come to the isb.
        "an isb before the access that addr leads to",
        ISB_FIRST,
        "chip allowed 2 5 7 1 56 57 58 3 4 6;",
    ),
    (
        // .. || 4 R y 1; 5 W z 1, data from 4; 6 isb; 7 R x 0: data is not of the clause.
        "data, then an isb",
        "02 07 03 03 01 04 00 00 | 02 02 00 00 00 01 00 00 | 03 03 06 00 00 00 00 00 | 00 02 00 00 01 01 00 00
         | 05 01 00 00 01 01 00 01 | 06 02 00 00 02 01 00 02 | 07 03 07 00 00 00 00 00 | 00 01 00 00 00 00 00 03
         | 00 01 03 00 | 00 04 04 00 | 00 01 38 00",
        "chip allowed 2 6 7 1 56 57 58 3 4 5;",
    ),
    (
        // .. || 4 R y 1; 5 W z 1, data from 4; 6 R z 1, from 5; 7 isb, ctrl from 6; 8 R x 0: 4 to 6 by data, 6 to 8 by the isb.
        "data and rfi before ctrl into an isb",
        "02 08 03 05 01 04 00 00 | 02 02 00 00 00 01 00 00 | 03 03 06 00 00 00 00 00 | 00 02 00 00 01 01 00 00
         | 05 01 00 00 01 01 00 01 | 06 02 00 00 02 01 00 02 | 07 01 00 00 02 01 00 03 | 08 03 07 00 00 00 00 04
         | 00 01 00 00 00 00 00 05 | 00 01 03 00 | 00 04 04 00 | 00 01 05 00 | 00 06 06 00 | 00 01 38 00",
        "chip broken 5 1 3 4 6 8;",
    ),
    (
        // .. || 4 R exclusive y 1; 5 isb, ctrl from 4; 6 R acquire exclusive x 0
        "any read behind an isb",
        "02 06 02 03 01 04 00 00 | 02 02 00 00 00 01 00 00 | 03 03 06 00 00 00 00 00 | 00 02 00 00 01 01 00 00
         | 05 01 00 01 01 01 00 01 | 06 03 07 00 00 00 00 02 | 00 01 01 01 00 00 00 03 | 00 01 03 00 | 00 06 04 00
         | 00 01 38 00",
        "chip broken 5 1 3 4 6;",
    ),
    (
        // 3 R x 0; 2 isb, ctrl from 3; 1 R y 0: 3 comes before 1; nothing orders the isb.
        "ctrl, an isb and a read in an allowed order",
        "02 03 02 03 03 00 00 00 | 00 01 00 00 01 00 00 01 | 01 03 07 00 00 00 00 02 | 02 01 00 00 00 00 00 03
         | 00 01 39 00 | 00 06 03 00 | 00 01 38 00",
        "chip allowed 2 3 1 56 57;",
    ),
    (
        // 4 R x 0; 3 R y 0, addr from 4; 2 isb; 1 R z 0: 4 comes before 3 and 1, but not 3 before 1.
        "addr, an isb and a read in an allowed order",
        "02 04 03 04 04 00 00 00 | 00 01 00 00 02 00 00 01 | 01 03 07 00 00 00 00 00 | 02 01 00 00 01 00 00 02
         | 03 01 00 00 00 00 00 04 | 00 01 3a 00 | 03 01 39 00 | 00 05 04 00 | 00 01 38 00",
        "chip allowed 2 4 1 3 56 57 58;",
    ),
    (
        // 3 R x 0; 2 isb, ctrl from 3; 1 dmb ld: what is ordered is a read, not the isb nor a fence behind it.
        "ctrl, an isb and a fence",
        ISB_FENCE,
        "chip allowed 1 2 3 56;",
    ),
    (
        // 4 R x 0; 3 R y 0, addr from 4; 2 isb; 1 isb
        "addr, an isb and another",
        "02 04 02 03 04 00 00 00 | 00 03 07 00 00 00 00 00 | 01 03 07 00 00 00 00 00 | 02 01 00 00 01 00 00 01
         | 03 01 00 00 00 00 00 03 | 02 01 39 00 | 00 05 04 00 | 00 01 38 00",
        "chip allowed 1 2 4 3 56 57;",
    ),
    (
        // 1 W x 1; 2 isb; 3 W y 1 || 4 R y 1; 5 isb; 6 R x 0
        "message passing with an isb in both threads",
        "02 06 02 02 01 04 00 00 | 02 02 00 00 00 01 00 00 | 03 03 07 00 00 00 00 00 | 00 02 00 00 01 01 00 00
         | 05 01 00 00 01 01 00 01 | 06 03 07 00 00 00 00 00 | 00 01 00 00 00 00 00 02 | 00 01 03 00 | 00 01 38 00",
        "chip allowed 2 3 4 5 6 1 56 57;",
    ),
    (
        // 1 R x 1; 2 isb; 3 W y 1 || 4 R y 1; 5 isb; 6 W x 1
        "load buffering with an isb in both threads",
        "02 06 02 02 01 04 00 00 | 02 01 00 00 00 01 00 01 | 03 03 07 00 00 00 00 00 | 00 02 00 00 01 01 00 00
         | 05 01 00 00 01 01 00 02 | 06 03 07 00 00 00 00 00 | 00 02 00 00 00 01 00 00 | 00 01 06 00 | 00 01 03 00",
        "chip allowed 2 3 4 5 6 1 56 57;",
    ),
    (
        // The same, ctrl 1 to 2 and 4 to 5: ctrl goes on to the writes behind the isb.
        "load buffering with ctrl into an isb in both threads",
        "02 06 02 04 01 04 00 00 | 02 01 00 00 00 01 00 01 | 03 03 07 00 00 00 00 02 | 00 02 00 00 01 01 00 00
         | 05 01 00 00 01 01 00 03 | 06 03 07 00 00 00 00 04 | 00 02 00 00 00 01 00 00 | 00 01 06 00 | 00 06 01 00
         | 00 01 03 00 | 00 06 04 00",
        "chip broken 5 1 3 4 6;",
    ),
    (
        // 1 W x 1; 2 isb; 3 R y 0 || 4 W y 1; 5 isb; 6 R x 0
        "store buffering with an isb in both threads",
        "02 06 02 02 01 04 00 00 | 02 02 00 00 00 01 00 00 | 03 03 07 00 00 00 00 00 | 00 01 00 00 01 00 00 01
         | 05 02 00 00 01 01 00 00 | 06 03 07 00 00 00 00 00 | 00 01 00 00 00 00 00 02 | 00 01 39 00 | 00 01 38 00",
        "chip allowed 2 3 4 5 6 1 56 57;",
    ),
    (
        // 2 ldar x 0; 1 isb
        "ldar before an isb",
        "02 02 01 01 02 00 00 00 | 00 03 07 00 00 00 00 00 | 01 01 01 00 00 00 00 01 | 00 01 38 00",
        "chip allowed 2 1 56;",
    ),
    (
        // 2 isb; 1 stlr x 1
        "an isb before stlr",
        "02 02 01 00 02 00 00 00 | 00 02 02 00 00 01 00 00 | 01 03 07 00 00 00 00 00",
        "chip allowed 2 56 1;",
    ),
    (
        // 3 R x 0; 2 dmb sy; 1 isb
        "dmb sy between a read and an isb",
        "02 03 01 01 03 00 00 00 | 00 03 07 00 00 00 00 00 | 01 03 06 00 00 00 00 00 | 02 01 00 00 00 00 00 01
         | 00 01 38 00",
        "chip allowed 2 3 56 1;",
    ),
    (
        // 3 isb; 2 dmb sy; 1 R x 0
        "dmb sy between an isb and a read",
        "02 03 01 01 03 00 00 00 | 00 01 00 00 00 00 00 01 | 01 03 06 00 00 00 00 00 | 02 03 07 00 00 00 00 00
         | 00 01 38 00",
        "chip allowed 2 3 56 1;",
    ),
    (
        // 3 R x 0; 2 dmb ld; 1 isb
        "dmb ld between a read and an isb",
        "02 03 01 01 03 00 00 00 | 00 03 07 00 00 00 00 00 | 01 03 05 00 00 00 00 00 | 02 01 00 00 00 00 00 01
         | 00 01 38 00",
        "chip allowed 2 3 1 56;",
    ),
    (
        // 3 isb; 2 dmb ld; 1 R x 0: dmb ld orders what stands behind it after reads only.
        "dmb ld between an isb and a read",
        "02 03 01 01 03 00 00 00 | 00 01 00 00 00 00 00 01 | 01 03 05 00 00 00 00 00 | 02 03 07 00 00 00 00 00
         | 00 01 38 00",
        "chip allowed 1 2 3 56;",
    ),
    (
        // 1 W x 1 || 2 W y 1 || 3 R x 1; 4 isb, ctrl from 3; 5 R y 0 || 6 R y 1; 7 isb, ctrl from 6; 8 R x 0
        "independent reads with ctrl into an isb",
        "02 08 02 06 01 02 03 06 | 00 02 00 00 00 01 00 00 | 00 02 00 00 01 01 00 00 | 04 01 00 00 00 01 00 01
         | 05 03 07 00 00 00 00 02 | 00 01 00 00 01 00 00 03 | 07 01 00 00 01 01 00 04 | 08 03 07 00 00 00 00 05
         | 00 01 00 00 00 00 00 06 | 00 01 01 00 | 00 06 03 00 | 00 01 39 00 | 00 01 02 00 | 00 06 06 00
         | 00 01 38 00",
        "chip broken 5 1 3 5 2 6 8;",
    ),
    (
        // The last thread is 6 R y 1; 7 R x 0, ctrl from 6.
        "the same, ctrl without an isb in one thread",
        "02 07 02 06 01 02 03 06 | 00 02 00 00 00 01 00 00 | 00 02 00 00 01 01 00 00 | 04 01 00 00 00 01 00 01
         | 05 03 07 00 00 00 00 02 | 00 01 00 00 01 00 00 03 | 07 01 00 00 01 01 00 04 | 00 01 00 00 00 00 00 05
         | 00 01 01 00 | 00 06 03 00 | 00 01 39 00 | 00 01 02 00 | 06 01 38 00 | 00 06 06 00",
        "chip allowed 4 7 1 3 5 2 6 56 57;",
    ),
    (
        // The last thread is 6 R y 1; 7 R z 0, addr from 6; 8 isb; 9 R x 0.
        "the same, addr before the isb in one thread",
        "02 09 03 07 01 02 03 06 | 00 02 00 00 00 01 00 00 | 00 02 00 00 01 01 00 00 | 04 01 00 00 00 01 00 01
         | 05 03 07 00 00 00 00 02 | 00 01 00 00 01 00 00 03 | 07 01 00 00 01 01 00 04 | 08 01 00 00 02 00 00 05
         | 09 03 07 00 00 00 00 00 | 00 01 00 00 00 00 00 07 | 00 01 01 00 | 00 06 03 00 | 00 01 39 00 | 00 01 02 00
         | 06 01 3a 00 | 00 05 06 00 | 00 01 38 00",
        "chip broken 5 1 3 5 2 6 9;",
    ),
];

/// Wrong answers, each with what is wrong in it.
pub const WRONG: [(&str, &str, &str); 7] = [
    ("the isb in the ring", CTRL_ISB, "chip broken 5 1 3 4 5 6;"),
    ("an allowed order as if no isb were there", CTRL_ISB, "chip allowed 2 5 6 1 56 57 3 4;"),
    ("an isb refused", CTRL_ISB, "refused 5;"),
    ("a ring as if an isb needed no dependency", ISB_ALONE, "chip broken 5 1 3 4 6;"),
    ("a ring as if an isb could stand before the access", ISB_FIRST, "chip broken 5 1 3 4 7;"),
    ("a fence ordered by an isb", ISB_FENCE, "chip allowed 2 3 1 56;"),
    ("an isb ordered by ctrl", ISB_FENCE, "chip allowed 1 3 2 56;"),
];
