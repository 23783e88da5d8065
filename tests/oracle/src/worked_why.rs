//! Worked examples of why, derived by hand from the models' pages: answers with the clause of each step, and answers that must be rejected.

use crate::worked::{EXAMPLE, NEWER_FIRST, ONE_EVENT, STALE};
use crate::worked_isb::CTRL_ISB;
use crate::worked_rings::OLDER_LAST;
use crate::worked_tso::RELEASE_ACQUIRE;

/// 1 W x 1; 2 F SC; 3 R y 0 || 4 W y 1; 5 F SC; 6 R x 0.
const SC_FENCES: &str = "store_buffering_with_sc_fences";
/// 1 W x 1; 5 F release; 2 W y 1 || 3 R y 1; 6 F acquire; 4 R x 0.
const BOTH_FENCES: &str = "message_passing_with_both_fences";
/// 1 R y 1; 2 W z 1, data from 1 || 3 R z 1; 4 R exclusive x 0; 5 W release strong x 1, rmw; 6 W y 1.
const STRONG: &str = "strong_release_pair_before_a_write";
/// 1 R x 1; 2 W y 1, data from 1 || 3 R y 1; 4 W x 1, data from 3.
const CHIP_DATA: &str = "02 04 02 04 01 03 00 00 | 02 01 00 00 00 01 00 01 | 00 02 00 00 01 01 00 02 | 04 01 00 00 01 01 00 03
    | 00 02 00 00 00 01 00 04 | 00 01 04 00 | 00 04 01 00 | 00 01 02 00 | 00 04 03 00";
/// 1 R exclusive x 0; 2 W x 1, rmw || 3 R exclusive x 0; 4 W x 2, rmw. co leads from 2 to 4.
const TWO_PAIRS: &str = "two_pairs_both_reading_the_initial_write";
const NO_SOURCE: &str = "02 01 01 00 01 00 00 00 | 00 01 00 00 00 00 00 00";
const UNORDERED: &str = "02 02 01 00 01 02 00 00 | 00 02 00 00 00 01 00 00 | 00 02 00 00 00 02 00 00";

/// Files with their answers; of several shortest rings each is right.
pub const ANSWERS: [(&str, &str, &str); 15] = [
    (
        // psc: 2 hb 3, fr 4, hb 5; the chip's fences are dmb sy.
        "store buffering with SC fences",
        SC_FENCES,
        "source broken 5 2 5/source 2 5 psc/source 5 2 psc/\
         chip broken 5 1 3 4 6/chip 1 3 po;[Fsy];po/chip 3 4 fre/chip 4 6 po;[Fsy];po/chip 6 1 fre/\
         tso broken 5 1 2 3 4 5 6/tso 1 2 node;po;full/tso 2 3 full;po;node/tso 3 4 fr/tso 4 5 node;po;full/tso 5 6 full;po;node/\
         tso 6 1 fr/",
    ),
    (
        // sw comes before rf, and fr closes the ring.
        "release and acquire, and a stale read",
        STALE,
        "source broken 3 1 2 3 4/source 1 2 po/source 2 3 sw/source 3 4 po/source 4 1 fr/\
         chip broken 5 1 2 3 4/chip 1 2 po;[Wrel];coi?/chip 2 3 rfe/chip 3 4 [Racq];po/chip 4 1 fre/\
         tso broken 5 1 2 3 4/tso 1 2 [W];po;[W]/tso 2 3 rfe/tso 3 4 [R];po;([R]|[W])/tso 4 1 fr/",
    ),
    (
        // The ring of the source line does not go by number.
        "a release and an acquire fence",
        BOTH_FENCES,
        "source broken 3 1 5 6 4/source 1 5 po/source 5 6 sw/source 6 4 po/source 4 1 fr/\
         chip broken 5 1 2 3 4/chip 1 2 po;[Fsy];po/chip 2 3 rfe/chip 3 4 [R];po;[Fld];po/chip 4 1 fre/\
         tso broken 5 1 2 3 4/tso 1 2 [W];po;[W]/tso 2 3 rfe/tso 3 4 [R];po;([R]|[W])/tso 4 1 fr/",
    ),
    (
        // The step of a ring of one event leads from it to itself.
        "a ring of one event",
        ONE_EVENT,
        "source broken 3 2/source 2 2 sw/chip broken 3 1 3/chip 1 3 po-loc/chip 3 1 rf/tso broken 3 1 3/tso 1 3 po-loc/tso 3 1 rf/",
    ),
    (
        "a newer read before an older",
        NEWER_FIRST,
        "source broken 3 3 4/source 3 4 po/source 4 3 fr;rf/chip broken 3 2 3 4/chip 2 3 rf/chip 3 4 po-loc/chip 4 2 fr/\
         tso broken 3 2 3 4/tso 2 3 rf/tso 3 4 po-loc/tso 4 2 fr/",
    ),
    (
        "another ring in each line",
        OLDER_LAST,
        "source broken 3 2 4/source 2 4 po/source 4 2 fr;rf/chip broken 3 1 3 4/chip 1 3 rf/chip 3 4 po-loc/chip 4 1 fr/\
         tso broken 3 1 2 4/tso 1 2 rf/tso 2 4 po-loc/tso 4 1 fr/",
    ),
    (
        // The chip has a dmb ld behind 5.
        "a strong release write",
        STRONG,
        "source broken 5 1 2 3 5 6/source 1 2 ppo/source 2 3 rfe/source 3 5 po;[Wrel]/source 5 6 [Wstrong];po;[W]/source 6 1 rfe/\
         chip broken 5 1 2 3 6/chip 1 2 (addr|data);rfi?/chip 2 3 rfe/chip 3 6 [R];po;[Fld];po/chip 6 1 rfe/\
         tso broken 5 1 2 3 6/tso 1 2 [R];po;([R]|[W])/tso 2 3 rfe/tso 3 6 [R];po;([R]|[W])/tso 6 1 rfe/",
    ),
    (
        // data to a write is of two clauses.
        "data on the chip",
        CHIP_DATA,
        "chip broken 5 1 2 3 4/chip 1 2 (addr|data);rfi?/chip 2 3 rfe/chip 3 4 (addr|data);rfi?/chip 4 1 rfe/",
    ),
    (
        "ctrl into an isb",
        CTRL_ISB,
        "chip broken 5 1 3 4 6/chip 1 3 po;[Fsy];po/chip 3 4 rfe/chip 4 6 (ctrl|addr;po);[Fisb];po;[R]/chip 6 1 fre/",
    ),
    (
        // Nothing under the lines that are allowed.
        "a broken line between two that are allowed",
        RELEASE_ACQUIRE,
        "source allowed 2 4 56 57 1 3/chip broken 5 1 2 3 4/chip 1 2 [Wrel];po;[Racq]/chip 2 3 fre/chip 3 4 [Wrel];po;[Racq]/chip 4 1 fre/\
         tso allowed 2 4 56 57 1 3/",
    ),
    ("broken 4 has no ring", TWO_PAIRS, "source broken 4 3 4/chip broken 4 3 4/tso broken 4 3 4/"),
    ("broken 1 has no ring", NO_SOURCE, "chip broken 1 1/"),
    ("broken 2 has no ring", UNORDERED, "chip broken 2 1 2/"),
    ("the example of 01", EXAMPLE, "source allowed 1 2 56/chip allowed 1 2 56/tso allowed 2 56 1/"),
    ("a file of another kind", "03 00 00 00 00 00 00 00", "refused 2/"),
];

/// Wrong answers, each with the reason for which it is rejected.
pub const WRONG: [(&str, &str, &str, &str); 36] = [
    (
        "a later clause where an earlier leads, of dob",
        CHIP_DATA,
        "chip broken 5 1 2 3 4/chip 1 2 (ctrl|data);[W];coi?/chip 2 3 rfe/chip 3 4 (addr|data);rfi?/chip 4 1 rfe/",
        "`chip 1 2 (ctrl|data);[W];coi?`, where `chip 1 2 (addr|data);rfi?` is due",
    ),
    (
        "a later clause where an earlier leads, of eco",
        STALE,
        "source broken 3 1 2 3 4/source 1 2 po/source 2 3 rf/source 3 4 po/source 4 1 fr/\
         chip broken 5 1 2 3 4/chip 1 2 po;[Wrel];coi?/chip 2 3 rfe/chip 3 4 [Racq];po/chip 4 1 fre/\
         tso broken 5 1 2 3 4/tso 1 2 [W];po;[W]/tso 2 3 rfe/tso 3 4 [R];po;([R]|[W])/tso 4 1 fr/",
        "`source 2 3 rf`, where `source 2 3 sw` is due",
    ),
    (
        "a clause that leads nowhere here",
        CTRL_ISB,
        "chip broken 5 1 3 4 6/chip 1 3 po;[Fsy];po/chip 3 4 rfe/chip 4 6 [R];po;[Fld];po/chip 6 1 fre/",
        "`chip 4 6 [R];po;[Fld];po`, where `chip 4 6 (ctrl|addr;po);[Fisb];po;[R]` is due",
    ),
    (
        "the closing step named as another",
        NEWER_FIRST,
        "source broken 3 3 4/source 3 4 po/source 4 3 po/chip broken 3 2 3 4/chip 2 3 rf/chip 3 4 po-loc/chip 4 2 fr/\
         tso broken 3 2 3 4/tso 2 3 rf/tso 3 4 po-loc/tso 4 2 fr/",
        "`source 4 3 po`, where `source 4 3 fr;rf` is due",
    ),
    (
        "another step named as the closing one",
        NEWER_FIRST,
        "source broken 3 3 4/source 3 4 fr;rf/source 4 3 fr;rf/chip broken 3 2 3 4/chip 2 3 rf/chip 3 4 po-loc/chip 4 2 fr/\
         tso broken 3 2 3 4/tso 2 3 rf/tso 3 4 po-loc/tso 4 2 fr/",
        "`source 3 4 fr;rf`, where `source 3 4 po` is due",
    ),
    (
        "eco for its part",
        NEWER_FIRST,
        "source broken 3 3 4/source 3 4 po/source 4 3 eco/chip broken 3 2 3 4/chip 2 3 rf/chip 3 4 po-loc/chip 4 2 fr/\
         tso broken 3 2 3 4/tso 2 3 rf/tso 3 4 po-loc/tso 4 2 fr/",
        "`source 4 3 eco`, where `source 4 3 fr;rf` is due",
    ),
    (
        "a name of rule 5's list under rule 3",
        NEWER_FIRST,
        "source broken 3 3 4/source 3 4 po/source 4 3 fr;rf/chip broken 3 2 3 4/chip 2 3 rfe/chip 3 4 po-loc/chip 4 2 fr/\
         tso broken 3 2 3 4/tso 2 3 rf/tso 3 4 po-loc/tso 4 2 fr/",
        "`chip 2 3 rfe`, where `chip 2 3 rf` is due",
    ),
    (
        "a name of IMM's list under ARMv8's rule 3",
        ONE_EVENT,
        "source broken 3 2/source 2 2 sw/chip broken 3 1 3/chip 1 3 po/chip 3 1 rf/tso broken 3 1 3/tso 1 3 po-loc/tso 3 1 rf/",
        "`chip 1 3 po`, where `chip 1 3 po-loc` is due",
    ),
    (
        "a name of ARMv8's list under x86-TSO's rule 5",
        SC_FENCES,
        "source broken 5 2 5/source 2 5 psc/source 5 2 psc/\
         chip broken 5 1 3 4 6/chip 1 3 po;[Fsy];po/chip 3 4 fre/chip 4 6 po;[Fsy];po/chip 6 1 fre/\
         tso broken 5 1 2 3 4 5 6/tso 1 2 node;po;full/tso 2 3 full;po;node/tso 3 4 fr/tso 4 5 node;po;full/tso 5 6 full;po;node/\
         tso 6 1 fre/",
        "`tso 6 1 fre`, where `tso 6 1 fr` is due",
    ),
    (
        "a name of x86-TSO's list under ARMv8's rule 5",
        CTRL_ISB,
        "chip broken 5 1 3 4 6/chip 1 3 po;[Fsy];po/chip 3 4 rfe/chip 4 6 (ctrl|addr;po);[Fisb];po;[R]/chip 6 1 fr/",
        "`chip 6 1 fr`, where `chip 6 1 fre` is due",
    ),
    (
        "into and out of a fence exchanged",
        SC_FENCES,
        "source broken 5 2 5/source 2 5 psc/source 5 2 psc/\
         chip broken 5 1 3 4 6/chip 1 3 po;[Fsy];po/chip 3 4 fre/chip 4 6 po;[Fsy];po/chip 6 1 fre/\
         tso broken 5 1 2 3 4 5 6/tso 1 2 full;po;node/tso 2 3 node;po;full/tso 3 4 fr/tso 4 5 node;po;full/tso 5 6 full;po;node/\
         tso 6 1 fr/",
        "`tso 1 2 full;po;node`, where `tso 1 2 node;po;full` is due",
    ),
    (
        "the number of a clause",
        CHIP_DATA,
        "chip broken 5 1 2 3 4/chip 1 2 4/chip 2 3 1/chip 3 4 4/chip 4 1 1/",
        "`chip 1 2 4`, where `chip 1 2 (addr|data);rfi?` is due",
    ),
    (
        "no clause",
        CHIP_DATA,
        "chip broken 5 1 2 3 4/chip 1 2/chip 2 3/chip 3 4/chip 4 1/",
        "`chip 1 2`, where `chip 1 2 (addr|data);rfi?` is due",
    ),
    (
        "the events of a step exchanged",
        CTRL_ISB,
        "chip broken 5 1 3 4 6/chip 3 1 po;[Fsy];po/chip 3 4 rfe/chip 4 6 (ctrl|addr;po);[Fisb];po;[R]/chip 6 1 fre/",
        "`chip 3 1 po;[Fsy];po`, where `chip 1 3 po;[Fsy];po` is due",
    ),
    (
        "the last step not to the first event",
        CTRL_ISB,
        "chip broken 5 1 3 4 6/chip 1 3 po;[Fsy];po/chip 3 4 rfe/chip 4 6 (ctrl|addr;po);[Fisb];po;[R]/chip 6 3 fre/",
        "`chip 6 3 fre`, where `chip 6 1 fre` is due",
    ),
    (
        "the first step left out",
        CHIP_DATA,
        "chip broken 5 1 2 3 4/chip 2 3 rfe/chip 3 4 (addr|data);rfi?/chip 4 1 rfe/",
        "`chip 2 3 rfe`, where `chip 1 2 (addr|data);rfi?` is due",
    ),
    (
        "a step between left out",
        CHIP_DATA,
        "chip broken 5 1 2 3 4/chip 1 2 (addr|data);rfi?/chip 3 4 (addr|data);rfi?/chip 4 1 rfe/",
        "`chip 3 4 (addr|data);rfi?`, where `chip 2 3 rfe` is due",
    ),
    (
        "the last step left out",
        CHIP_DATA,
        "chip broken 5 1 2 3 4/chip 1 2 (addr|data);rfi?/chip 2 3 rfe/chip 3 4 (addr|data);rfi?/",
        "no line, where `chip 4 1 rfe` is due",
    ),
    (
        "the last step of a line before another left out",
        ONE_EVENT,
        "source broken 3 2/chip broken 3 1 3/chip 1 3 po-loc/chip 3 1 rf/tso broken 3 1 3/tso 1 3 po-loc/tso 3 1 rf/",
        "`chip broken 3 1 3`, where `source 2 2 sw` is due",
    ),
    ("no step", CHIP_DATA, "chip broken 5 1 2 3 4/", "no line, where `chip 1 2 (addr|data);rfi?` is due"),
    (
        "a step twice",
        CHIP_DATA,
        "chip broken 5 1 2 3 4/chip 1 2 (addr|data);rfi?/chip 1 2 (addr|data);rfi?/chip 2 3 rfe/chip 3 4 (addr|data);rfi?/chip 4 1 rfe/",
        "`chip 1 2 (addr|data);rfi?`, where `chip 2 3 rfe` is due",
    ),
    (
        "a step twice, the last",
        CHIP_DATA,
        "chip broken 5 1 2 3 4/chip 1 2 (addr|data);rfi?/chip 2 3 rfe/chip 3 4 (addr|data);rfi?/chip 4 1 rfe/chip 4 1 rfe/",
        "`chip 4 1 rfe` is a line too many",
    ),
    (
        "the steps from the second event on",
        CHIP_DATA,
        "chip broken 5 1 2 3 4/chip 2 3 rfe/chip 3 4 (addr|data);rfi?/chip 4 1 rfe/chip 1 2 (addr|data);rfi?/",
        "`chip 2 3 rfe`, where `chip 1 2 (addr|data);rfi?` is due",
    ),
    (
        "the steps of another ring than the line's",
        OLDER_LAST,
        "source broken 3 2 4/source 3 4 po/source 4 3 fr;rf/chip broken 3 1 3 4/chip 1 3 rf/chip 3 4 po-loc/chip 4 1 fr/\
         tso broken 3 1 2 4/tso 1 2 rf/tso 2 4 po-loc/tso 4 1 fr/",
        "`source 3 4 po`, where `source 2 4 po` is due",
    ),
    (
        "a ring that is not a shortest one",
        OLDER_LAST,
        "source broken 3 2 3 4/source 2 3 po/source 3 4 po/source 4 2 fr;rf/chip broken 3 1 3 4/chip 1 3 rf/chip 3 4 po-loc/chip 4 1 fr/\
         tso broken 3 1 2 4/tso 1 2 rf/tso 2 4 po-loc/tso 4 1 fr/",
        "the source ring: 3 events, where a ring of 2 may be shown",
    ),
    (
        "the steps of another model",
        CHIP_DATA,
        "chip broken 5 1 2 3 4/source 1 2 (addr|data);rfi?/source 2 3 rfe/source 3 4 (addr|data);rfi?/source 4 1 rfe/",
        "`source 1 2 (addr|data);rfi?`, where `chip 1 2 (addr|data);rfi?` is due",
    ),
    (
        "all steps behind all lines",
        ONE_EVENT,
        "source broken 3 2/chip broken 3 1 3/tso broken 3 1 3/source 2 2 sw/chip 1 3 po-loc/chip 3 1 rf/tso 1 3 po-loc/tso 3 1 rf/",
        "`chip broken 3 1 3`, where `source 2 2 sw` is due",
    ),
    (
        "a step under an allowed line, the last",
        EXAMPLE,
        "source allowed 1 2 56/chip allowed 1 2 56/tso allowed 2 56 1/tso 56 1 [W];po;[W]/",
        "`tso 56 1 [W];po;[W]` is a line too many",
    ),
    (
        "a step under an allowed line, the first",
        EXAMPLE,
        "source allowed 1 2 56/source 1 2 po/chip allowed 1 2 56/tso allowed 2 56 1/",
        "the chip line differs",
    ),
    (
        "a step under broken 4",
        TWO_PAIRS,
        "source broken 4 3 4/source 3 4 ppo/chip broken 4 3 4/tso broken 4 3 4/",
        "the chip line differs",
    ),
    ("a step under broken 1", NO_SOURCE, "chip broken 1 1/chip 1 1 rf/", "`chip 1 1 rf` is a line too many"),
    ("a step under a refusal", "03 00 00 00 00 00 00 00", "refused 2/chip 1 2 rfe/", "another refusal or none"),
    (
        "an empty line",
        NO_SOURCE,
        "chip broken 1 1//",
        "`` is a line too many",
    ),
    ("the last line not ended", NO_SOURCE, "chip broken 1 1", "the last line is not ended"),
    (
        "two blanks",
        CHIP_DATA,
        "chip broken 5 1 2 3 4/chip 1 2  (addr|data);rfi?/chip 2 3 rfe/chip 3 4 (addr|data);rfi?/chip 4 1 rfe/",
        "`chip 1 2  (addr|data);rfi?`, where `chip 1 2 (addr|data);rfi?` is due",
    ),
    (
        "a leading zero",
        CHIP_DATA,
        "chip broken 5 1 2 3 4/chip 1 02 (addr|data);rfi?/chip 2 3 rfe/chip 3 4 (addr|data);rfi?/chip 4 1 rfe/",
        "`chip 1 02 (addr|data);rfi?`, where `chip 1 2 (addr|data);rfi?` is due",
    ),
];
