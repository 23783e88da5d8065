//! Worked examples of x86-TSO (02, slip 6), derived by hand: tso lines, and tso lines that must be rejected.

use crate::worked::{NEWER_FIRST, STALE};

const WRITE_READ: &str = "01 02 02 01 02 00 00 00 | 00 01 00 00 01 00 00 01 | 01 02 00 00 00 01 00 00 | 00 01 39 00";
const ONE_FENCE: &str =
    "01 05 02 02 01 04 00 00 | 02 02 00 00 00 01 00 00 | 03 03 04 00 00 00 00 00 | 00 01 00 00 01 00 00 01 | 05 02 00 00 01 01 00 00
     | 00 01 00 00 00 00 00 02 | 00 01 39 00 | 00 01 38 00";
const SC_SC: &str = "01 02 00 00 02 00 00 00 | 00 03 04 00 00 00 00 00 | 01 03 04 00 00 00 00 00";
const READ_SC_READ: &str =
    "01 03 02 02 01 00 00 00 | 02 01 00 00 00 00 00 01 | 03 03 04 00 00 00 00 00 | 00 01 00 00 01 00 00 02 | 00 01 38 00
     | 00 01 39 00";
const TWO_FENCES: &str =
    "01 07 02 02 01 05 00 00 | 02 02 00 00 00 01 00 00 | 03 03 04 00 00 00 00 00 | 04 03 04 00 00 00 00 00 | 00 01 00 00 01 00 00 01
     | 06 02 00 00 01 01 00 00 | 07 03 04 00 00 00 00 00 | 00 01 00 00 00 00 00 02 | 00 01 39 00 | 00 01 38 00";
const PAST_FENCES: &str =
    "01 06 02 02 01 04 00 00 | 02 02 00 00 00 01 00 00 | 03 03 04 00 00 00 00 00 | 00 02 00 00 01 01 00 00 | 05 01 00 00 01 01 00 01
     | 06 03 04 00 00 00 00 00 | 00 01 00 00 00 00 00 02 | 00 01 03 00 | 00 01 38 00";
const BY_PAIRS: &str =
    "01 08 04 06 01 05 00 00 | 02 02 00 00 00 01 00 00 | 03 01 00 01 02 00 00 01 | 04 02 00 00 02 01 00 02 | 00 01 00 00 01 00 00 03
     | 06 02 00 00 01 01 00 00 | 07 01 00 01 03 00 00 04 | 08 02 00 00 03 01 00 05 | 00 01 00 00 00 00 00 06 | 00 01 3a 00
     | 00 03 02 00 | 00 01 39 00 | 00 01 3b 00 | 00 03 06 00 | 00 01 38 00";
const EXCHANGES: &str = "store_buffering_with_pairs";
const READ_BY_PAIRS: &str =
    "01 06 02 06 01 04 00 00 | 02 02 00 00 00 01 00 01 | 03 01 00 01 01 00 00 02 | 00 02 00 00 01 02 00 03 | 05 02 00 00 01 01 00 04
     | 06 01 00 01 00 00 00 05 | 00 02 00 00 00 02 00 06 | 00 02 06 00 | 00 01 39 00 | 00 03 02 00 | 00 02 03 00 | 00 01 38 00
     | 00 03 05 00";
const WRITE_PAIR: &str =
    "01 03 02 02 03 00 00 00 | 02 01 00 01 01 00 00 01 | 00 02 00 00 01 01 00 02 | 01 02 00 00 00 01 00 00 | 00 01 39 00
     | 00 03 01 00";
const PAIR_READ: &str =
    "01 03 02 03 02 00 00 00 | 00 01 00 00 01 00 00 01 | 03 01 00 01 00 00 00 02 | 01 02 00 00 00 01 00 03 | 00 01 39 00
     | 00 01 38 00 | 00 03 02 00";
const PAIR: &str = "01 02 02 02 01 00 00 00 | 02 01 00 01 00 00 00 01 | 00 02 00 00 00 01 00 02 | 00 01 38 00 | 00 03 01 00";
const PLAIN_READ: &str = "01 01 02 01 01 00 00 00 | 00 01 00 00 00 00 00 01 | 00 01 38 00";
const FAILED: &str =
    "01 06 03 04 01 04 00 00 | 02 02 00 00 00 01 00 00 | 03 01 00 01 02 00 00 01 | 00 01 00 00 01 00 00 02 | 05 02 00 00 01 01 00 00
     | 06 01 00 01 02 00 00 03 | 00 01 00 00 00 00 00 04 | 00 01 3a 00 | 00 01 39 00 | 00 01 3a 00 | 00 01 38 00";
const FENCES_1: &str =
    "01 06 02 02 01 04 00 00 | 02 02 00 00 00 01 00 00 | 03 03 01 00 00 00 00 00 | 00 01 00 00 01 00 00 01 | 05 02 00 00 01 01 00 00
     | 06 03 01 00 00 00 00 00 | 00 01 00 00 00 00 00 02 | 00 01 39 00 | 00 01 38 00";
const FENCES_2: &str =
    "01 06 02 02 01 04 00 00 | 02 02 00 00 00 01 00 00 | 03 03 02 00 00 00 00 00 | 00 01 00 00 01 00 00 01 | 05 02 00 00 01 01 00 00
     | 06 03 02 00 00 00 00 00 | 00 01 00 00 00 00 00 02 | 00 01 39 00 | 00 01 38 00";
const FENCES_3: &str =
    "01 06 02 02 01 04 00 00 | 02 02 00 00 00 01 00 00 | 03 03 03 00 00 00 00 00 | 00 01 00 00 01 00 00 01 | 05 02 00 00 01 01 00 00
     | 06 03 03 00 00 00 00 00 | 00 01 00 00 00 00 00 02 | 00 01 39 00 | 00 01 38 00";
const BEFORE_SC: &str =
    "01 06 00 00 02 04 06 00 | 00 03 04 00 00 00 00 00 | 01 03 01 00 00 00 00 00 | 00 03 04 00 00 00 00 00 | 03 03 02 00 00 00 00 00
     | 00 03 04 00 00 00 00 00 | 05 03 03 00 00 00 00 00";
const BEHIND_SC: &str =
    "01 06 00 00 02 04 06 00 | 00 03 01 00 00 00 00 00 | 01 03 04 00 00 00 00 00 | 00 03 02 00 00 00 00 00 | 03 03 04 00 00 00 00 00
     | 00 03 03 00 00 00 00 00 | 05 03 04 00 00 00 00 00";
const BEHIND_PAIRS: &str =
    "01 09 03 06 02 05 08 00 | 00 03 01 00 00 00 00 00 | 03 01 00 01 00 00 00 01 | 01 02 00 00 00 01 00 02 | 00 03 02 00 00 00 00 00
     | 06 01 00 01 01 00 00 03 | 04 02 00 00 01 01 00 04 | 00 03 03 00 00 00 00 00 | 09 01 00 01 02 00 00 05
     | 07 02 00 00 02 01 00 06 | 00 01 38 00 | 00 03 02 00 | 00 01 39 00 | 00 03 05 00 | 00 01 3a 00 | 00 03 08 00";
const PAST_BOTH: &str =
    "01 08 02 06 01 05 00 00 | 02 01 00 01 00 00 00 01 | 03 02 00 00 00 01 00 02 | 04 03 03 00 00 00 00 00 | 00 01 00 00 01 00 00 03
     | 06 01 00 01 01 00 00 04 | 07 02 00 00 01 01 00 05 | 08 03 03 00 00 00 00 00 | 00 01 00 00 00 00 00 06 | 00 01 38 00
     | 00 03 01 00 | 00 01 39 00 | 00 01 39 00 | 00 03 05 00 | 00 01 38 00";
const PASSED: &str =
    "01 06 02 02 01 04 00 00 | 02 02 00 00 00 01 00 00 | 03 03 02 00 00 00 00 00 | 00 02 00 00 01 01 00 00 | 05 01 00 00 01 01 00 01
     | 06 03 01 00 00 00 00 00 | 00 01 00 00 00 00 00 02 | 00 01 03 00 | 00 01 38 00";
const FORWARDED: &str = "store_buffering_with_forwarding";
const FORWARDED_FENCED: &str =
    "01 08 02 04 01 05 00 00 | 02 02 00 00 00 01 00 00 | 03 03 04 00 00 00 00 00 | 04 01 00 00 00 01 00 01 | 00 01 00 00 01 00 00 02
     | 06 02 00 00 01 01 00 00 | 07 03 04 00 00 00 00 00 | 08 01 00 00 01 01 00 03 | 00 01 00 00 00 00 00 04 | 00 01 01 00
     | 00 01 39 00 | 00 01 05 00 | 00 01 38 00";
const FORWARDED_PAIRS: &str =
    "01 08 02 08 01 05 00 00 | 02 02 00 00 00 01 00 00 | 03 01 00 01 00 01 00 01 | 04 02 00 00 00 02 00 02 | 00 01 00 00 01 00 00 04
     | 06 02 00 00 01 01 00 00 | 07 01 00 01 01 01 00 05 | 08 02 00 00 01 02 00 06 | 00 01 00 00 00 00 00 08 | 00 01 01 00
     | 03 02 01 00 | 00 03 02 00 | 00 01 39 00 | 00 01 05 00 | 07 02 05 00 | 00 03 06 00 | 00 01 38 00";
/// 1 W release x 1; 2 R acquire y 0 || 3 W release y 1; 4 R acquire x 0.
pub const RELEASE_ACQUIRE: &str = "store_buffering_with_release_and_acquire";

/// Source files with their tso lines; where a ring is shown, it is a shortest one, and of several each is right.
/// In a comment a thread is written in program order.
pub const LINES: [(&str, &str, &str); 55] = [
    (
        // 2 R x 0; 1 R y 0
        "read to read",
        "01 02 02 02 02 00 00 00 | 00 01 00 00 01 00 00 01 | 01 01 00 00 00 00 00 02 | 00 01 39 00 | 00 01 38 00",
        "tso allowed 2 1 56 57",
    ),
    (
        // 2 R x 0; 1 W y 1. The initial writes come before a write.
        "read to write",
        "01 02 02 01 02 00 00 00 | 00 02 00 00 01 01 00 00 | 01 01 00 00 00 00 00 01 | 00 01 38 00",
        "tso allowed 2 56 57 1",
    ),
    (
        // 2 W x 1; 1 W y 1
        "write to write",
        "01 02 02 00 02 00 00 00 | 00 02 00 00 01 01 00 00 | 01 02 00 00 00 01 00 00",
        "tso allowed 56 57 2 1",
    ),
    (
        // 2 W x 1; 1 R y 0
        "write to read is no step",
        WRITE_READ,
        "tso allowed 1 56 57 2",
    ),
    (
        // 2 W x 1; 1 R x 1. rf within a thread is none either.
        "write to a read of it",
        "01 02 01 01 02 00 00 00 | 00 01 00 00 00 01 00 01 | 01 02 00 00 00 01 00 00 | 00 01 02 00",
        "tso allowed 1 56 2",
    ),
    (
        // 1 W x 1 || 2 W y 1 || 3 R x 1; 4 R y 0 || 5 R y 1; 6 R x 0. rfe to 3 and 5, R-R in both threads, fr from 4 to 2 and from 6 to
        // 1.
        "independent reads: read to read decides",
        "01 06 02 04 01 02 03 05 | 00 02 00 00 00 01 00 00 | 00 02 00 00 01 01 00 00 | 04 01 00 00 00 01 00 01
         | 00 01 00 00 01 00 00 02 | 06 01 00 00 01 01 00 03 | 00 01 00 00 00 00 00 04 | 00 01 01 00 | 00 01 39 00 | 00 01 02 00
         | 00 01 38 00",
        "tso broken 5 1 3 4 2 5 6",
    ),
    (
        // 1 R x 1; 2 W y 1 || 3 R y 1; 4 W z 1 || 5 R z 1; 6 W x 1. R-W and rfe in turns.
        "load buffering of three threads: read to write decides",
        "01 06 03 03 01 03 05 00 | 02 01 00 00 00 01 00 01 | 00 02 00 00 01 01 00 00 | 04 01 00 00 01 01 00 02
         | 00 02 00 00 02 01 00 00 | 06 01 00 00 02 01 00 03 | 00 02 00 00 00 01 00 00 | 00 01 06 00 | 00 01 02 00 | 00 01 04 00",
        "tso broken 5 1 2 3 4 5 6",
    ),
    (
        // 1 W x 1, co from 4; 2 W y 2 || 3 W y 1, co from 2; 4 W x 2. W-W and co in turns.
        "two threads of two writes: write to write decides",
        "01 04 02 02 01 03 00 00 | 02 02 00 00 00 01 00 01 | 00 02 00 00 01 02 00 00 | 04 02 00 00 01 01 00 02
         | 00 02 00 00 00 02 00 00 | 00 02 04 00 | 00 02 02 00",
        "tso broken 5 1 2 3 4",
    ),
    (
        // 1 W x 2, co from 4; 2 W y 1 || 3 R y 1; 4 W x 1. W-W, rfe, R-W, co.
        "message passing closed by co",
        "01 04 02 02 01 03 00 00 | 02 02 00 00 00 02 00 01 | 00 02 00 00 01 01 00 00 | 04 01 00 00 01 01 00 02
         | 00 02 00 00 00 01 00 00 | 00 02 04 00 | 00 01 02 00",
        "tso broken 5 1 2 3 4",
    ),
    (
        // 1 W x 1; 2 W y 1 || 3 W y 2, co from 2; 4 R x 0. W-W, co and fr, but no step from 3 to 4.
        "two writes, then by co a write and a read",
        "01 04 02 02 01 03 00 00 | 02 02 00 00 00 01 00 00 | 00 02 00 00 01 01 00 00 | 04 02 00 00 01 02 00 01
         | 00 01 00 00 00 00 00 02 | 00 02 02 00 | 00 01 38 00",
        "tso allowed 4 56 57 1 2 3",
    ),
    (
        // 1 W x 1; 2 W y 1 || 3 W y 2, co from 2; 4 F SC; 5 R x 0
        "the same with an SC fence",
        "01 05 02 02 01 03 00 00 | 02 02 00 00 00 01 00 00 | 00 02 00 00 01 01 00 00 | 04 02 00 00 01 02 00 01
         | 05 03 04 00 00 00 00 00 | 00 01 00 00 00 00 00 02 | 00 02 02 00 | 00 01 38 00",
        "tso broken 5 1 2 3 4 5",
    ),
    (
        // 1 W x 1; 2 F SC; 3 R y 0 || 4 W y 1; 5 R x 0. fr from 3 to 4 and from 5 to 1; no step from 4 to 5.
        "store buffering with an SC fence in one thread",
        ONE_FENCE,
        "tso allowed 5 56 57 1 2 3 4",
    ),
    (
        // 1 F SC; 2 W x 1; 3 R y 0 || 4 F SC; 5 W y 1; 6 R x 0. 3 comes before 5, and 6 before 2.
        "store buffering with an SC fence before each write",
        "01 06 02 02 01 04 00 00 | 02 03 04 00 00 00 00 00 | 03 02 00 00 00 01 00 00 | 00 01 00 00 01 00 00 01
         | 05 03 04 00 00 00 00 00 | 06 02 00 00 01 01 00 00 | 00 01 00 00 00 00 00 02 | 00 01 39 00 | 00 01 38 00",
        "tso allowed 56 57 1 3 4 5 6 2",
    ),
    (
        // 1 W x 1; 2 R y 0; 3 F SC || 4 W y 1; 5 R x 0; 6 F SC
        "store buffering with an SC fence behind each read",
        "01 06 02 02 01 04 00 00 | 02 02 00 00 00 01 00 00 | 03 01 00 00 01 00 00 01 | 00 03 04 00 00 00 00 00
         | 05 02 00 00 01 01 00 00 | 06 01 00 00 00 00 00 02 | 00 03 04 00 00 00 00 00 | 00 01 39 00 | 00 01 38 00",
        "tso allowed 2 5 56 57 1 3 4 6",
    ),
    (
        // 2 F SC; 1 F SC
        "an SC fence before another",
        SC_SC,
        "tso allowed 2 1",
    ),
    (
        // 3 R x 0; 2 F SC; 1 W x 1
        "a read, an SC fence and a write",
        "01 03 01 01 03 00 00 00 | 00 02 00 00 00 01 00 00 | 01 03 04 00 00 00 00 00 | 02 01 00 00 00 00 00 01 | 00 01 38 00",
        "tso allowed 3 56 2 1",
    ),
    (
        // 1 R x 0; 2 F SC; 3 R y 0. The initial writes come before the fence, and before no read.
        "an SC fence between reads",
        READ_SC_READ,
        "tso allowed 1 56 57 2 3",
    ),
    (
        // 2 W x 1; 1 F SC
        "an SC fence behind a write",
        "01 02 01 00 02 00 00 00 | 00 03 04 00 00 00 00 00 | 01 02 00 00 00 01 00 00",
        "tso allowed 56 2 1",
    ),
    (
        // 2 F SC; 1 R x 0
        "an SC fence before a read",
        "01 02 01 01 02 00 00 00 | 00 01 00 00 00 00 00 01 | 01 03 04 00 00 00 00 00 | 00 01 38 00",
        "tso allowed 56 2 1",
    ),
    (
        // 1 W x 1; 2 F SC; 3 F SC; 4 R y 0 || 5 W y 1; 6 F SC; 7 R x 0. By either of the two.
        "store buffering with two SC fences in a thread",
        TWO_FENCES,
        "tso broken 5 1 2 4 5 6 7",
    ),
    (
        "store buffering with two SC fences in a thread, another ring",
        TWO_FENCES,
        "tso broken 5 1 3 4 5 6 7",
    ),
    (
        // 1 W x 1; 2 F SC; 3 W y 1 || 4 R y 1; 5 F SC; 6 R x 0. W-W and R-R lead past the fences.
        "message passing with SC fences",
        PAST_FENCES,
        "tso broken 5 1 3 4 6",
    ),
    (
        // 1 W x 1; 2 R exclusive z 0; 3 W z 1, rmw; 4 R y 0 || 5 W y 1; 6 R exclusive u 0; 7 W u 1, rmw; 8 R x 0. Into a pair's read
        // and R-R; or W-W and out of its write.
        "store buffering with a pair between",
        BY_PAIRS,
        "tso broken 5 1 2 4 5 6 8",
    ),
    (
        "store buffering with a pair between, another ring",
        BY_PAIRS,
        "tso broken 5 1 3 4 5 7 8",
    ),
    (
        // 1 W x 1; 2 R exclusive z 0; 3 W z 1, rmw; 4 R y 0 || 5 W y 1; 6 R x 0
        "the same with a pair in one thread",
        "01 06 03 04 01 05 00 00 | 02 02 00 00 00 01 00 00 | 03 01 00 01 02 00 00 01 | 04 02 00 00 02 01 00 02
         | 00 01 00 00 01 00 00 03 | 06 02 00 00 01 01 00 00 | 00 01 00 00 00 00 00 04 | 00 01 3a 00 | 00 03 02 00 | 00 01 39 00
         | 00 01 38 00",
        "tso allowed 6 56 57 58 1 2 3 4 5",
    ),
    (
        // 1 R exclusive x 0; 2 W x 1, rmw; 3 R y 0 || 4 R exclusive y 0; 5 W y 1, rmw; 6 R x 0. Out of a pair's write and fr in turns.
        "store buffering where a pair writes",
        EXCHANGES,
        "tso broken 5 2 3 5 6",
    ),
    (
        // 1 R exclusive x 0; 2 W strong x 1, rmw; 3 R y 0 || 4 R exclusive y 0; 5 W strong y 1, rmw; 6 R x 0
        "the same with strong pairs",
        "01 06 02 06 01 04 00 00 | 02 01 00 01 00 00 00 01 | 03 02 00 01 00 01 00 02 | 00 01 00 00 01 00 00 03
         | 05 01 00 01 01 00 00 04 | 06 02 00 01 01 01 00 05 | 00 01 00 00 00 00 00 06 | 00 01 38 00 | 00 03 01 00 | 00 01 39 00
         | 00 01 39 00 | 00 03 04 00 | 00 01 38 00",
        "tso broken 5 2 3 5 6",
    ),
    (
        // 1 W x 1, co from 6; 2 R exclusive y 0; 3 W y 2, rmw || 4 W y 1, co from 3; 5 R exclusive x 0; 6 W x 2, rmw. Into a pair's
        // read and fr in turns; or W-W and co.
        "store buffering where a pair reads",
        READ_BY_PAIRS,
        "tso broken 5 1 2 4 5",
    ),
    (
        "store buffering where a pair reads, another ring",
        READ_BY_PAIRS,
        "tso broken 5 1 3 4 6",
    ),
    (
        // 1 R exclusive x 0; 2 W x 1, rmw; 3 R y 0 || 4 W y 1; 5 F SC; 6 R x 0
        "store buffering where a pair writes, and with an SC fence",
        "01 06 02 04 01 04 00 00 | 02 01 00 01 00 00 00 01 | 03 02 00 00 00 01 00 02 | 00 01 00 00 01 00 00 03
         | 05 02 00 00 01 01 00 00 | 06 03 04 00 00 00 00 00 | 00 01 00 00 00 00 00 04 | 00 01 38 00 | 00 03 01 00 | 00 01 39 00
         | 00 01 38 00",
        "tso broken 5 2 3 4 5 6",
    ),
    (
        // 3 W x 1; 1 R exclusive y 0; 2 W y 1, rmw
        "a write before a pair",
        WRITE_PAIR,
        "tso allowed 56 57 3 1 2",
    ),
    (
        // 2 R exclusive x 0; 3 W x 1, rmw; 1 R y 0
        "a pair before a read",
        PAIR_READ,
        "tso allowed 56 57 2 3 1",
    ),
    (
        // 3 R exclusive x 0; 4 W x 1, rmw; 1 R exclusive y 0; 2 W y 1, rmw
        "a pair before a pair",
        "01 04 02 04 03 00 00 00 | 02 01 00 01 01 00 00 01 | 00 02 00 00 01 01 00 02 | 04 01 00 01 00 00 00 03
         | 01 02 00 00 00 01 00 04 | 00 01 39 00 | 00 03 01 00 | 00 01 38 00 | 00 03 03 00",
        "tso allowed 56 57 3 4 1 2",
    ),
    (
        // 1 R exclusive x 0; 2 W x 1, rmw. All initial writes come before both events.
        "a pair and two locations",
        PAIR,
        "tso allowed 56 57 1 2",
    ),
    (
        // 1 R x 0
        "a read and two locations",
        PLAIN_READ,
        "tso allowed 1 56 57",
    ),
    (
        // 1 R exclusive x 0
        "an exclusive read that failed, and two locations",
        "01 01 02 01 01 00 00 00 | 00 01 00 01 00 00 00 01 | 00 01 38 00",
        "tso allowed 1 56 57",
    ),
    (
        // 1 W x 1; 2 R exclusive z 0; 3 R y 0 || 4 W y 1; 5 R exclusive z 0; 6 R x 0. R-R leads from 2 to 3 and from 5 to 6, nothing
        // from 1 to 2 and from 4 to 5.
        "store buffering with exclusive reads that failed between",
        FAILED,
        "tso allowed 2 3 5 6 56 57 58 1 4",
    ),
    (
        // 1 W x 1; 2 R exclusive z 0; 3 W z 1; 4 R y 0 || 5 W y 1; 6 R exclusive u 0; 7 W u 1; 8 R x 0. Nothing from 3 to 4 and from 7
        // to 8.
        "the same, each with a write behind it that is not its pair's",
        "01 08 04 04 01 05 00 00 | 02 02 00 00 00 01 00 00 | 03 01 00 01 02 00 00 01 | 04 02 00 00 02 01 00 00
         | 00 01 00 00 01 00 00 02 | 06 02 00 00 01 01 00 00 | 07 01 00 01 03 00 00 03 | 08 02 00 00 03 01 00 00
         | 00 01 00 00 00 00 00 04 | 00 01 3a 00 | 00 01 39 00 | 00 01 3b 00 | 00 01 38 00",
        "tso allowed 2 4 6 8 56 57 58 59 1 3 5 7",
    ),
    (
        // 2 W x 1; 1 R exclusive y 0
        "a write before an exclusive read that failed",
        "01 02 02 01 02 00 00 00 | 00 01 00 01 01 00 00 01 | 01 02 00 00 00 01 00 00 | 00 01 39 00",
        "tso allowed 1 56 57 2",
    ),
    (
        // 1 W x 1; 2 F acquire; 3 R y 0 || 4 W y 1; 5 F acquire; 6 R x 0
        "store buffering with acquire fences",
        FENCES_1,
        "tso allowed 2 3 5 6 56 57 1 4",
    ),
    (
        // 1 W x 1; 2 F release; 3 R y 0 || 4 W y 1; 5 F release; 6 R x 0
        "store buffering with release fences",
        FENCES_2,
        "tso allowed 2 3 5 6 56 57 1 4",
    ),
    (
        // 1 W x 1; 2 F both; 3 R y 0 || 4 W y 1; 5 F both; 6 R x 0
        "store buffering with acquire-release fences",
        FENCES_3,
        "tso allowed 2 3 5 6 56 57 1 4",
    ),
    (
        // 2 F acquire; 1 F SC || 4 F release; 3 F SC || 6 F both; 5 F SC
        "fences of modes 1 to 3 before SC fences",
        BEFORE_SC,
        "tso allowed 1 2 3 4 5 6",
    ),
    (
        // 2 F SC; 1 F acquire || 4 F SC; 3 F release || 6 F SC; 5 F both
        "fences of modes 1 to 3 behind SC fences",
        BEHIND_SC,
        "tso allowed 1 2 3 4 5 6",
    ),
    (
        // 2 R exclusive x 0; 3 W x 1, rmw; 1 F acquire || 5 R exclusive y 0; 6 W y 1, rmw; 4 F release || 8 R exclusive z 0; 9 W z 1,
        // rmw; 7 F both
        "fences of modes 1 to 3 behind pairs",
        BEHIND_PAIRS,
        "tso allowed 1 4 7 56 57 58 2 3 5 6 8 9",
    ),
    (
        // 1 R exclusive x 0; 2 W x 1, rmw; 3 F both; 4 R y 0 || 5 R exclusive y 0; 6 W y 1, rmw; 7 F both; 8 R x 0. po leads from the
        // pair's write past the fence.
        "a fence of mode 3 between a pair and a read",
        PAST_BOTH,
        "tso broken 5 2 4 6 8",
    ),
    (
        // 1 W x 1; 2 F release; 3 W y 1 || 4 R y 1; 5 F acquire; 6 R x 0. W-W and R-R past the fences.
        "message passing with a release fence and an acquire fence",
        PASSED,
        "tso broken 5 1 3 4 6",
    ),
    (
        // 5 R x 0; 4 F acquire; 3 R y 0; 2 F release; 1 F both. They come out by their numbers.
        "fences of modes 1 to 3 between reads and behind them",
        "01 05 02 02 05 00 00 00 | 00 03 03 00 00 00 00 00 | 01 03 02 00 00 00 00 00 | 02 01 00 00 01 00 00 01
         | 03 03 01 00 00 00 00 00 | 04 01 00 00 00 00 00 02 | 00 01 39 00 | 00 01 38 00",
        "tso allowed 1 2 4 5 3 56 57",
    ),
    (
        // 2 R x 0; 1 F acquire, ctrl from 2. A dependency is no step.
        "ctrl into an acquire fence",
        "01 02 01 02 02 00 00 00 | 00 03 01 00 00 00 00 01 | 01 01 00 00 00 00 00 02 | 00 06 02 00 | 00 01 38 00",
        "tso allowed 1 2 56",
    ),
    (
        // 1 W x 1; 2 R x 1; 3 R y 0 || 4 W y 1; 5 R y 1; 6 R x 0. rf from 1 to 2 and from 4 to 5 is within a thread.
        "store buffering with forwarding",
        FORWARDED,
        "tso allowed 2 3 5 6 56 57 1 4",
    ),
    (
        // 1 W x 1; 2 F SC; 3 R x 1; 4 R y 0 || 5 W y 1; 6 F SC; 7 R y 1; 8 R x 0
        "the same with SC fences",
        FORWARDED_FENCED,
        "tso broken 5 1 2 4 5 6 8",
    ),
    (
        // 1 W x 1; 2 R exclusive x 1; 3 W x 2, rmw, co from 1; 4 R y 0 || 5 W y 1; 6 R exclusive y 1; 7 W y 2, rmw, co from 5; 8 R x 0.
        // fr leads from 4 to 7 too, and from 8 to 3.
        "store buffering with pairs that read from the writes",
        FORWARDED_PAIRS,
        "tso broken 5 3 4 7 8",
    ),
    (
        // 1 W release x 1; 2 R acquire y 0 || 3 W release y 1; 4 R acquire x 0
        "store buffering with release writes and acquire reads",
        RELEASE_ACQUIRE,
        "tso allowed 2 4 56 57 1 3",
    ),
    (
        // 1 W x 1; 2 W y 1 || 3 R y 1; 4 R x 0 || 5 R x 1; 6 R x 0. 1 to 5 is rf, 6 to 1 fr; 1 to 4 is a ring of tso.
        "rule 3 before rule 5",
        "01 06 02 04 01 03 05 00 | 02 02 00 00 00 01 00 00 | 00 02 00 00 01 01 00 00 | 04 01 00 00 01 01 00 01
         | 00 01 00 00 00 00 00 02 | 06 01 00 00 00 01 00 03 | 00 01 00 00 00 00 00 04 | 00 01 02 00 | 00 01 38 00 | 00 01 01 00
         | 00 01 38 00",
        "tso broken 3 1 5 6",
    ),
    (
        // 1 W x 1; 2 W y 1 || 3 R y 1; 4 R x 0 || 5 R exclusive z 0; 6 W z 1, rmw, co from 7 || 7 W z 2. 7 comes between 5 and 6; 1 to
        // 4 is a ring of tso.
        "rule 4 before rule 5",
        "01 07 03 05 01 03 05 07 | 02 02 00 00 00 01 00 00 | 00 02 00 00 01 01 00 00 | 04 01 00 00 01 01 00 01
         | 00 01 00 00 00 00 00 02 | 06 01 00 01 02 00 00 03 | 00 02 00 00 02 01 00 04 | 00 02 00 00 02 02 00 00 | 00 01 02 00
         | 00 01 38 00 | 00 01 3a 00 | 05 02 07 00 | 00 03 05 00",
        "tso broken 4 5 6",
    ),
];

/// Wrong tso lines, each with the reason for which it is rejected.
pub const WRONG: [(&str, &str, &str, &str); 34] = [
    ("a step from a write to a read", WRITE_READ, "tso allowed 56 57 2 1", "the tso line differs"),
    ("a ring by a step from a write to a read", ONE_FENCE, "tso broken 5 1 2 3 4 5", "the tso line differs"),
    ("no step into an SC fence", TWO_FENCES, "tso broken 5 1 4 5 7", "the tso ring: 1 to 4 is no step"),
    ("no step between SC fences", SC_SC, "tso allowed 1 2", "the tso line differs"),
    ("initial writes without a step into an SC fence", READ_SC_READ, "tso allowed 1 2 3 56 57", "the tso line differs"),
    ("a step from initial writes to a read", PLAIN_READ, "tso allowed 56 57 1", "the tso line differs"),
    ("initial writes without a step to a pair", PAIR, "tso allowed 1 2 56 57", "the tso line differs"),
    ("the initial write of the pair's location alone before it", PAIR, "tso allowed 56 1 2 57", "the tso line differs"),
    ("no step into a pair's read", WRITE_PAIR, "tso allowed 1 56 57 3 2", "the tso line differs"),
    ("no step into a pair's read but from the initial writes", WRITE_PAIR, "tso allowed 56 57 1 3 2", "the tso line differs"),
    ("no step out of a pair's write", PAIR_READ, "tso allowed 56 57 2 1 3", "the tso line differs"),
    (
        "an allowed order as if a pair's write had no step out of it",
        EXCHANGES,
        "tso allowed 3 6 56 57 1 2 4 5",
        "the tso line does not begin `tso broken 5 `",
    ),
    ("a ring by exclusive reads that failed", FAILED, "tso broken 5 1 2 3 4 5 6", "the tso line differs"),
    ("a ring by acquire fences", FENCES_1, "tso broken 5 1 2 3 4 5 6", "the tso line differs"),
    ("a ring by release fences", FENCES_2, "tso broken 5 1 2 3 4 5 6", "the tso line differs"),
    ("a ring by acquire-release fences", FENCES_3, "tso broken 5 1 2 3 4 5 6", "the tso line differs"),
    ("a step from a fence of modes 1 to 3 into an SC fence", BEFORE_SC, "tso allowed 2 1 4 3 6 5", "the tso line differs"),
    ("a step from an SC fence to a fence of modes 1 to 3", BEHIND_SC, "tso allowed 2 1 4 3 6 5", "the tso line differs"),
    (
        "a step from a pair to a fence of modes 1 to 3",
        BEHIND_PAIRS,
        "tso allowed 56 57 58 2 3 1 5 6 4 8 9 7",
        "the tso line differs",
    ),
    ("fences of modes 1 to 3 left out", BEHIND_PAIRS, "tso allowed 56 57 58 2 3 5 6 8 9", "the tso line differs"),
    ("a pair's step to a fence of mode 3", PAST_BOTH, "tso broken 5 2 3 4 6 8", "the tso ring: 2 to 3 is no step"),
    ("a release fence in the ring", PASSED, "tso broken 5 1 2 3 4 6", "the tso ring: 1 to 2 is no step"),
    ("an acquire fence in the ring", PASSED, "tso broken 5 1 3 4 5 6", "the tso ring: 4 to 5 is no step"),
    ("a ring by rf within a thread", FORWARDED, "tso broken 5 1 2 3 4 5 6", "the tso line differs"),
    ("rf within a thread in a ring", FORWARDED_FENCED, "tso broken 5 1 3 4 5 7 8", "the tso ring: 1 to 3 is no step"),
    (
        "rf within a thread in a ring, beside a step into the pair",
        FORWARDED_PAIRS,
        "tso broken 5 1 2 4 5 6 8",
        "the tso ring: 6 events, where a ring of 4 may be shown",
    ),
    ("a step from a release write to an acquire read", RELEASE_ACQUIRE, "tso broken 5 1 2 3 4", "the tso line differs"),
    (
        "two SC fences, where one is enough",
        TWO_FENCES,
        "tso broken 5 1 2 3 4 5 6 7",
        "the tso ring: 7 events, where a ring of 6 may be shown",
    ),
    (
        "an SC fence, where W-W leads past it",
        PAST_FENCES,
        "tso broken 5 1 2 3 4 6",
        "the tso ring: 5 events, where a ring of 4 may be shown",
    ),
    (
        "both events of a pair, where one is enough",
        BY_PAIRS,
        "tso broken 5 1 2 3 4 5 6 8",
        "the tso ring: 7 events, where a ring of 6 may be shown",
    ),
    (
        "both events of a pair that reads, where one is enough",
        READ_BY_PAIRS,
        "tso broken 5 1 2 3 4 5",
        "the tso ring: 5 events, where a ring of 4 may be shown",
    ),
    ("po past a pair, as if from a write to a read", BY_PAIRS, "tso broken 5 1 4 5 8", "the tso ring: 1 to 4 is no step"),
    ("rule 3 by IMM's hb and eco", STALE, "tso broken 3 1 2 3 4", "the tso line does not begin `tso broken 5 `"),
    ("a ring that eco closes", NEWER_FIRST, "tso broken 3 3 4", "the tso ring: 4 to 3 is no step"),
];
