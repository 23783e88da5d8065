//! The twelve rows of 01's litmus table: samples, each with its events, its verdicts, those by x86-TSO added (02, slip 6), and a legal answer,
//! all by hand. Locations: x is 0, y is 1, z is 2.

use crate::samples::sample;

pub struct Row {
    pub name: &'static str,
    pub file: &'static [u8],
    /// Source and chip verdict as in 01, then tso's: a is allowed, a digit the broken rule.
    pub verdicts: [&'static str; 3],
    /// An answer derived by hand; where it shows a ring, a shortest one.
    pub answer: &'static str,
}

pub const ROWS: [Row; 12] = [
    Row {
        name: "empty file of 8 bytes",
        file: sample!("empty_recording"),
        verdicts: ["a", "a", "a"],
        answer: "source allowed;chip allowed;tso allowed;",
    },
    // 1 W x 1; 2 W y 1 || 3 R y 1; 4 R x 0
    // tso: 1 to 2 is W-W, 2 to 3 rfe, 3 to 4 R-R, 4 to 1 fr.
    Row {
        name: "message passing relaxed",
        file: sample!("message_passing_relaxed"),
        verdicts: ["a", "a", "5"],
        answer: "source allowed 1 2 3 4 56 57;chip allowed 2 3 4 1 56 57;tso broken 5 1 2 3 4;",
    },
    // 1 W x 1; 2 W release y 1 || 3 R acquire y 1; 4 R x 0
    // tso: as relaxed.
    Row {
        name: "release and acquire with stale read",
        file: sample!("release_and_acquire_with_stale_read"),
        verdicts: ["3", "5", "5"],
        answer: "source broken 3 1 2 3 4;chip broken 5 1 2 3 4;tso broken 5 1 2 3 4;",
    },
    // 1 R x 1; 2 W y 1 || 3 R y 1; 4 W x 1
    // tso: 1 to 2 and 3 to 4 are R-W, 2 to 3 and 4 to 1 rfe.
    Row {
        name: "load buffering",
        file: sample!("load_buffering"),
        verdicts: ["a", "a", "5"],
        answer: "source allowed 2 3 4 1 56 57;chip allowed 2 3 4 1 56 57;tso broken 5 1 2 3 4;",
    },
    // 1 R x 1; 2 W y 1, data from 1 || 3 R y 1; 4 W x 1, data from 3
    // tso: as without.
    Row {
        name: "load buffering with data links",
        file: sample!("load_buffering_with_data_links"),
        verdicts: ["5", "5", "5"],
        answer: "source broken 5 1 2 3 4;chip broken 5 1 2 3 4;tso broken 5 1 2 3 4;",
    },
    // 1 W x 1; 2 R y 0 || 3 W y 1; 4 R x 0
    // tso: fr leads from 2 to 3 and from 4 to 1, no step from a write to its thread's read. The initial writes come before 1 and 3.
    Row {
        name: "store buffering",
        file: sample!("store_buffering"),
        verdicts: ["a", "a", "a"],
        answer: "source allowed 1 2 3 4 56 57;chip allowed 2 3 4 1 56 57;tso allowed 2 4 56 57 1 3;",
    },
    // 1 W x 1; 2 F SC; 3 R y 0 || 4 W y 1; 5 F SC; 6 R x 0
    // tso: into and out of each fence, fr from 3 to 4 and from 6 to 1; 1 to 3 and 4 to 6 are no steps.
    Row {
        name: "store buffering with SC fences",
        file: sample!("store_buffering_with_sc_fences"),
        verdicts: ["5", "5", "5"],
        answer: "source broken 5 2 5;chip broken 5 1 3 4 6;tso broken 5 1 2 3 4 5 6;",
    },
    // 1 W x 1 || 2 W y 1 || 3 R acquire x 1; 4 R acquire y 0 || 5 R acquire y 1; 6 R acquire x 0
    // tso: rfe to 3 and 5, R-R in both threads, fr from 4 to 2 and from 6 to 1.
    Row {
        name: "independent reads with acquire",
        file: sample!("independent_reads_with_acquire"),
        verdicts: ["a", "5", "5"],
        answer: "source allowed 1 2 3 4 5 6 56 57;chip broken 5 1 3 4 2 5 6;tso broken 5 1 3 4 2 5 6;",
    },
    // 1 R exclusive x 0; 2 W x 1, rmw from 1 || 3 R exclusive x 0; 4 W x 2, rmw from 3, co from 2
    // tso: fr from 3 to 2 and co from 2 to 4 are external.
    Row {
        name: "two pairs both reading the initial write",
        file: sample!("two_pairs_both_reading_the_initial_write"),
        verdicts: ["4", "4", "4"],
        answer: "source broken 4 3 4;chip broken 4 3 4;tso broken 4 3 4;",
    },
    // 1 W x 1; 2 W x 2, co from 1 || 3 R x 2; 4 R x 1
    // tso: rf from 2 to 3, po to 4, fr to 2.
    Row {
        name: "newer value read before older",
        file: sample!("newer_value_read_before_older"),
        verdicts: ["3", "3", "3"],
        answer: "source broken 3 3 4;chip broken 3 2 3 4;tso broken 3 2 3 4;",
    },
    // 1 R y 1; 2 W z 1, data from 1 || 3 R z 1; 4 R exclusive x 0; 5 W release x 1, rmw from 4; 6 W y 1
    // tso: 1 to 2 and 3 to 6 are R-W, 2 to 3 and 6 to 1 rfe.
    Row {
        name: "normal release pair before a write",
        file: sample!("normal_release_pair_before_a_write"),
        verdicts: ["a", "a", "5"],
        answer: "source allowed 4 6 1 2 3 56 57 58 5;chip allowed 4 6 1 2 3 56 57 58 5;tso broken 5 1 2 3 6;",
    },
    // The same with 5 strong.
    // tso: as normal.
    Row {
        name: "strong release pair before a write",
        file: sample!("strong_release_pair_before_a_write"),
        verdicts: ["5", "5", "5"],
        answer: "source broken 5 1 2 3 5 6;chip broken 5 1 2 3 6;tso broken 5 1 2 3 6;",
    },
];

/// The verdicts of an answer: `a`, or the digit of the broken rule, for each of its lines.
pub fn verdicts_of(answer: &str) -> Vec<String> {
    let lines = answer.split_terminator(';');
    lines
        .map(|line| {
            let words: Vec<&str> = line.split(' ').collect();
            match words.get(1) {
                Some(&"allowed") => "a".to_string(),
                Some(&"broken") => words.get(2).unwrap_or(&"?").to_string(),
                _ => line.to_string(),
            }
        })
        .collect()
}
