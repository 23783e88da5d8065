//! Pages written by hand, each with the file and the ring that it follows from.

use crate::worked::STALE;

pub struct Page {
    pub name: &'static str,
    pub file: &'static str,
    pub ring: &'static [u8],
    /// Each without its line feed.
    pub lines: &'static [&'static str],
}

/// 300 entries, the last of which is event 3.
const LONG_RING: [u8; 300] = {
    let mut ring = [255; 300];
    ring[299] = 3;
    ring
};

pub const PAGES: [Page; 9] = [
    Page { name: "no event, source", file: "01 00 00 00 00 00 00 00", ring: &[], lines: &[] },
    Page { name: "no event, chip", file: "02 00 08 00 00 00 00 00", ring: &[0, 1, 56], lines: &[] },
    // 1 W x 1; 2 W release y 1 || 3 R acquire y 1; 4 R x 0
    Page {
        name: "two threads of four, all events starred",
        file: STALE,
        ring: &[4, 2, 1, 3],
        lines: &[
            " 1 W00 0     1 *     3 R10 1     1 *                                            ",
            " 2 W20 1     1 *     4 R00 0     0 *                                            ",
        ],
    },
    Page {
        name: "the same, a ring of numbers that no recorded event has",
        file: STALE,
        ring: &[0, 5, 48, 49, 55, 56, 57, 63, 64, 65, 129, 194, 255, 0],
        lines: &[
            " 1 W00 0     1       3 R10 1     1                                              ",
            " 2 W20 1     1       4 R00 0     0                                              ",
        ],
    },
    Page {
        name: "values of one digit to five, in the last thread",
        file: "01 0c 08 00 00 00 00 01
             | 02 02 00 00 00 00 00 00 | 03 02 00 00 01 09 00 00 | 04 02 00 00 02 0a 00 00 | 05 02 00 00 03 63 00 00
             | 06 02 00 00 04 64 00 00 | 07 02 00 00 05 e7 03 00 | 08 02 00 00 06 e8 03 00 | 09 02 00 00 07 0f 27 00
             | 0a 02 00 00 00 10 27 00 | 0b 02 00 00 01 ff 00 00 | 0c 02 00 00 02 00 01 00 | 00 02 00 00 03 ff ff 00",
        ring: &[12, 1],
        lines: &[
            "                                                             1 W00 0     0 *    ",
            "                                                             2 W00 1     9      ",
            "                                                             3 W00 2    10      ",
            "                                                             4 W00 3    99      ",
            "                                                             5 W00 4   100      ",
            "                                                             6 W00 5   999      ",
            "                                                             7 W00 6  1000      ",
            "                                                             8 W00 7  9999      ",
            "                                                             9 W00 0 10000      ",
            "                                                            10 W00 1   255      ",
            "                                                            11 W00 2   256      ",
            "                                                            12 W00 3 65535 *    ",
        ],
    },
    // 11 F acquire; 3 R acquire exclusive x 0; 7 W release strong x 7 || none || 2 F SC; 5 W release y 100
    // || 10 F release; 1 R y 65535; 9 F both; 4 W z 5; 8 R exclusive x 0; 6 R acquire z 10. rmw 3 to 7.
    Page {
        name: "threads of 3, 0, 2 and 6, numbers out of order, an initial write and a repeat in the ring",
        file: "01 0b 03 01 0b 00 02 0a
             | 09 01 00 00 01 ff ff 00 | 05 03 04 00 00 00 00 00 | 07 01 01 01 00 00 00 00 | 08 02 00 00 02 05 00 00
             | 00 02 02 00 01 64 00 00 | 00 01 01 00 02 0a 00 00 | 00 02 02 01 00 07 00 01 | 06 01 00 01 00 00 00 00
             | 04 03 03 00 00 00 00 00 | 01 03 02 00 00 00 00 00 | 03 03 01 00 00 00 00 00
             | 00 03 03 00",
        ring: &[11, 7, 2, 9, 6, 56, 9, 0, 12],
        lines: &[
            "11 F10         *                         2 F40         *    10 F20              ",
            " 3 R11 0     0                           5 W20 1   100       1 R00 1 65535      ",
            " 7 W21 0     7 *                                             9 F30         *    ",
            "                                                             4 W00 2     5      ",
            "                                                             8 R01 0     0      ",
            "                                                             6 R10 2    10 *    ",
        ],
    },
    // none || 4 ldar exclusive x 9; 3 stlr x 99; 2 dmb sy || 1 dmb ld || none
    Page {
        name: "the first and the last thread empty, a long ring",
        file: "02 04 01 00 00 04 01 00
             | 00 03 05 00 00 00 00 00 | 00 03 06 00 00 00 00 00 | 02 02 02 00 00 63 00 00 | 03 01 01 01 00 09 00 00",
        ring: &LONG_RING,
        lines: &[
            "                     4 R11 0     9       1 F50                                  ",
            "                     3 W20 0    99 *                                            ",
            "                     2 F60                                                      ",
        ],
    },
    // 10 dmb sy; 1 isb || 3 ldar y 256; 12 isb; 2 R x 0 || 11 isb || 9 isb; 8 dmb ld; 7 isb; 6 stlr x 1; 5 isb; 4 isb. ctrl 3 to 12.
    Page {
        name: "isb, alone in a thread, first, last and between",
        file: "02 0c 02 01 0a 03 0b 09
             | 00 03 07 00 00 00 00 00 | 00 01 00 00 00 00 00 00 | 0c 01 01 00 01 00 01 00 | 00 03 07 00 00 00 00 00
             | 04 03 07 00 00 00 00 00 | 05 02 02 00 00 01 00 00 | 06 03 07 00 00 00 00 00 | 07 03 05 00 00 00 00 00
             | 08 03 07 00 00 00 00 00 | 01 03 06 00 00 00 00 00 | 00 03 07 00 00 00 00 00 | 02 03 07 00 00 00 00 01
             | 00 06 03 00",
        ring: &[12, 11, 6, 4],
        lines: &[
            "10 F60               3 R10 1   256      11 F70         *     9 F70              ",
            " 1 F70              12 F70         *                         8 F50              ",
            "                     2 R00 0     0                           7 F70              ",
            "                                                             6 W20 0     1 *    ",
            "                                                             5 F70              ",
            "                                                             4 F70         *    ",
        ],
    },
    // 18 to 1 dmb sy || none || 19 dmb ld || none
    Page {
        name: "the longest thread",
        file: "02 13 00 00 12 00 13 00
             | 00 03 06 00 00 00 00 00 | 01 03 06 00 00 00 00 00 | 02 03 06 00 00 00 00 00 | 03 03 06 00 00 00 00 00
             | 04 03 06 00 00 00 00 00 | 05 03 06 00 00 00 00 00 | 06 03 06 00 00 00 00 00 | 07 03 06 00 00 00 00 00
             | 08 03 06 00 00 00 00 00 | 09 03 06 00 00 00 00 00 | 0a 03 06 00 00 00 00 00 | 0b 03 06 00 00 00 00 00
             | 0c 03 06 00 00 00 00 00 | 0d 03 06 00 00 00 00 00 | 0e 03 06 00 00 00 00 00 | 0f 03 06 00 00 00 00 00
             | 10 03 06 00 00 00 00 00 | 11 03 06 00 00 00 00 00 | 00 03 05 00 00 00 00 00",
        ring: &[1, 9, 10, 18, 19],
        lines: &[
            "18 F60         *                        19 F50         *                        ",
            "17 F60                                                                          ",
            "16 F60                                                                          ",
            "15 F60                                                                          ",
            "14 F60                                                                          ",
            "13 F60                                                                          ",
            "12 F60                                                                          ",
            "11 F60                                                                          ",
            "10 F60         *                                                                ",
            " 9 F60         *                                                                ",
            " 8 F60                                                                          ",
            " 7 F60                                                                          ",
            " 6 F60                                                                          ",
            " 5 F60                                                                          ",
            " 4 F60                                                                          ",
            " 3 F60                                                                          ",
            " 2 F60                                                                          ",
            " 1 F60         *                                                                ",
        ],
    },
];
