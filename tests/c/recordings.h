/* Recordings written out by hand: header, event records, link records, a line each. Source files and translations, chip files, then, with
 * what is expected of each, files for each cause of refusal in the order of the causes. Those that stand among the samples or in the corpus
 * are in stored.h, which stored.py writes, with what is stored of them. What is expected: what the judge prints, the steps of every ring,
 * with the ring in words where it is not plain, and pages. Every ring shown is a shortest one, and the only one of its length. */
#include "stored.h"

/* read without a source */
static const uint8_t unread[] = {
    1, 1, 1, 0, 1, 0, 0, 0,
    0, 1, 0, 0, 0, 0, 0, 0,
};

/* two writes without an order */
static const uint8_t unordered[] = {
    1, 2, 1, 0, 1, 2, 0, 0,
    0, 2, 0, 0, 0, 1, 0, 0,
    0, 2, 0, 0, 0, 2, 0, 0,
};

/* two pairs both reading the initial write, translated */
static const uint8_t two_pairs_chip[] = {
    2, 4, 1, 7, 1, 3, 0, 0,
    2, 1, 0, 1, 0, 0, 0, 1,
    0, 2, 0, 0, 0, 1, 0, 2,
    4, 1, 0, 1, 0, 0, 0, 4,
    0, 2, 0, 0, 0, 2, 0, 5,
    0, 1, 56, 0,
    3, 3, 1, 0,
    0, 6, 1, 0,
    0, 1, 56, 0,
    6, 2, 2, 0,
    7, 3, 3, 0,
    0, 6, 3, 0,
};

/* store buffering with a dmb sy in each thread: what fences of mode 3 and SC fences become */
static const uint8_t dmb_sy_chip[] = {
    2, 6, 2, 2, 1, 4, 0, 0,
    2, 2, 0, 0, 0, 1, 0, 0,
    3, 3, 6, 0, 0, 0, 0, 0,
    0, 1, 0, 0, 1, 0, 0, 1,
    5, 2, 0, 0, 1, 1, 0, 0,
    6, 3, 6, 0, 0, 0, 0, 0,
    0, 1, 0, 0, 0, 0, 0, 2,
    0, 1, 57, 0,
    0, 1, 56, 0,
};

/* store buffering where the writes are those of rmw pairs, translated */
static const uint8_t by_pairs_chip[] = {
    2, 6, 2, 8, 1, 4, 0, 0,
    2, 1, 0, 1, 0, 0, 0, 1,
    3, 2, 0, 0, 0, 1, 0, 2,
    0, 1, 0, 0, 1, 0, 0, 4,
    5, 1, 0, 1, 1, 0, 0, 5,
    6, 2, 0, 0, 1, 1, 0, 6,
    0, 1, 0, 0, 0, 0, 0, 8,
    0, 1, 56, 0,
    3, 3, 1, 0,
    0, 6, 1, 0,
    0, 1, 57, 0,
    0, 1, 57, 0,
    7, 3, 4, 0,
    0, 6, 4, 0,
    0, 1, 56, 0,
};

/* store buffering with exclusive reads that failed, translated */
static const uint8_t failed_reads_chip[] = {
    2, 6, 3, 6, 1, 4, 0, 0,
    2, 2, 0, 0, 0, 1, 0, 0,
    3, 1, 0, 1, 2, 0, 0, 1,
    0, 1, 0, 0, 1, 0, 0, 2,
    5, 2, 0, 0, 1, 1, 0, 0,
    6, 1, 0, 1, 2, 0, 0, 4,
    0, 1, 0, 0, 0, 0, 0, 5,
    0, 1, 58, 0,
    3, 1, 57, 0,
    0, 6, 2, 0,
    0, 1, 58, 0,
    6, 1, 56, 0,
    0, 6, 5, 0,
};

/* store forwarding: thread 1 reads its own write of x, which co puts behind thread 2's, and then y, which thread 2 writes before x */
static const uint8_t forwarding[] = {
    1, 5, 2, 3, 1, 4, 0, 0,
    2, 2, 0, 0, 0, 1, 0, 1,
    3, 1, 0, 0, 0, 1, 0, 2,
    0, 1, 0, 0, 1, 0, 0, 3,
    5, 2, 0, 0, 1, 1, 0, 0,
    0, 2, 0, 0, 0, 2, 0, 0,
    0, 2, 5, 0,
    0, 1, 1, 0,
    0, 1, 57, 0,
};

/* fences of modes 1 to 3 beside a pair and an SC fence, and an SC fence alone in its thread */
static const uint8_t fenced_pair[] = {
    1, 7, 1, 2, 1, 2, 0, 0,
    0, 3, 4, 0, 0, 0, 0, 0,
    3, 3, 2, 0, 0, 0, 0, 0,
    4, 1, 0, 1, 0, 0, 0, 1,
    5, 2, 0, 0, 0, 1, 0, 2,
    6, 3, 1, 0, 0, 0, 0, 0,
    7, 3, 4, 0, 0, 0, 0, 0,
    0, 3, 3, 0, 0, 0, 0, 0,
    0, 1, 56, 0,
    0, 3, 3, 0,
};

static const uint8_t fenced_pair_chip[] = {
    2, 7, 1, 3, 1, 2, 0, 0,
    0, 3, 6, 0, 0, 0, 0, 0,
    3, 3, 6, 0, 0, 0, 0, 0,
    4, 1, 0, 1, 0, 0, 0, 1,
    5, 2, 0, 0, 0, 1, 0, 2,
    6, 3, 5, 0, 0, 0, 0, 0,
    7, 3, 6, 0, 0, 0, 0, 0,
    0, 3, 6, 0, 0, 0, 0, 0,
    0, 1, 56, 0,
    3, 3, 3, 0,
    0, 6, 3, 0,
};

/* fence that synchronizes with itself: a ring of one event */
static const uint8_t own_fence[] = {
    1, 3, 1, 1, 1, 0, 0, 0,
    2, 1, 0, 0, 0, 1, 0, 1,
    3, 3, 3, 0, 0, 0, 0, 0,
    0, 2, 0, 0, 0, 1, 0, 0,
    0, 1, 3, 0,
};

static const uint8_t own_fence_chip[] = {
    2, 3, 1, 1, 1, 0, 0, 0,
    2, 1, 0, 0, 0, 1, 0, 1,
    3, 3, 6, 0, 0, 0, 0, 0,
    0, 2, 0, 0, 0, 1, 0, 0,
    0, 1, 3, 0,
};

/* fifteen pairs in a circle: the read 2k + 1 reads from the write 2k, the first from the last, and the write 2k + 2 has data from it; they
 * stand in threads, and the writes share locations, so that all 30 events are the only ring of ar. From read 5 to write 2 of its thread
 * lead data and coi on the chip, po under x86-TSO, and the ring goes no further round */
static const uint8_t circle[] = {
    1, 30, 8, 37, 17, 19, 21, 23,
    2, 1, 0, 0, 6, 15, 0, 1,
    9, 2, 0, 0, 0, 1, 0, 2,
    4, 1, 0, 0, 0, 1, 0, 4,
    11, 2, 0, 0, 1, 2, 0, 5,
    6, 1, 0, 0, 1, 2, 0, 6,
    1, 2, 0, 0, 0, 3, 0, 7,
    8, 1, 0, 0, 0, 3, 0, 8,
    0, 2, 0, 0, 3, 4, 0, 9,
    10, 1, 0, 0, 3, 4, 0, 11,
    0, 2, 0, 0, 4, 5, 0, 12,
    12, 1, 0, 0, 4, 5, 0, 14,
    0, 2, 0, 0, 1, 6, 0, 15,
    14, 1, 0, 0, 1, 6, 0, 17,
    0, 2, 0, 0, 2, 7, 0, 18,
    16, 1, 0, 0, 2, 7, 0, 19,
    7, 2, 0, 0, 3, 8, 0, 20,
    18, 1, 0, 0, 3, 8, 0, 21,
    25, 2, 0, 0, 4, 9, 0, 22,
    20, 1, 0, 0, 4, 9, 0, 23,
    27, 2, 0, 0, 5, 10, 0, 24,
    22, 1, 0, 0, 5, 10, 0, 25,
    29, 2, 0, 0, 6, 11, 0, 26,
    24, 1, 0, 0, 6, 11, 0, 27,
    15, 2, 0, 0, 7, 12, 0, 28,
    26, 1, 0, 0, 7, 12, 0, 29,
    5, 2, 0, 0, 4, 13, 0, 30,
    28, 1, 0, 0, 4, 13, 0, 32,
    3, 2, 0, 0, 5, 14, 0, 33,
    30, 1, 0, 0, 5, 14, 0, 35,
    13, 2, 0, 0, 6, 15, 0, 36,
    0, 1, 30, 0,
    3, 2, 6, 0,
    0, 4, 1, 0,
    0, 1, 2, 0,
    0, 4, 3, 0,
    0, 1, 4, 0,
    0, 4, 5, 0,
    0, 1, 6, 0,
    10, 2, 16, 0,
    0, 4, 7, 0,
    0, 1, 8, 0,
    13, 2, 26, 0,
    0, 4, 9, 0,
    0, 1, 10, 0,
    16, 2, 4, 0,
    0, 4, 11, 0,
    0, 1, 12, 0,
    0, 4, 13, 0,
    0, 1, 14, 0,
    0, 4, 15, 0,
    0, 1, 16, 0,
    0, 4, 17, 0,
    0, 1, 18, 0,
    0, 4, 19, 0,
    0, 1, 20, 0,
    0, 4, 21, 0,
    0, 1, 22, 0,
    0, 4, 23, 0,
    0, 1, 24, 0,
    31, 2, 18, 0,
    0, 4, 25, 0,
    0, 1, 26, 0,
    34, 2, 20, 0,
    0, 4, 27, 0,
    0, 1, 28, 0,
    37, 2, 22, 0,
    0, 4, 29, 0,
};

/* strong pair, after which a fence is chained in */
static const uint8_t strong[] = {
    1, 2, 1, 2, 1, 0, 0, 0,
    2, 1, 0, 1, 0, 0, 0, 1,
    0, 2, 0, 1, 0, 1, 0, 2,
    0, 1, 56, 0,
    0, 3, 1, 0,
};

static const uint8_t strong_chip[] = {
    2, 3, 1, 3, 1, 0, 0, 0,
    2, 1, 0, 1, 0, 0, 0, 1,
    3, 2, 0, 0, 0, 1, 0, 2,
    0, 3, 5, 0, 0, 0, 0, 0,
    0, 1, 56, 0,
    3, 3, 1, 0,
    0, 6, 1, 0,
};

/* the events of a thread of six strong pairs, the links into them, and those of their translation */
#define SIX_PAIRS \
    2, 1, 0, 1, 0, 0, 0, 1, \
    3, 2, 0, 1, 0, 1, 0, 2, \
    4, 1, 0, 1, 1, 0, 0, 3, \
    5, 2, 0, 1, 1, 1, 0, 4, \
    6, 1, 0, 1, 2, 0, 0, 5, \
    7, 2, 0, 1, 2, 1, 0, 6, \
    8, 1, 0, 1, 3, 0, 0, 7, \
    9, 2, 0, 1, 3, 1, 0, 8, \
    10, 1, 0, 1, 4, 0, 0, 9, \
    11, 2, 0, 1, 4, 1, 0, 10, \
    12, 1, 0, 1, 5, 0, 0, 11, \
    0, 2, 0, 1, 5, 1, 0, 12

#define SIX_PAIRS_LINKS \
    0, 1, 56, 0, \
    0, 3, 1, 0, \
    0, 1, 57, 0, \
    0, 3, 3, 0, \
    0, 1, 58, 0, \
    0, 3, 5, 0, \
    0, 1, 59, 0, \
    0, 3, 7, 0, \
    0, 1, 60, 0, \
    0, 3, 9, 0, \
    0, 1, 61, 0, \
    0, 3, 11, 0

#define SIX_PAIRS_CHIP_LINKS \
    0, 1, 56, 0, \
    3, 3, 1, 0, \
    0, 6, 1, 0, \
    0, 1, 57, 0, \
    6, 3, 3, 0, \
    0, 6, 3, 0, \
    0, 1, 58, 0, \
    9, 3, 5, 0, \
    0, 6, 5, 0, \
    0, 1, 59, 0, \
    12, 3, 7, 0, \
    0, 6, 7, 0, \
    0, 1, 60, 0, \
    15, 3, 9, 0, \
    0, 6, 9, 0, \
    0, 1, 61, 0, \
    18, 3, 11, 0, \
    0, 6, 11, 0

/* six strong pairs: the longest thread of a source file, which becomes the longest of a chip file */
static const uint8_t six_pairs[] = {
    1, 12, 6, 12, 0, 0, 1, 0,
    SIX_PAIRS,
    SIX_PAIRS_LINKS,
};

static const uint8_t six_pairs_chip[] = {
    2, 18, 6, 18, 0, 0, 1, 0,
    2, 1, 0, 1, 0, 0, 0, 1,
    13, 2, 0, 0, 0, 1, 0, 2,
    4, 1, 0, 1, 1, 0, 0, 4,
    14, 2, 0, 0, 1, 1, 0, 5,
    6, 1, 0, 1, 2, 0, 0, 7,
    15, 2, 0, 0, 2, 1, 0, 8,
    8, 1, 0, 1, 3, 0, 0, 10,
    16, 2, 0, 0, 3, 1, 0, 11,
    10, 1, 0, 1, 4, 0, 0, 13,
    17, 2, 0, 0, 4, 1, 0, 14,
    12, 1, 0, 1, 5, 0, 0, 16,
    18, 2, 0, 0, 5, 1, 0, 17,
    3, 3, 5, 0, 0, 0, 0, 0,
    5, 3, 5, 0, 0, 0, 0, 0,
    7, 3, 5, 0, 0, 0, 0, 0,
    9, 3, 5, 0, 0, 0, 0, 0,
    11, 3, 5, 0, 0, 0, 0, 0,
    0, 3, 5, 0, 0, 0, 0, 0,
    SIX_PAIRS_CHIP_LINKS,
};

/* sixteen strong pairs: as many events as a recording and its translation can have, which are all shown. The pairs of a location
 * follow each other */
static const uint8_t sixteen_pairs[] = {
    1, 32, 8, 40, 1, 13, 25, 0,
    SIX_PAIRS,
    14, 1, 0, 1, 6, 0, 0, 13,
    15, 2, 0, 1, 6, 1, 0, 14,
    16, 1, 0, 1, 7, 0, 0, 15,
    17, 2, 0, 1, 7, 1, 0, 16,
    18, 1, 0, 1, 0, 1, 0, 17,
    19, 2, 0, 1, 0, 2, 0, 18,
    20, 1, 0, 1, 1, 1, 0, 20,
    21, 2, 0, 1, 1, 2, 0, 21,
    22, 1, 0, 1, 2, 1, 0, 23,
    23, 2, 0, 1, 2, 2, 0, 24,
    24, 1, 0, 1, 3, 1, 0, 26,
    0, 2, 0, 1, 3, 2, 0, 27,
    26, 1, 0, 1, 4, 1, 0, 29,
    27, 2, 0, 1, 4, 2, 0, 30,
    28, 1, 0, 1, 5, 1, 0, 32,
    29, 2, 0, 1, 5, 2, 0, 33,
    30, 1, 0, 1, 6, 1, 0, 35,
    31, 2, 0, 1, 6, 2, 0, 36,
    32, 1, 0, 1, 7, 1, 0, 38,
    0, 2, 0, 1, 7, 2, 0, 39,
    SIX_PAIRS_LINKS,
    0, 1, 62, 0,
    0, 3, 13, 0,
    0, 1, 63, 0,
    0, 3, 15, 0,
    0, 1, 2, 0,
    19, 2, 2, 0,
    0, 3, 17, 0,
    0, 1, 4, 0,
    22, 2, 4, 0,
    0, 3, 19, 0,
    0, 1, 6, 0,
    25, 2, 6, 0,
    0, 3, 21, 0,
    0, 1, 8, 0,
    28, 2, 8, 0,
    0, 3, 23, 0,
    0, 1, 10, 0,
    31, 2, 10, 0,
    0, 3, 25, 0,
    0, 1, 12, 0,
    34, 2, 12, 0,
    0, 3, 27, 0,
    0, 1, 14, 0,
    37, 2, 14, 0,
    0, 3, 29, 0,
    0, 1, 16, 0,
    40, 2, 16, 0,
    0, 3, 31, 0,
};

static const uint8_t sixteen_pairs_chip[] = {
    2, 48, 8, 56, 1, 13, 25, 0,
    2, 1, 0, 1, 0, 0, 0, 1,
    33, 2, 0, 0, 0, 1, 0, 2,
    4, 1, 0, 1, 1, 0, 0, 4,
    34, 2, 0, 0, 1, 1, 0, 5,
    6, 1, 0, 1, 2, 0, 0, 7,
    35, 2, 0, 0, 2, 1, 0, 8,
    8, 1, 0, 1, 3, 0, 0, 10,
    36, 2, 0, 0, 3, 1, 0, 11,
    10, 1, 0, 1, 4, 0, 0, 13,
    37, 2, 0, 0, 4, 1, 0, 14,
    12, 1, 0, 1, 5, 0, 0, 16,
    38, 2, 0, 0, 5, 1, 0, 17,
    14, 1, 0, 1, 6, 0, 0, 19,
    39, 2, 0, 0, 6, 1, 0, 20,
    16, 1, 0, 1, 7, 0, 0, 22,
    40, 2, 0, 0, 7, 1, 0, 23,
    18, 1, 0, 1, 0, 1, 0, 25,
    41, 2, 0, 0, 0, 2, 0, 26,
    20, 1, 0, 1, 1, 1, 0, 29,
    42, 2, 0, 0, 1, 2, 0, 30,
    22, 1, 0, 1, 2, 1, 0, 33,
    43, 2, 0, 0, 2, 2, 0, 34,
    24, 1, 0, 1, 3, 1, 0, 37,
    44, 2, 0, 0, 3, 2, 0, 38,
    26, 1, 0, 1, 4, 1, 0, 41,
    45, 2, 0, 0, 4, 2, 0, 42,
    28, 1, 0, 1, 5, 1, 0, 45,
    46, 2, 0, 0, 5, 2, 0, 46,
    30, 1, 0, 1, 6, 1, 0, 49,
    47, 2, 0, 0, 6, 2, 0, 50,
    32, 1, 0, 1, 7, 1, 0, 53,
    48, 2, 0, 0, 7, 2, 0, 54,
    3, 3, 5, 0, 0, 0, 0, 0,
    5, 3, 5, 0, 0, 0, 0, 0,
    7, 3, 5, 0, 0, 0, 0, 0,
    9, 3, 5, 0, 0, 0, 0, 0,
    11, 3, 5, 0, 0, 0, 0, 0,
    0, 3, 5, 0, 0, 0, 0, 0,
    15, 3, 5, 0, 0, 0, 0, 0,
    17, 3, 5, 0, 0, 0, 0, 0,
    19, 3, 5, 0, 0, 0, 0, 0,
    21, 3, 5, 0, 0, 0, 0, 0,
    23, 3, 5, 0, 0, 0, 0, 0,
    0, 3, 5, 0, 0, 0, 0, 0,
    27, 3, 5, 0, 0, 0, 0, 0,
    29, 3, 5, 0, 0, 0, 0, 0,
    31, 3, 5, 0, 0, 0, 0, 0,
    0, 3, 5, 0, 0, 0, 0, 0,
    SIX_PAIRS_CHIP_LINKS,
    0, 1, 62, 0,
    21, 3, 13, 0,
    0, 6, 13, 0,
    0, 1, 63, 0,
    24, 3, 15, 0,
    0, 6, 15, 0,
    0, 1, 2, 0,
    27, 2, 2, 0,
    28, 3, 17, 0,
    0, 6, 17, 0,
    0, 1, 4, 0,
    31, 2, 4, 0,
    32, 3, 19, 0,
    0, 6, 19, 0,
    0, 1, 6, 0,
    35, 2, 6, 0,
    36, 3, 21, 0,
    0, 6, 21, 0,
    0, 1, 8, 0,
    39, 2, 8, 0,
    40, 3, 23, 0,
    0, 6, 23, 0,
    0, 1, 10, 0,
    43, 2, 10, 0,
    44, 3, 25, 0,
    0, 6, 25, 0,
    0, 1, 12, 0,
    47, 2, 12, 0,
    48, 3, 27, 0,
    0, 6, 27, 0,
    0, 1, 14, 0,
    51, 2, 14, 0,
    52, 3, 29, 0,
    0, 6, 29, 0,
    0, 1, 16, 0,
    55, 2, 16, 0,
    56, 3, 31, 0,
    0, 6, 31, 0,
};

/* every form of a block: threads of 4, 0, 1 and 7 events whose numbers are in no order, every mode of a source file, both flags, the first
 * and the last location, values of one to five digits */
static const uint8_t forms[] = {
    1, 12, 8, 1, 3, 0, 2, 11,
    12, 1, 1, 0, 7, 255, 255, 0,
    0, 3, 3, 0, 0, 0, 0, 0,
    1, 2, 2, 0, 0, 7, 0, 0,
    5, 1, 1, 1, 3, 255, 0, 0,
    6, 2, 2, 1, 3, 0, 1, 1,
    7, 3, 1, 0, 0, 0, 0, 0,
    8, 3, 2, 0, 0, 0, 0, 0,
    9, 3, 4, 0, 0, 0, 0, 0,
    0, 1, 0, 0, 1, 16, 39, 0,
    0, 2, 0, 0, 2, 232, 3, 0,
    4, 1, 0, 1, 5, 99, 0, 0,
    10, 2, 0, 0, 6, 15, 39, 0,
    0, 3, 4, 0,
};

/* 48 events in a ring: in three threads reads, each with addr from the one before. The last reads the initial write, and a write of the
 * fourth thread overwrites that; the first of the next thread reads from this write */
static const uint8_t all_48[] = {
    2, 48, 4, 87, 1, 20, 39, 19,
    2, 1, 0, 0, 3, 1, 0, 1,
    3, 1, 0, 0, 0, 0, 0, 2,
    4, 1, 0, 0, 0, 0, 0, 4,
    5, 1, 0, 0, 0, 0, 0, 6,
    6, 1, 0, 0, 0, 0, 0, 8,
    7, 1, 0, 0, 0, 0, 0, 10,
    8, 1, 0, 0, 0, 0, 0, 12,
    9, 1, 0, 0, 0, 0, 0, 14,
    10, 1, 0, 0, 0, 0, 0, 16,
    11, 1, 0, 0, 0, 0, 0, 18,
    12, 1, 0, 0, 0, 0, 0, 20,
    13, 1, 0, 0, 0, 0, 0, 22,
    14, 1, 0, 0, 0, 0, 0, 24,
    15, 1, 0, 0, 0, 0, 0, 26,
    16, 1, 0, 0, 0, 0, 0, 28,
    17, 1, 0, 0, 0, 0, 0, 30,
    18, 1, 0, 0, 0, 0, 0, 32,
    0, 1, 0, 0, 1, 0, 0, 34,
    38, 2, 0, 0, 1, 1, 0, 0,
    21, 1, 0, 0, 1, 1, 0, 36,
    22, 1, 0, 0, 0, 0, 0, 37,
    23, 1, 0, 0, 0, 0, 0, 39,
    24, 1, 0, 0, 0, 0, 0, 41,
    25, 1, 0, 0, 0, 0, 0, 43,
    26, 1, 0, 0, 0, 0, 0, 45,
    27, 1, 0, 0, 0, 0, 0, 47,
    28, 1, 0, 0, 0, 0, 0, 49,
    29, 1, 0, 0, 0, 0, 0, 51,
    30, 1, 0, 0, 0, 0, 0, 53,
    31, 1, 0, 0, 0, 0, 0, 55,
    32, 1, 0, 0, 0, 0, 0, 57,
    33, 1, 0, 0, 0, 0, 0, 59,
    34, 1, 0, 0, 0, 0, 0, 61,
    35, 1, 0, 0, 0, 0, 0, 63,
    36, 1, 0, 0, 0, 0, 0, 65,
    37, 1, 0, 0, 0, 0, 0, 67,
    0, 1, 0, 0, 2, 0, 0, 69,
    48, 2, 0, 0, 2, 1, 0, 0,
    40, 1, 0, 0, 2, 1, 0, 71,
    41, 1, 0, 0, 0, 0, 0, 72,
    42, 1, 0, 0, 0, 0, 0, 74,
    43, 1, 0, 0, 0, 0, 0, 76,
    44, 1, 0, 0, 0, 0, 0, 78,
    45, 1, 0, 0, 0, 0, 0, 80,
    46, 1, 0, 0, 0, 0, 0, 82,
    47, 1, 0, 0, 0, 0, 0, 84,
    0, 1, 0, 0, 3, 0, 0, 86,
    0, 2, 0, 0, 3, 1, 0, 0,
    0, 1, 48, 0,
    3, 1, 56, 0,
    0, 5, 1, 0,
    5, 1, 56, 0,
    0, 5, 2, 0,
    7, 1, 56, 0,
    0, 5, 3, 0,
    9, 1, 56, 0,
    0, 5, 4, 0,
    11, 1, 56, 0,
    0, 5, 5, 0,
    13, 1, 56, 0,
    0, 5, 6, 0,
    15, 1, 56, 0,
    0, 5, 7, 0,
    17, 1, 56, 0,
    0, 5, 8, 0,
    19, 1, 56, 0,
    0, 5, 9, 0,
    21, 1, 56, 0,
    0, 5, 10, 0,
    23, 1, 56, 0,
    0, 5, 11, 0,
    25, 1, 56, 0,
    0, 5, 12, 0,
    27, 1, 56, 0,
    0, 5, 13, 0,
    29, 1, 56, 0,
    0, 5, 14, 0,
    31, 1, 56, 0,
    0, 5, 15, 0,
    33, 1, 56, 0,
    0, 5, 16, 0,
    35, 1, 57, 0,
    0, 5, 17, 0,
    0, 1, 19, 0,
    38, 1, 56, 0,
    0, 5, 20, 0,
    40, 1, 56, 0,
    0, 5, 21, 0,
    42, 1, 56, 0,
    0, 5, 22, 0,
    44, 1, 56, 0,
    0, 5, 23, 0,
    46, 1, 56, 0,
    0, 5, 24, 0,
    48, 1, 56, 0,
    0, 5, 25, 0,
    50, 1, 56, 0,
    0, 5, 26, 0,
    52, 1, 56, 0,
    0, 5, 27, 0,
    54, 1, 56, 0,
    0, 5, 28, 0,
    56, 1, 56, 0,
    0, 5, 29, 0,
    58, 1, 56, 0,
    0, 5, 30, 0,
    60, 1, 56, 0,
    0, 5, 31, 0,
    62, 1, 56, 0,
    0, 5, 32, 0,
    64, 1, 56, 0,
    0, 5, 33, 0,
    66, 1, 56, 0,
    0, 5, 34, 0,
    68, 1, 56, 0,
    0, 5, 35, 0,
    70, 1, 58, 0,
    0, 5, 36, 0,
    0, 1, 38, 0,
    73, 1, 56, 0,
    0, 5, 39, 0,
    75, 1, 56, 0,
    0, 5, 40, 0,
    77, 1, 56, 0,
    0, 5, 41, 0,
    79, 1, 56, 0,
    0, 5, 42, 0,
    81, 1, 56, 0,
    0, 5, 43, 0,
    83, 1, 56, 0,
    0, 5, 44, 0,
    85, 1, 56, 0,
    0, 5, 45, 0,
    87, 1, 59, 0,
    0, 5, 46, 0,
};

/* A recording that is stored, with what the judge prints of it. */
#define STORED(name) SIZED(name), name##_txt

#define TRANSLATED(file) .chip = file, .chip_length = sizeof file
#define BY_KIND_ALONE .chip = NULL, .chip_length = 0

/* A step: from an event, to an event, by a clause. */
#define STEPS(...) {sizeof(EVENTS(__VA_ARGS__)), EVENTS(__VA_ARGS__)}

static const struct source sources[] = {
    {"worked example", STORED(worked_example), BY_KIND_ALONE},
    {"read without a source", SIZED(unread),
     "source broken 1 1\n" "chip broken 1 1\n" "tso broken 1 1\n",
     BY_KIND_ALONE},
    {"two writes without an order", SIZED(unordered),
     "source broken 2 1 2\n" "chip broken 2 1 2\n" "tso broken 2 1 2\n",
     BY_KIND_ALONE},
    {"newer value read before older", STORED(newer_value_read_before_older), BY_KIND_ALONE,
     /* po; from the read 4 by fr to the write 2, and by rf to the read 3 of it */
     .imm = STEPS(3, 4, 1, 4, 3, 7),
     /* rf, po-loc, fr */
     .armv8 = STEPS(2, 3, 2, 3, 4, 1, 4, 2, 3),
     .tso = STEPS(2, 3, 2, 3, 4, 1, 4, 2, 3)},
    {"two pairs both reading the initial write", STORED(two_pairs_both_reading_the_initial_write), TRANSLATED(two_pairs_chip)},
    {"store buffering with SC fences", STORED(store_buffering_with_sc_fences), TRANSLATED(dmb_sy_chip),
     /* psc both ways */
     .imm = STEPS(2, 5, 9, 5, 2, 9),
     /* across a dmb sy, fre, and the same again */
     .armv8 = STEPS(1, 3, 10, 3, 4, 2, 4, 6, 10, 6, 1, 2),
     /* into an SC fence, out of it, fr, and the same again */
     .tso = STEPS(1, 2, 3, 2, 3, 4, 3, 4, 7, 4, 5, 3, 5, 6, 4, 6, 1, 7)},
    /* tso: the reads go ahead of the writes, also of the initial ones */
    {"store buffering", STORED(store_buffering), BY_KIND_ALONE},
    {"store buffering with rmw pairs", STORED(store_buffering_with_pairs), TRANSLATED(by_pairs_chip),
     /* out of the write of a pair, fr, and the same again */
     .tso = STEPS(2, 3, 4, 3, 5, 7, 5, 6, 4, 6, 2, 7)},
    {"store buffering with fences of mode 3", STORED(store_buffering_with_acq_rel_fences), TRANSLATED(dmb_sy_chip),
     /* across a dmb sy, fre, and the same again */
     .armv8 = STEPS(1, 3, 10, 3, 4, 2, 4, 6, 10, 6, 1, 2)},
    {"store buffering with failed exclusive reads", STORED(store_buffering_with_failed_reads), TRANSLATED(failed_reads_chip)},
    /* tso: rf from 1 to 2 is internal and no step: with it 1 2 3 4 5 would be a ring */
    {"store forwarding", SIZED(forwarding),
     "source allowed 1 2 3 4 5 56 57\n" "chip allowed 2 3 4 5 1 56 57\n" "tso allowed 2 3 56 57 4 5 1\n",
     BY_KIND_ALONE},
    {"message passing", STORED(message_passing_relaxed), BY_KIND_ALONE,
     /* po between writes, rfe, po between reads, fr */
     .tso = STEPS(1, 2, 2, 2, 3, 5, 3, 4, 1, 4, 1, 7)},
    /* tso: 2, 5 and 7 have no step; the initial write comes before the SC fences and the pair */
    {"fences beside a pair", SIZED(fenced_pair),
     "source allowed 56 1 2 3 4 5 6 7\n" "chip allowed 1 2 56 3 4 5 6 7\n" "tso allowed 2 5 7 56 1 3 4 6\n",
     TRANSLATED(fenced_pair_chip)},
    {"fence that synchronizes with itself", SIZED(own_fence),
     "source broken 3 2\n" "chip broken 3 1 3\n" "tso broken 3 1 3\n",
     TRANSLATED(own_fence_chip),
     /* sw from the fence to itself */
     .imm = STEPS(2, 2, 2),
     /* po-loc, and rf against it */
     .armv8 = STEPS(1, 3, 1, 3, 1, 2),
     .tso = STEPS(1, 3, 1, 3, 1, 2)},
    {"fifteen pairs in a circle", SIZED(circle),
     "source broken 5 1 2 3 4 5 6 7 8 9 10 11 12 13 14 15 16 17 18 19 20 21 22 23 24 25 26 27 28 29 30\n"
     "chip broken 5 2 3 4 5\n"
     "tso broken 5 2 3 4 5\n",
     BY_KIND_ALONE,
     /* ppo from each read, rfe from each write */
     .imm = STEPS(1, 2, 7, 2, 3, 1, 3, 4, 7, 4, 5, 1, 5, 6, 7, 6, 7, 1, 7, 8, 7, 8, 9, 1, 9, 10, 7, 10, 11, 1, 11, 12, 7, 12, 13, 1,
                  13, 14, 7, 14, 15, 1, 15, 16, 7, 16, 17, 1, 17, 18, 7, 18, 19, 1, 19, 20, 7, 20, 21, 1, 21, 22, 7, 22, 23, 1, 23, 24, 7,
                  24, 25, 1, 25, 26, 7, 26, 27, 1, 27, 28, 7, 28, 29, 1, 29, 30, 7, 30, 1, 1),
     /* rfe, data, rfe, and data from 5 to 6 then coi to 2 */
     .armv8 = STEPS(2, 3, 1, 3, 4, 4, 4, 5, 1, 5, 2, 5),
     /* rfe, po from a read, and the same again */
     .tso = STEPS(2, 3, 5, 3, 4, 1, 4, 5, 5, 5, 2, 1)},
    {"strong pair, after which a fence is chained in", SIZED(strong),
     "source allowed 1 2 56\n" "chip allowed 1 2 3 56\n" "tso allowed 56 1 2\n",
     TRANSLATED(strong_chip)},
    {"six strong pairs", SIZED(six_pairs),
     "source allowed 1 2 3 4 5 6 7 8 9 10 11 12 56 57 58 59 60 61\n"
     "chip allowed 1 2 3 4 5 6 7 8 9 10 11 12 13 14 15 16 17 18 56 57 58 59 60 61\n"
     "tso allowed 56 57 58 59 60 61 1 2 3 4 5 6 7 8 9 10 11 12\n",
     TRANSLATED(six_pairs_chip)},
    {"sixteen strong pairs", SIZED(sixteen_pairs),
     "source allowed 1 2 3 4 5 6 7 8 9 10 11 12 13 14 15 16 17 18 19 20 21 22 23 24 25 26 27 28 29 30 31 32 56 57 58 59 60 61 62 63\n"
     "chip allowed 1 2 3 4 5 6 7 8 9 10 11 12 13 14 15 16 17 18 19 20 21 22 23 24 25 26 27 28 29 30 31 32 33 34 35 36 37 38 39 40 "
     "41 42 43 44 45 46 47 48 56 57 58 59 60 61 62 63\n"
     "tso allowed 56 57 58 59 60 61 62 63 1 2 3 4 5 6 7 8 9 10 11 12 13 14 15 16 17 18 19 20 21 22 23 24 25 26 27 28 29 30 31 32\n",
     TRANSLATED(sixteen_pairs_chip)},
    {"empty recording", STORED(empty_recording), BY_KIND_ALONE},
};

static const struct chip chips[] = {
    {"message passing with dmb sy, ctrl and isb", STORED(message_passing_with_dmb_sy_ctrl_link_and_isb),
     /* across a dmb sy, rfe, ctrl into the isb and on to the read, fre */
     .armv8 = STEPS(1, 3, 10, 3, 4, 1, 4, 6, 7, 6, 1, 2)},
    /* an isb orders nothing by itself */
    {"message passing with dmb sy and isb", STORED(message_passing_with_dmb_sy_and_isb), .armv8 = {0, NULL}},
    {"48 events in a ring", SIZED(all_48),
     "chip broken 5 1 2 3 4 5 6 7 8 9 10 11 12 13 14 15 16 17 18 19 20 21 22 23 24 25 26 27 28 29 30 31 32 33 34 35 36 37 38 39 40 "
     "41 42 43 44 45 46 47 48\n",
     /* addr within the threads, fre to each write, rfe from it */
     .armv8 = STEPS(1, 2, 4, 2, 3, 4, 3, 4, 4, 4, 5, 4, 5, 6, 4, 6, 7, 4, 7, 8, 4, 8, 9, 4, 9, 10, 4, 10, 11, 4, 11, 12, 4, 12, 13, 4,
                    13, 14, 4, 14, 15, 4, 15, 16, 4, 16, 17, 4, 17, 18, 4, 18, 19, 2, 19, 20, 1, 20, 21, 4, 21, 22, 4, 22, 23, 4,
                    23, 24, 4, 24, 25, 4, 25, 26, 4, 26, 27, 4, 27, 28, 4, 28, 29, 4, 29, 30, 4, 30, 31, 4, 31, 32, 4, 32, 33, 4,
                    33, 34, 4, 34, 35, 4, 35, 36, 4, 36, 37, 4, 37, 38, 2, 38, 39, 1, 39, 40, 4, 40, 41, 4, 41, 42, 4, 42, 43, 4,
                    43, 44, 4, 44, 45, 4, 45, 46, 4, 46, 47, 4, 47, 48, 2, 48, 1, 1)},
};

#define BYTES(...) EVENTS(__VA_ARGS__), sizeof(EVENTS(__VA_ARGS__))

/* the records of 13 fences, each but the last before the next */
#define CHAIN_OF_13 \
    2, 3, 1, 0, 0, 0, 0, 0, \
    3, 3, 1, 0, 0, 0, 0, 0, \
    4, 3, 1, 0, 0, 0, 0, 0, \
    5, 3, 1, 0, 0, 0, 0, 0, \
    6, 3, 1, 0, 0, 0, 0, 0, \
    7, 3, 1, 0, 0, 0, 0, 0, \
    8, 3, 1, 0, 0, 0, 0, 0, \
    9, 3, 1, 0, 0, 0, 0, 0, \
    10, 3, 1, 0, 0, 0, 0, 0, \
    11, 3, 1, 0, 0, 0, 0, 0, \
    12, 3, 1, 0, 0, 0, 0, 0, \
    13, 3, 1, 0, 0, 0, 0, 0, \
    0, 3, 1, 0, 0, 0, 0, 0

static const struct {
    const char *name;
    const uint8_t *file;
    size_t length;
    unsigned cause;
} refusals[] = {
    {"under 8 bytes", BYTES(1, 0, 0, 0, 0, 0, 0), 1},
    {"kind 3", BYTES(3, 0, 0, 0, 0, 0, 0, 0), 2},
    {"33 events in a source file", BYTES(1, 33, 0, 0, 0, 0, 0, 0), 3},
    {"no record of the one event", BYTES(1, 1, 1, 0, 1, 0, 0, 0), 4},
    {"class 0",
     BYTES(1, 1, 1, 0, 1, 0, 0, 0,
           0, 0, 0, 0, 0, 0, 0, 0),
     5},
    {"isb in a source file",
     BYTES(1, 1, 0, 0, 1, 0, 0, 0,
           0, 3, 7, 0, 0, 0, 0, 0),
     5},
    {"isb with flag 1",
     BYTES(2, 1, 0, 0, 1, 0, 0, 0,
           0, 3, 7, 1, 0, 0, 0, 0),
     5},
    {"isb with a value",
     BYTES(2, 1, 0, 0, 1, 0, 0, 0,
           0, 3, 7, 0, 0, 1, 0, 0),
     5},
    {"fence of mode 8 in a chip file",
     BYTES(2, 1, 0, 0, 1, 0, 0, 0,
           0, 3, 8, 0, 0, 0, 0, 0),
     5},
    {"event on no thread",
     BYTES(1, 1, 1, 0, 0, 0, 0, 0,
           0, 1, 0, 0, 0, 0, 0, 0),
     6},
    {"13 events of a thread, and an event on no thread",
     BYTES(1, 14, 0, 0, 1, 0, 0, 0,
           CHAIN_OF_13,
           0, 3, 1, 0, 0, 0, 0, 0),
     6},
    {"13 events of a thread in a source file",
     BYTES(1, 13, 0, 0, 1, 0, 0, 0,
           CHAIN_OF_13),
     13},
    {"19 events of a thread in a chip file",
     BYTES(2, 19, 0, 0, 0, 0, 0, 1,
           2, 3, 5, 0, 0, 0, 0, 0,
           3, 3, 5, 0, 0, 0, 0, 0,
           4, 3, 5, 0, 0, 0, 0, 0,
           5, 3, 5, 0, 0, 0, 0, 0,
           6, 3, 5, 0, 0, 0, 0, 0,
           7, 3, 5, 0, 0, 0, 0, 0,
           8, 3, 5, 0, 0, 0, 0, 0,
           9, 3, 5, 0, 0, 0, 0, 0,
           10, 3, 5, 0, 0, 0, 0, 0,
           11, 3, 5, 0, 0, 0, 0, 0,
           12, 3, 5, 0, 0, 0, 0, 0,
           13, 3, 5, 0, 0, 0, 0, 0,
           14, 3, 5, 0, 0, 0, 0, 0,
           15, 3, 5, 0, 0, 0, 0, 0,
           16, 3, 5, 0, 0, 0, 0, 0,
           17, 3, 5, 0, 0, 0, 0, 0,
           18, 3, 5, 0, 0, 0, 0, 0,
           19, 3, 5, 0, 0, 0, 0, 0,
           0, 3, 5, 0, 0, 0, 0, 0),
     13},
    {"13 events of a thread, and a link into no event",
     BYTES(1, 13, 1, 1, 0, 1, 0, 0,
           CHAIN_OF_13,
           0, 1, 56, 0),
     13},
    {"link into no event",
     BYTES(1, 1, 1, 1, 1, 0, 0, 0,
           0, 1, 0, 0, 0, 0, 0, 0,
           0, 1, 56, 0),
     7},
    {"link of type 8",
     BYTES(1, 1, 1, 1, 1, 0, 0, 0,
           0, 1, 0, 0, 0, 0, 0, 1,
           0, 8, 56, 0),
     8},
    {"two writes each co-before the other",
     BYTES(1, 2, 1, 2, 1, 0, 0, 0,
           2, 2, 0, 0, 0, 1, 0, 1,
           0, 2, 0, 0, 0, 2, 0, 2,
           0, 2, 2, 0,
           0, 2, 1, 0),
     9},
    {"strong write without rmw",
     BYTES(1, 1, 1, 0, 1, 0, 0, 0,
           0, 2, 0, 1, 0, 1, 0, 0),
     10},
};

#define BLANK "                    "

static const struct printout printouts[] = {
    {"store buffering with SC fences", SIZED(store_buffering_with_sc_fences), 2, EVENTS(2, 5), store_buffering_with_sc_fences_page},
    {"its translation", SIZED(dmb_sy_chip), 4, EVENTS(1, 3, 4, 6),
     " 1 W00 0     1 *    " " 4 W00 1     1 *    " BLANK BLANK "\n"
     " 2 F60              " " 5 F60              " BLANK BLANK "\n"
     " 3 R00 1     0 *    " " 6 R00 0     0 *    " BLANK BLANK "\n"},
    {"message passing with dmb sy, ctrl and isb", SIZED(message_passing_with_dmb_sy_ctrl_link_and_isb), 5, EVENTS(1, 3, 4, 6, 5),
     " 1 W00 0     1 *    " " 4 R00 1     1 *    " BLANK BLANK "\n"
     " 2 F60              " " 5 F70         *    " BLANK BLANK "\n"
     " 3 W00 1     1 *    " " 6 R00 0     0 *    " BLANK BLANK "\n"},
    {"every form of a block, with a ring that holds much else", SIZED(forms), 12, EVENTS(255, 0, 9, 12, 13, 2, 12, 55, 56, 63, 64, 128),
     " 3 W20 0     7      " BLANK " 2 F30         *    " "11 R01 5    99      \n"
     " 1 R10 7 65535      " BLANK BLANK                  " 4 R11 3   255      \n"
     "12 W00 6  9999 *    " BLANK BLANK                  " 5 W21 3   256      \n"
     "10 W00 2  1000      " BLANK BLANK                  " 6 F10              \n"
     BLANK                  BLANK BLANK                  " 7 F20              \n"
     BLANK                  BLANK BLANK                  " 8 F40              \n"
     BLANK                  BLANK BLANK                  " 9 R00 1 10000 *    \n"},
    {"six strong pairs, translated: the longest page", SIZED(six_pairs_chip), 3, EVENTS(18, 9, 10),
     BLANK BLANK " 1 R01 0     0      " BLANK "\n"
     BLANK BLANK " 2 W00 0     1      " BLANK "\n"
     BLANK BLANK "13 F50              " BLANK "\n"
     BLANK BLANK " 3 R01 1     0      " BLANK "\n"
     BLANK BLANK " 4 W00 1     1      " BLANK "\n"
     BLANK BLANK "14 F50              " BLANK "\n"
     BLANK BLANK " 5 R01 2     0      " BLANK "\n"
     BLANK BLANK " 6 W00 2     1      " BLANK "\n"
     BLANK BLANK "15 F50              " BLANK "\n"
     BLANK BLANK " 7 R01 3     0      " BLANK "\n"
     BLANK BLANK " 8 W00 3     1      " BLANK "\n"
     BLANK BLANK "16 F50              " BLANK "\n"
     BLANK BLANK " 9 R01 4     0 *    " BLANK "\n"
     BLANK BLANK "10 W00 4     1 *    " BLANK "\n"
     BLANK BLANK "17 F50              " BLANK "\n"
     BLANK BLANK "11 R01 5     0      " BLANK "\n"
     BLANK BLANK "12 W00 5     1      " BLANK "\n"
     BLANK BLANK "18 F50         *    " BLANK "\n"},
    {"empty recording", SIZED(empty_recording), 2, EVENTS(1, 2), empty_recording_page},
};
