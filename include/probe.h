/* The order probe's judge: the calls of libprobe.a (crates/probe).
 *
 * A file is any bytes: a recording of memory events, of kind 1 (source) or 2 (chip), or anything else. No call keeps a pointer,
 * allocates, reads or writes outside what it is lent, or fails to return, whatever the file holds; each is proved to answer as said
 * here (crates/probe/src/lib.rt). The library has no state and may be called from several threads. Its archive is for x86-64 only.
 *
 * A pointer and the length behind it lend that many bytes. They must be readable (file, ring) or writable (out). out must not overlap
 * the others; file and ring, which are only read, may overlap. A pointer must not be null, even where its length is 0.
 *
 * Every answer has one form:
 *   PROBE_REFUSAL(answer)  0, or the number of the cause that refused the call (below); then the other parts are 0
 *   PROBE_RULE(answer)     of a verdict and of probe_why: 0 where the recording is allowed, else the first broken rule, 1 to 5
 *   PROBE_LENGTH(answer)   how many bytes were written to the start of out
 * Bytes of out behind those written keep their contents. A refused call leaves all of out as it was.
 */
#ifndef PROBE_H
#define PROBE_H

#include <stddef.h>
#include <stdint.h>

#ifdef __cplusplus
extern "C" {
#endif

typedef uint64_t probe_answer;

#define PROBE_REFUSAL(answer) ((unsigned)((answer) & 255u))
#define PROBE_RULE(answer) ((unsigned)(((answer) >> 8) & 255u))
#define PROBE_LENGTH(answer) ((size_t)((answer) >> 16))

/* The causes of refusal, in the order in which they are tried. Of several that apply the first in this order is answered. */
enum {
    PROBE_SHORT = 1,        /* under 8 bytes */
    PROBE_KIND = 2,         /* kind not 1 or 2 */
    PROBE_LIMIT = 3,        /* number of events, locations or links over its limit */
    PROBE_FILE_LENGTH = 4,  /* length not 8 + 8 times the events + 4 times the links */
    PROBE_EVENT = 5,        /* class, mode, flag, location or a fence's value not as the layout has them */
    PROBE_THREADS = 6,      /* a thread chain leaves the records, or an event is met twice or never */
    PROBE_LONG_THREAD = 13, /* a thread chain has over 12 events in a source file, over 18 in a chip file */
    PROBE_CHAINS = 7,       /* a link chain leaves the records, or a link is met twice or never */
    PROBE_LINK = 8,         /* link type not 1 to 7, its conditions broken, or its last byte not 0 */
    PROBE_CO_RING = 9,      /* co leads back to its start */
    PROBE_STRONG = 10,      /* strong write without rmw */
    PROBE_OTHER_KIND = 11,  /* probe_imm, probe_tso or probe_translate of a chip file, probe_armv8 of a source file; probe_why by a model
                               of the other kind of file, or by a number that is no model's */
    PROBE_ROOM = 12         /* out is shorter than what is to be written; nothing was written */
};

/* Room that is always enough. */
#define PROBE_MOST_EVENTS 64u        /* for probe_imm, probe_armv8 and probe_tso */
#define PROBE_MOST_TRANSLATION 1320u /* for probe_translate */
#define PROBE_MOST_LINES 960u        /* for probe_judge */
#define PROBE_MOST_PAGE 1458u        /* for probe_page */
#define PROBE_MOST_WHY 192u          /* for probe_why: 64 steps */

/* A file that loads has at most so many bytes. */
#define PROBE_MOST_FILE 1412u

/* Does the file load? Refusals 1 to 10 and 13; writes nothing. */
probe_answer probe_load(const uint8_t *file, size_t length);

/* The verdict of IMM and that of x86-TSO on a source file, and of ARMv8 on a chip file. Refusals 1 to 13.
 * Writes the numbers of the events that are shown, a byte each; an initial write of location l has the number 56 + l:
 *   allowed          all events, ordered by the relation of rule 5 (IMM: ar, ARMv8: ob, x86-TSO: tso), always taking next the
 *                    smallest number whose predecessors are out; initial writes need not come first
 *   broken 1         the smallest read that has no source
 *   broken 2         two writes of one location that co does not order: the pair with the smallest first, then the smallest second
 *   broken 4         the read and the write of a pair that another write comes between: the pair with the smallest read
 *   broken 3 and 5   a ring of distinct events, the smallest first, each ordered before the next and the last before the first;
 *                    no ring that may be shown has fewer events, and which of several that have as few is shown is free
 * A source file that probe_imm calls broken, under any rule, is one that probe_tso calls broken.
 * Of two files that load and differ only in how events and threads are numbered and links are chained, each call gives the same
 * refusal and the same rule, where out has PROBE_MOST_EVENTS bytes or more; the events that are shown go by number and may differ.
 * docs/FORMAT.md has the rules and the relations, docs/READING.md how to read what is shown. */
probe_answer probe_imm(const uint8_t *file, size_t length, uint8_t *out, size_t room);
probe_answer probe_armv8(const uint8_t *file, size_t length, uint8_t *out, size_t room);
probe_answer probe_tso(const uint8_t *file, size_t length, uint8_t *out, size_t room);

/* The models, as probe_why takes them. */
enum {
    PROBE_IMM = 1,   /* IMM, of source files */
    PROBE_ARMV8 = 2, /* ARMv8, of chip files */
    PROBE_TSO = 3    /* x86-TSO, of source files */
};

/* Why a model's verdict on a file is broken 3 or 5: the clause behind each step of a ring. Refusals 1 to 13.
 * PROBE_RULE is that of the model's verdict. Where it is 3 or 5, three bytes are written for each step, in the ring's order: an event, the
 * next one (behind the last the first), and the number of the clause, of this model and rule, that leads from the one to the other. The
 * ring is one that the verdict may show: a shortest one, its smallest event first. Where the rule is 0, 1, 2 or 4, nothing is written.
 * Any other number than the three, 257 too, is no model's: a file that does not load gets its cause, and every other file 11.
 *
 * Where several clauses lead from an event to the next, the first in the list is named. In the names `;` is "then", `|` "or", `?` "or
 * nothing", and [A] says that an event is of the set A; docs/FORMAT.md has each as a formula. In the words behind them, within a thread is
 * po: from earlier to later in a thread, or from an initial write to a recorded event.
 *
 * IMM, rule 3. 3 to 7, eco, are at most one step of a ring.
 *    1  po                            within a thread
 *    2  sw                            from a release write or fence to an acquire read or fence that sees a write of its release sequence
 *    3  rf                            to a read of the write
 *    4  co                            to a later write of the location
 *    5  co;rf                         to a read of such a write
 *    6  fr                            from a read to a write later than the one it reads
 *    7  fr;rf                         to a read of such a write
 * IMM, rule 5.
 *    1  rfe                           rf, not within a thread
 *    2  po;[Wrel]                     into a release write
 *    3  [Racq];po                     out of an acquire read
 *    4  po;[F]                        into a fence
 *    5  [F];po                        out of a fence
 *    6  [Wrel];po-loc;[W]             from a release write to a later write of its location, within a thread
 *    7  ppo                           from a read to a write that depends on it
 *    8  detour                        from a write to a read behind it that reads a later write, of another thread
 *    9  psc                           from an SC fence by hb, eco and hb to an SC fence
 *   10  [Wstrong];po;[W]              from a strong write to a later write of its thread
 * ARMv8 and x86-TSO, rule 3.
 *    1  po-loc                        within a thread, at one location
 *    2  rf                            to a read of the write
 *    3  fr                            from a read to a write later than the one it reads
 *    4  co                            to a later write of the location
 * ARMv8, rule 5.
 *    1  rfe                           rf, not within a thread
 *    2  fre                           fr, not within a thread
 *    3  coe                           co, not within a thread
 *    4  (addr|data);rfi?              to what has the read's value in its address or as its data, or to a read of that in the thread
 *    5  (ctrl|data);[W];coi?          to a write that has the read's value as its data or is behind a branch on it, or to a later write of
 *                                     that location in the thread
 *    6  addr;po;[W]                   to a write behind what has the read's value in its address
 *    7  (ctrl|addr;po);[Fisb];po;[R]  across an isb to a read, where the isb is behind a branch on the value of the first read, or behind
 *                                     what has it in its address
 *    8  rmw                           from the read of a pair to its write
 *    9  [codom(rmw)];rfi;[Racq]       from the write of a pair to an ldar of it in the thread
 *   10  po;[Fsy];po                   across a dmb sy
 *   11  [R];po;[Fld];po               from a read across a dmb ld
 *   12  [Racq];po                     out of an ldar
 *   13  po;[Wrel];coi?                into an stlr, or on to a later write of its location in the thread
 *   14  [Wrel];po;[Racq]              from an stlr to a later ldar
 * x86-TSO, rule 5. Full are SC fences and the events of rmw pairs, nodes these and all reads and writes.
 *    1  [R];po;([R]|[W])              from a read to a later read or write of its thread
 *    2  [W];po;[W]                    from a write to a later write of its thread
 *    3  node;po;full                  into a full event
 *    4  full;po;node                  out of a full event
 *    5  rfe                           rf, not within a thread
 *    6  co                            to a later write of the location
 *    7  fr                            from a read to a write later than the one it reads */
probe_answer probe_why(const uint8_t *file, size_t length, uint64_t model, uint8_t *out, size_t room);

/* The translation of a source file to ARMv8 instructions, a chip file that loads. Refusals 1 to 13.
 * A source file that probe_imm calls broken has a translation that probe_armv8 calls broken. */
probe_answer probe_translate(const uint8_t *file, size_t length, uint8_t *out, size_t room);

/* The lines that the program judge prints of the file: of a source file a line `source` for it by IMM, a line `chip` for its translation
 * by ARMv8 and a line `tso` for it by x86-TSO, of a chip file a line `chip`, of a refused file the line `refused` and the number. Each ends
 * in a line feed; there is no 0 behind them. Refusal 12 only. */
probe_answer probe_judge(const uint8_t *file, size_t length, uint8_t *out, size_t room);

/* The printed page of a file of either kind, with a star at each event of the ring. Refusals 1 to 10 and 13, then 12; never 11.
 * Line k has four blocks of 20 columns, one for each thread, with the k-th event of its chain, or spaces where the thread has fewer.
 * It ends in a line feed, 81 bytes in all, and nothing is trimmed. There are as many lines as the longest thread has events, at most
 * 18: a file without events has a page of 0 bytes, which any room is enough for. There is no 0 behind the page. A block has in columns
 *   1 and 2   the event's number, right-aligned
 *   4         R, W or F: a read, a write or a fence
 *   5, 6      the digits of its mode and its flag
 *   8         the digit of its location; a fence has a space
 *   10 to 14  its value in decimal, right-aligned; a fence has spaces
 *   16        a star, where the event is of the ring
 * and spaces in the others.
 * The ring is `count` bytes, any number of any bytes: an event has a star where its number is among them. Bytes that are no number of a
 * recorded event, as 0 and the initial writes' 56 and up, do nothing, and neither do repeats nor the order.
 * To star what broke a rule, pass the events that probe_imm or probe_tso (source) or probe_armv8 (chip) wrote where PROBE_RULE of its
 * answer is not 0. Where it is 0, pass none, with count 0: an allowed verdict shows all events. */
probe_answer probe_page(const uint8_t *file, size_t length, const uint8_t *ring, size_t count, uint8_t *out, size_t room);

#ifdef __cplusplus
}
#endif

#endif
