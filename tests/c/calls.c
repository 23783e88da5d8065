/* Calls every function of the library from C, on recordings written out by hand and stored ones, and compares answers and outputs.
 * File, ring and output each lie against a forbidden page, once at their end and once at their start, between guard bytes (lend.h);
 * every output is lent longer than it need be, as long, a byte shorter, and empty. */
#include "lend.h"
#include "probe.h"

#include <stdio.h>
#include <stdlib.h>
#include <string.h>

typedef probe_answer (*call)(const uint8_t *, size_t, uint8_t *, size_t);

#define EVENTS(...) ((const uint8_t[]){__VA_ARGS__})
#define SIZED(file) file, sizeof file

static int passed, failed;

static void expect(int holds, const char *name, const char *what)
{
    if (holds) {
        passed++;
        return;
    }
    failed++;
    printf("%s: %s\n", name, what);
}

/* One call, with file and output at the start or the end of their pages: is the answer `answer`, and the output `bytes`? */
static void lent_call(call function, const char *name, const uint8_t *file, size_t length, size_t room, int first, probe_answer answer,
                      const uint8_t *bytes)
{
    struct lent in = lend(length, first), out = lend(room, first);
    memcpy(in.at, file, length);
    probe_answer got = function(in.at, length, out.at, room);
    size_t written = PROBE_LENGTH(answer);
    expect(got == answer, name, "another answer");
    expect(memcmp(in.at, file, length) == 0 && lent_stays(&in, length), name, "the file was written to");
    expect(lent_stays(&out, written), name, "bytes were written that had to stay");
    expect(written == 0 || memcmp(out.at, bytes, written) == 0, name, "another output");
    lent_back(&in);
    lent_back(&out);
}

/* The call at each room, where the answer without a refusal is `answer`. */
static void at_each_room(call function, const char *name, const uint8_t *file, size_t length, probe_answer answer, const uint8_t *bytes)
{
    size_t need = PROBE_LENGTH(answer);
    for (int first = 0; first < 2; first++) {
        lent_call(function, name, file, length, need + 700, first, answer, bytes);
        lent_call(function, name, file, length, need, first, answer, bytes);
        if (need > 0) {
            lent_call(function, name, file, length, need - 1, first, PROBE_ROOM, bytes);
            lent_call(function, name, file, length, 0, first, PROBE_ROOM, bytes);
        }
    }
}

static probe_answer coded(unsigned refusal, unsigned rule, size_t written)
{
    return refusal | (probe_answer)rule << 8 | (probe_answer)written << 16;
}

/* A call that is refused, whatever its room. */
static void refused(call function, const char *name, const uint8_t *file, size_t length, unsigned cause)
{
    at_each_room(function, name, file, length, coded(cause, 0, 0), NULL);
}

static void loads(const char *name, const uint8_t *file, size_t length, unsigned cause)
{
    for (int first = 0; first < 2; first++) {
        struct lent in = lend(length, first);
        memcpy(in.at, file, length);
        expect(probe_load(in.at, length) == coded(cause, 0, 0), name, "another answer of probe_load");
        expect(memcmp(in.at, file, length) == 0 && lent_stays(&in, length), name, "probe_load wrote to the file");
        lent_back(&in);
    }
}

static void prints(const char *name, const uint8_t *file, size_t length, const char *lines)
{
    at_each_room(probe_judge, name, file, length, coded(0, 0, strlen(lines)), (const uint8_t *)lines);
}

/* The ring that is lent to probe_page, by which it has the form of the other calls. */
static struct lent ring;

static probe_answer page(const uint8_t *file, size_t length, uint8_t *out, size_t room)
{
    return probe_page(file, length, ring.at, ring.length, out, room);
}

/* probe_page with a ring that lies against a forbidden page, once at its end and once at its start, at each room. */
static void page_with(const char *name, const uint8_t *file, size_t length, const uint8_t *events, size_t count, probe_answer answer,
                      const char *text)
{
    for (int first = 0; first < 2; first++) {
        ring = lend(count, first);
        memcpy(ring.at, events, count);
        at_each_room(page, name, file, length, answer, (const uint8_t *)text);
        expect(memcmp(ring.at, events, count) == 0 && lent_stays(&ring, count), name, "the ring was written to");
        lent_back(&ring);
    }
}

/* The number of the model that probe_why is called with, by which it has the form of the other calls. */
static uint64_t model;

static probe_answer why(const uint8_t *file, size_t length, uint8_t *out, size_t room)
{
    return probe_why(file, length, model, out, room);
}

/* Numbers that are no model's; the low byte, or the low four, of some are a model's number. */
static const uint64_t no_models[] = {0, 4, 5, 255, 256, 256 + 1, 256 + 2, 256 + 3, 65536 + 2, (1ull << 32) + 1, (1ull << 32) + 2,
                                     (1ull << 63) + 3, UINT64_MAX - 1, UINT64_MAX};

/* probe_why by a number that is refused. */
static void why_refused(const char *name, const uint8_t *file, size_t length, uint64_t number, unsigned cause)
{
    model = number;
    refused(why, name, file, length, cause);
}

static void why_refused_by_no_models(const char *name, const uint8_t *file, size_t length, unsigned cause)
{
    for (size_t i = 0; i < sizeof no_models / sizeof no_models[0]; i++)
        why_refused(name, file, length, no_models[i], cause);
}

/* A file that no call but probe_judge takes. */
static void refused_by_all(const char *name, const uint8_t *file, size_t length, unsigned cause)
{
    char line[16];
    snprintf(line, sizeof line, "refused %u\n", cause);
    loads(name, file, length, cause);
    refused(probe_imm, name, file, length, cause);
    refused(probe_armv8, name, file, length, cause);
    refused(probe_tso, name, file, length, cause);
    refused(probe_translate, name, file, length, cause);
    for (uint64_t number = PROBE_IMM; number <= PROBE_TSO; number++)
        why_refused(name, file, length, number, cause);
    why_refused_by_no_models(name, file, length, cause);
    page_with(name, file, length, EVENTS(1, 2), 2, coded(cause, 0, 0), NULL);
    prints(name, file, length, line);
}

/* A recording with a ring, and its page. */
struct printout {
    const char *name;
    const uint8_t *file;
    size_t length;
    size_t count;
    const uint8_t *ring;
    const char *page;
};

/* Lengths of rings that a number of one byte, or of two, does not hold. */
static const size_t long_rings[] = {256, 257, 65536, 65537};

/* The page with the ring, with the ring at the end of longer ones, and, without its stars, with the empty ring. */
static void printout(const struct printout *p)
{
    static uint8_t longer[65537];
    char plain[PROBE_MOST_PAGE + 1];
    probe_answer answer = coded(0, 0, strlen(p->page));
    page_with(p->name, p->file, p->length, p->ring, p->count, answer, p->page);
    for (size_t i = 0; i < sizeof long_rings / sizeof long_rings[0]; i++) {
        memset(longer, 0, sizeof longer);
        memcpy(longer + long_rings[i] - p->count, p->ring, p->count);
        page_with(p->name, p->file, p->length, longer, long_rings[i], answer, p->page);
    }
    strcpy(plain, p->page);
    for (char *star = plain; (star = strchr(star, '*')) != NULL;)
        *star = ' ';
    page_with(p->name, p->file, p->length, p->ring, 0, answer, plain);
}

#define BLOCK 20u
#define BLOCKS 4u
#define LINE (BLOCKS * BLOCK + 1u)
#define STAR 15u /* the column of the star in a block, from 0 */
_Static_assert(PROBE_MOST_PAGE == 18 * LINE, "a page has at most 18 lines");

/* Where the block of each event stands in a page, and how many bytes the page has. */
static size_t find_blocks(const uint8_t *file, size_t places[256])
{
    size_t size = 0;
    for (size_t thread = 0; thread < BLOCKS; thread++) {
        size_t line = 0;
        for (unsigned event = file[4 + thread]; event != 0; event = file[8 * event])
            places[event] = LINE * line++ + BLOCK * thread;
        if (size < LINE * line)
            size = LINE * line;
    }
    return size;
}

/* Whether a page has each event's number at its place, and spaces in every other block. */
static int blocks_stand(const char *text, size_t size, const size_t places[256], unsigned events)
{
    char rest[PROBE_MOST_PAGE], number[16];
    memcpy(rest, text, size);
    for (unsigned event = 1; event <= events; event++) {
        snprintf(number, sizeof number, "%2u ", event);
        if (memcmp(text + places[event], number, 3) != 0)
            return 0;
        memset(rest + places[event], ' ', BLOCK);
    }
    for (size_t at = 0; at < size; at++)
        if (rest[at] != (at % LINE == LINE - 1 ? '\n' : ' '))
            return 0;
    return 1;
}

/* Of a recording that loads: every event has its block, a ring of one byte gives a star to that event and changes nothing else, and a
 * ring may lie in the file. */
static void stars(const char *name, const uint8_t *file, size_t length)
{
    char plain[PROBE_MOST_PAGE], wanted[PROBE_MOST_PAGE], got[PROBE_MOST_PAGE];
    size_t places[256], size = find_blocks(file, places);
    probe_answer answer = probe_page(file, length, file, 0, (uint8_t *)plain, sizeof plain);
    expect(answer == coded(0, 0, size) && blocks_stand(plain, size, places, file[1]), name, "blocks at other places");
    expect(memchr(plain, '*', size) == NULL, name, "a star without a ring");
    for (unsigned event = 0; event < 256; event++) {
        uint8_t number = (uint8_t)event;
        memcpy(wanted, plain, size);
        if (1 <= event && event <= file[1])
            wanted[places[event] + STAR] = '*';
        answer = probe_page(file, length, &number, 1, (uint8_t *)got, sizeof got);
        expect(answer == coded(0, 0, size) && memcmp(got, wanted, size) == 0, name, "other than one star for a ring of one byte");
    }
    memcpy(wanted, plain, size);
    for (unsigned event = 1; event <= file[1]; event++)
        if (memchr(file, (int)event, length) != NULL)
            wanted[places[event] + STAR] = '*';
    answer = probe_page(file, length, file, length, (uint8_t *)got, sizeof got);
    expect(answer == coded(0, 0, size) && memcmp(got, wanted, size) == 0, name, "other stars for the file as a ring");
}

/* The verdict that a line of the judge's says: the broken rule or 0, and the events shown. */
struct verdict {
    unsigned rule;
    size_t shown;
    uint8_t events[PROBE_MOST_EVENTS];
};

static struct verdict said(const char *line)
{
    struct verdict v = {0, 0, {0}};
    char *at = strchr(line, ' ') + 1;
    if (strncmp(at, "broken", strlen("broken")) == 0)
        v.rule = (unsigned)strtoul(at + strlen("broken"), &at, 10);
    else
        at += strlen("allowed");
    while (*at == ' ' && v.shown < sizeof v.events)
        v.events[v.shown++] = (uint8_t)strtoul(at, &at, 10);
    return v;
}

static void judged(call function, const char *name, const uint8_t *file, size_t length, const char *line)
{
    struct verdict v = said(line);
    at_each_room(function, name, file, length, coded(0, v.rule, v.shown), v.events);
}

/* What probe_why has to write where a line says that rule 3 or 5 is broken: the steps of the ring, three bytes each. */
struct steps {
    size_t length;
    const uint8_t *bytes;
};

/* probe_why by a model whose verdict the line says. */
static void explained(const char *name, const uint8_t *file, size_t length, uint64_t number, const char *line, const struct steps *s)
{
    unsigned rule = said(line).rule;
    expect((s->length > 0) == (rule == 3 || rule == 5), name, "steps are not written down for each ring, or for what is none");
    model = number;
    at_each_room(why, name, file, length, coded(0, rule, s->length), s->bytes);
}

/* A chip file with what the judge prints of it, and the steps of its ring. */
struct chip {
    const char *name;
    const uint8_t *file;
    size_t length;
    const char *line;
    struct steps armv8;
};

static void chip(const struct chip *c)
{
    loads(c->name, c->file, c->length, 0);
    refused(probe_imm, c->name, c->file, c->length, PROBE_OTHER_KIND);
    refused(probe_tso, c->name, c->file, c->length, PROBE_OTHER_KIND);
    refused(probe_translate, c->name, c->file, c->length, PROBE_OTHER_KIND);
    judged(probe_armv8, c->name, c->file, c->length, c->line);
    explained(c->name, c->file, c->length, PROBE_ARMV8, c->line, &c->armv8);
    why_refused(c->name, c->file, c->length, PROBE_IMM, PROBE_OTHER_KIND);
    why_refused(c->name, c->file, c->length, PROBE_TSO, PROBE_OTHER_KIND);
    why_refused_by_no_models(c->name, c->file, c->length, PROBE_OTHER_KIND);
    prints(c->name, c->file, c->length, c->line);
    stars(c->name, c->file, c->length);
}

/* A source file with what the judge prints of it, its translation, and the steps of its rings, that of the translation among them. A
 * translation that differs in its kind alone is left out. */
struct source {
    const char *name;
    const uint8_t *file;
    size_t length;
    const char *lines;
    const uint8_t *chip;
    size_t chip_length;
    struct steps imm, armv8, tso;
};

static const char *next_line(const char *line)
{
    return strchr(line, '\n') + 1;
}

static void source(const struct source *s)
{
    const char *imm = s->lines, *armv8 = next_line(imm), *tso = next_line(armv8);
    char chip_line[PROBE_MOST_LINES + 1];
    uint8_t other_kind[PROBE_MOST_TRANSLATION];
    struct chip c = {s->name, s->chip, s->chip_length, chip_line, s->armv8};
    snprintf(chip_line, sizeof chip_line, "%.*s", (int)(tso - armv8), armv8);
    if (s->chip == NULL) {
        memcpy(other_kind, s->file, s->length);
        other_kind[0] = 2;
        c.file = other_kind;
        c.length = s->length;
    }
    loads(s->name, s->file, s->length, 0);
    judged(probe_imm, s->name, s->file, s->length, imm);
    judged(probe_tso, s->name, s->file, s->length, tso);
    refused(probe_armv8, s->name, s->file, s->length, PROBE_OTHER_KIND);
    explained(s->name, s->file, s->length, PROBE_IMM, imm, &s->imm);
    explained(s->name, s->file, s->length, PROBE_TSO, tso, &s->tso);
    why_refused(s->name, s->file, s->length, PROBE_ARMV8, PROBE_OTHER_KIND);
    why_refused_by_no_models(s->name, s->file, s->length, PROBE_OTHER_KIND);
    at_each_room(probe_translate, s->name, s->file, s->length, coded(0, 0, c.length), c.file);
    prints(s->name, s->file, s->length, s->lines);
    stars(s->name, s->file, s->length);
    chip(&c);
}

#include "recordings.h"

int main(void)
{
    for (size_t i = 0; i < sizeof sources / sizeof sources[0]; i++)
        source(&sources[i]);
    for (size_t i = 0; i < sizeof chips / sizeof chips[0]; i++)
        chip(&chips[i]);
    for (size_t i = 0; i < sizeof refusals / sizeof refusals[0]; i++)
        refused_by_all(refusals[i].name, refusals[i].file, refusals[i].length, refusals[i].cause);
    for (size_t i = 0; i < sizeof printouts / sizeof printouts[0]; i++)
        printout(&printouts[i]);
    stars("every form of a block", SIZED(forms));
    printf("%d passed, %d failed\n", passed, failed);
    return failed != 0 || passed == 0;
}
