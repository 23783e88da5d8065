/* Buffers that end, or start, at a page that can be neither read nor written, with guard bytes at their other side.
 * Assumes mmap and mprotect. */
#ifndef LEND_H
#define LEND_H

#include <stddef.h>
#include <stdint.h>

/* Bytes of which `length` are lent at `at`; `open` of them lie between the two forbidden pages. */
struct lent {
    uint8_t *pages;
    size_t open;
    uint8_t *at;
    size_t length;
};

/* Lends `length` bytes whose last byte (or, with `first`, whose first byte) stands at a forbidden page. They and their guard bytes,
 * at least a page of them, are filled with a pattern. */
struct lent lend(size_t length, int first);

/* Whether the guard bytes and the lent bytes from `from` on still hold the pattern. */
int lent_stays(const struct lent *buffer, size_t from);

void lent_back(struct lent *buffer);

#endif
