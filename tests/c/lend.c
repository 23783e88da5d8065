/* See lend.h. */
#define _GNU_SOURCE
#include "lend.h"

#include <stdio.h>
#include <stdlib.h>
#include <sys/mman.h>

#define PAGE 4096u

static uint8_t pattern(size_t at)
{
    return (uint8_t)(at * 37u + 11u);
}

struct lent lend(size_t length, int first)
{
    struct lent buffer;
    buffer.open = ((length + PAGE - 1) / PAGE + 1) * PAGE;
    buffer.pages = mmap(NULL, buffer.open + 2u * PAGE, PROT_READ | PROT_WRITE, MAP_PRIVATE | MAP_ANONYMOUS, -1, 0);
    if (buffer.pages == MAP_FAILED) {
        perror("lend");
        exit(2);
    }
    uint8_t *open = buffer.pages + PAGE;
    for (size_t at = 0; at < buffer.open; at++)
        open[at] = pattern(at);
    mprotect(buffer.pages, PAGE, PROT_NONE);
    mprotect(open + buffer.open, PAGE, PROT_NONE);
    buffer.at = first ? open : open + buffer.open - length;
    buffer.length = length;
    return buffer;
}

int lent_stays(const struct lent *buffer, size_t from)
{
    const uint8_t *open = buffer->pages + PAGE;
    size_t start = (size_t)(buffer->at - open);
    for (size_t at = 0; at < buffer->open; at++) {
        int written = start <= at && at < start + from;
        if (!written && open[at] != pattern(at))
            return 0;
    }
    return 1;
}

void lent_back(struct lent *buffer)
{
    munmap(buffer->pages, buffer->open + 2u * PAGE);
}
