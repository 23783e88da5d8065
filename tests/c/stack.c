/* The peak stack of each call: a thread whose stack is painted runs the call on every file, and what is no longer paint was used.
 * Reads one file a line in hexadecimal; what a thread that calls nothing uses is taken off. Fails at PROBE_STACK bytes or more.
 * Assumes that a thread's stack grows down and that pthread_attr_setstack is there, and that symbols are bound when the program starts
 * (-z now): binding one at its first call uses stack too. */
#define _GNU_SOURCE
#include "probe.h"

#include <pthread.h>
#include <stdio.h>
#include <stdlib.h>
#include <string.h>
#include <sys/mman.h>

#define STACK (1024u * 1024u)
#define PROBE_STACK (96u * 1024u)
#define PAINT 0xa5

struct file {
    uint8_t *bytes;
    size_t length;
};

static struct file *files;
static size_t count;
static uint8_t out[2048];

static void nothing(const struct file *f) { (void)f; }
static void load(const struct file *f) { probe_load(f->bytes, f->length); }
static void imm(const struct file *f) { probe_imm(f->bytes, f->length, out, sizeof out); }
static void armv8(const struct file *f) { probe_armv8(f->bytes, f->length, out, sizeof out); }
static void tso(const struct file *f) { probe_tso(f->bytes, f->length, out, sizeof out); }
static void why(const struct file *f)
{
    for (uint64_t model = PROBE_IMM; model <= PROBE_TSO; model++)
        probe_why(f->bytes, f->length, model, out, sizeof out);
}
static void translate(const struct file *f) { probe_translate(f->bytes, f->length, out, sizeof out); }
static void judge(const struct file *f) { probe_judge(f->bytes, f->length, out, sizeof out); }
static void page(const struct file *f) { probe_page(f->bytes, f->length, f->bytes, f->length, out, sizeof out); } /* the ring is the file */

static void (*current)(const struct file *);

static void *run(void *unused)
{
    (void)unused;
    for (size_t i = 0; i < count; i++)
        current(&files[i]);
    return NULL;
}

/* How much of a painted stack the call uses on all files. */
static size_t used(void (*call)(const struct file *))
{
    uint8_t *stack = mmap(NULL, STACK, PROT_READ | PROT_WRITE, MAP_PRIVATE | MAP_ANONYMOUS, -1, 0);
    pthread_attr_t attributes;
    pthread_t thread;
    memset(stack, PAINT, STACK);
    current = call;
    if (pthread_attr_init(&attributes) || pthread_attr_setstack(&attributes, stack, STACK) || pthread_create(&thread, &attributes, run, NULL)
        || pthread_join(thread, NULL)) {
        perror("stack");
        exit(2);
    }
    size_t left = 0;
    while (left < STACK && stack[left] == PAINT)
        left++;
    munmap(stack, STACK);
    return STACK - left;
}

static void read_files(void)
{
    char *line = NULL;
    size_t room = 0;
    ssize_t length;
    while ((length = getline(&line, &room, stdin)) >= 0) {
        struct file f = {malloc((size_t)length + 1), 0};
        unsigned byte;
        for (const char *at = line; sscanf(at, "%2x", &byte) == 1; at += 2)
            f.bytes[f.length++] = (uint8_t)byte;
        files = realloc(files, (count + 1) * sizeof *files);
        files[count++] = f;
    }
    free(line);
}

int main(void)
{
    static const struct {
        const char *name;
        void (*call)(const struct file *);
    } calls[] = {{"probe_load", load}, {"probe_imm", imm},             {"probe_armv8", armv8}, {"probe_tso", tso},
                 {"probe_why", why},   {"probe_translate", translate}, {"probe_judge", judge}, {"probe_page", page}};
    int passed = 0, failed = 0;
    read_files();
    size_t before = used(nothing);
    for (size_t i = 0; i < sizeof calls / sizeof calls[0]; i++) {
        size_t peak = used(calls[i].call) - before;
        printf("peak stack of %s on %zu files: %zu bytes\n", calls[i].name, count, peak);
        if (count > 0 && 0 < peak && peak < PROBE_STACK)
            passed++;
        else
            failed++;
    }
    printf("%d passed, %d failed\n", passed, failed);
    return failed != 0 || passed == 0;
}
