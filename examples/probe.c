/* A small program over the library: what a firmware engineer writes to call it.
 *
 *     probe verdict FILE             the verdict on a recording, by IMM (source) or ARMv8 (chip), and the events shown
 *     probe tso FILE                 the verdict of x86-TSO on a source recording, and the events shown
 *     probe why FILE                 the steps of a broken verdict's ring by IMM or ARMv8, each with the number of its clause (probe.h)
 *     probe translate FILE OUT       writes the translation of a source recording
 *     probe judge FILE               the lines that the program judge prints
 *     probe page FILE                the printed page, with a star at each event of a broken verdict by IMM or ARMv8
 *
 * Exit status: 0 allowed or done, 1 broken, 2 refused, 3 misuse, or a file that cannot be read or written. */
#include "probe.h"

#include <stdio.h>
#include <string.h>

/* A file that loads has at most PROBE_MOST_FILE bytes: one byte more is enough to know that a file is too long. */
static uint8_t file[PROBE_MOST_FILE + 1];
static uint8_t events[PROBE_MOST_EVENTS];
static uint8_t out[PROBE_MOST_PAGE]; /* the largest of the outputs */

static int refused(probe_answer answer)
{
    fprintf(stderr, "refused %u\n", PROBE_REFUSAL(answer));
    return 2;
}

/* Says why the last call on a file failed. */
static int failed(const char *name)
{
    perror(name);
    return 3;
}

/* What was printed is written now, so that a write that fails is known. */
static int printed(int status)
{
    if (fflush(stdout) != 0 || ferror(stdout))
        return failed("standard output");
    return status;
}

/* Prints what a call wrote to out. */
static int print(probe_answer answer)
{
    fwrite(out, 1, PROBE_LENGTH(answer), stdout);
    return printed(0);
}

/* The verdict of the model for the file's kind, which is named, with the events that are shown. */
static probe_answer ask(size_t length, const char **model)
{
    *model = "IMM";
    probe_answer answer = probe_imm(file, length, events, sizeof events);
    if (PROBE_REFUSAL(answer) == PROBE_OTHER_KIND) {
        *model = "ARMv8";
        answer = probe_armv8(file, length, events, sizeof events);
    }
    return answer;
}

/* Starts the line of a verdict. */
static void head(probe_answer answer, const char *model)
{
    if (PROBE_RULE(answer) == 0)
        printf("allowed by %s:", model);
    else
        printf("rule %u of %s is broken:", PROBE_RULE(answer), model);
}

/* Ends the line of a verdict. */
static int end(probe_answer answer)
{
    printf("\n");
    return printed(PROBE_RULE(answer) != 0);
}

/* Prints a verdict with the events that are shown. */
static int say(probe_answer answer, const char *model)
{
    if (PROBE_REFUSAL(answer) != 0)
        return refused(answer);
    head(answer, model);
    for (size_t i = 0; i < PROBE_LENGTH(answer); i++)
        printf(" %u", events[i]);
    return end(answer);
}

static int verdict(size_t length)
{
    const char *model;
    probe_answer answer = ask(length, &model);
    return say(answer, model);
}

static int tso(size_t length)
{
    return say(probe_tso(file, length, events, sizeof events), "x86-TSO");
}

static int why(size_t length)
{
    const char *model = "IMM";
    probe_answer answer = probe_why(file, length, PROBE_IMM, out, sizeof out);
    if (PROBE_REFUSAL(answer) == PROBE_OTHER_KIND) {
        model = "ARMv8";
        answer = probe_why(file, length, PROBE_ARMV8, out, sizeof out);
    }
    if (PROBE_REFUSAL(answer) != 0)
        return refused(answer);
    head(answer, model);
    for (size_t i = 0; i < PROBE_LENGTH(answer); i += 3)
        printf("%s %u to %u by clause %u", i == 0 ? "" : ",", out[i], out[i + 1], out[i + 2]);
    return end(answer);
}

static int translate(size_t length, const char *name)
{
    probe_answer answer = probe_translate(file, length, out, sizeof out);
    if (PROBE_REFUSAL(answer) != 0)
        return refused(answer);
    FILE *target = fopen(name, "wb");
    if (target == NULL)
        return failed(name);
    size_t written = fwrite(out, 1, PROBE_LENGTH(answer), target);
    if (fclose(target) != 0 || written != PROBE_LENGTH(answer))
        return failed(name);
    return 0;
}

static int judge(size_t length)
{
    return print(probe_judge(file, length, out, sizeof out));
}

/* An allowed verdict stars nothing. A refused file has no verdict, and probe_page refuses it by the same number. */
static int page(size_t length)
{
    const char *model;
    probe_answer answer = ask(length, &model);
    size_t count = PROBE_RULE(answer) != 0 ? PROBE_LENGTH(answer) : 0;
    answer = probe_page(file, length, events, count, out, sizeof out);
    return PROBE_REFUSAL(answer) != 0 ? refused(answer) : print(answer);
}

/* Reads a file, and answers whether it could be read. */
static int read_file(const char *name, size_t *length)
{
    FILE *source = fopen(name, "rb");
    if (source == NULL) {
        failed(name);
        return 0;
    }
    *length = fread(file, 1, sizeof file, source);
    int good = !ferror(source);
    if (!good)
        failed(name);
    fclose(source);
    return good;
}

int main(int count, char **words)
{
    static const struct {
        const char *word;
        int (*run)(size_t length);
    } printing[] = {{"verdict", verdict}, {"tso", tso}, {"why", why}, {"judge", judge}, {"page", page}};
    const char *word = count > 1 ? words[1] : "";
    size_t length = 0;
    for (size_t i = 0; i < sizeof printing / sizeof printing[0]; i++)
        if (count == 3 && strcmp(word, printing[i].word) == 0)
            return read_file(words[2], &length) ? printing[i].run(length) : 3;
    if (count == 4 && strcmp(word, "translate") == 0)
        return read_file(words[2], &length) ? translate(length, words[3]) : 3;
    fprintf(stderr, "usage: probe verdict FILE | tso FILE | why FILE | translate FILE OUT | judge FILE | page FILE\n");
    return 3;
}
