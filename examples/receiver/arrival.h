/* Reads a transmission as one line of plain words, a name and a value in turn, as `tools/conform receiver run --plain`
 * writes it:
 *
 *   id processes-far-24 tx 0 process 3 fresh 1 a 24 rate2048 2048 lbrm - rv 0 g 315 qm 1 nl 1 mask all llr 20,0,-20,..
 *
 * `lbrm -` is no limit; `mask` is `all`, or a digit for each code block, 1 if it is sent. A line `reset` stands before
 * each case: all that was received is forgotten. */
#ifndef RECEIVER_ARRIVAL_H
#define RECEIVER_ARRIVAL_H

#include <stdio.h>
#include <stdlib.h>
#include <string.h>

struct arrival {
    char id[64];
    unsigned tx, process, fresh, a, rate2048, rv, g, qm, nl;
    int limited;
    unsigned lbrm;
    char mask[512];
    int *llr; /* g values: positive for a bit 0, and 0 if nothing arrived */
};

enum read { ENDED, RESET, ARRIVED };

static void take_values(struct arrival *it, char *text)
{
    it->llr = malloc((it->g + 1) * sizeof *it->llr);
    for (unsigned m = 0; m < it->g; m++)
        it->llr[m] = strtol(text, &text, 10), text += *text == ',';
}

static void take_word(struct arrival *it, const char *name, char *value)
{
    static const char *const names[] = {"tx", "process", "fresh", "a", "rate2048", "rv", "g", "qm", "nl"};
    unsigned *const numbers[] = {&it->tx, &it->process, &it->fresh, &it->a, &it->rate2048, &it->rv, &it->g, &it->qm,
                                 &it->nl};
    for (unsigned n = 0; n < sizeof names / sizeof *names; n++)
        if (!strcmp(name, names[n]))
            *numbers[n] = strtoul(value, NULL, 10);
    if (!strcmp(name, "id"))
        snprintf(it->id, sizeof it->id, "%s", value);
    else if (!strcmp(name, "mask"))
        snprintf(it->mask, sizeof it->mask, "%s", value);
    else if (!strcmp(name, "llr"))
        take_values(it, value);
    else if (!strcmp(name, "lbrm")) {
        it->limited = strcmp(value, "-") != 0;
        it->lbrm = strtoul(value, NULL, 10);
    }
}

/* Reads the next line. The caller frees `llr`. */
static enum read read_arrival(struct arrival *it)
{
    static char *line;
    static size_t room;
    if (getline(&line, &room, stdin) < 0)
        return ENDED;
    if (!strncmp(line, "reset", 5))
        return RESET;
    memset(it, 0, sizeof *it);
    for (char *name = strtok(line, " \n"), *value; name && (value = strtok(NULL, " \n")); name = strtok(NULL, " \n"))
        take_word(it, name, value);
    if (!it->llr) {
        fputs("no transmission in plain words: `run` needs --plain\n", stderr);
        exit(2);
    }
    return ARRIVED;
}

/* Writes bits, one an octet, as hexadecimal digits. */
static void write_digits(const unsigned char *bits, unsigned count)
{
    for (unsigned i = 0; i < count; i += 4) {
        unsigned digit = 0;
        for (unsigned k = i; k < i + 4; k++)
            digit = digit << 1 | (k < count && bits[k]);
        putchar("0123456789abcdef"[digit]);
    }
}

#endif
