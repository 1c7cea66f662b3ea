/* Reads a case as one line of plain words, a name and a value in turn, as `tools/conform run --plain` writes it:
 *
 *   id one-2-0-set0 rate2048 1024 lbrm - rv 0 g 120 qm 2 nl 1 mask all a 0102ff
 *
 * `lbrm -` is no limit; `mask` is `all`, or a digit for each code block, 1 if it is sent. */
#ifndef CONFORM_PLAIN_H
#define CONFORM_PLAIN_H

#include <stdio.h>
#include <stdlib.h>
#include <string.h>

struct sent_case {
    char id[64];
    unsigned rate2048, rv, g, qm, nl;
    int limited;
    unsigned lbrm;
    char mask[512];
    unsigned a;          /* how many bits the block has */
    unsigned char *bits; /* one bit an octet */
};

/* The four bits of a hexadecimal digit. */
static unsigned digit_of(char digit)
{
    return digit <= '9' ? digit - '0' : (digit | 32) - 'a' + 10;
}

static void take_block(struct sent_case *it, const char *digits)
{
    it->a = 4 * strlen(digits);
    it->bits = malloc(it->a + 1);
    for (unsigned i = 0; i < it->a; i++)
        it->bits[i] = digit_of(digits[i / 4]) >> (3 - i % 4) & 1;
}

static void take_word(struct sent_case *it, const char *name, const char *value)
{
    static const char *const names[] = {"rate2048", "rv", "g", "qm", "nl"};
    unsigned *const numbers[] = {&it->rate2048, &it->rv, &it->g, &it->qm, &it->nl};
    for (unsigned n = 0; n < sizeof names / sizeof *names; n++)
        if (!strcmp(name, names[n]))
            *numbers[n] = strtoul(value, NULL, 10);
    if (!strcmp(name, "id"))
        snprintf(it->id, sizeof it->id, "%s", value);
    else if (!strcmp(name, "mask"))
        snprintf(it->mask, sizeof it->mask, "%s", value);
    else if (!strcmp(name, "a"))
        take_block(it, value);
    else if (!strcmp(name, "lbrm")) {
        it->limited = strcmp(value, "-") != 0;
        it->lbrm = strtoul(value, NULL, 10);
    }
}

/* Reads the next case; answers 0 if there is none. The caller frees `bits`. */
static int read_case(struct sent_case *it)
{
    static char *line;
    static size_t room;
    if (getline(&line, &room, stdin) < 0)
        return 0;
    memset(it, 0, sizeof *it);
    for (char *name = strtok(line, " \n"), *value; name && (value = strtok(NULL, " \n")); name = strtok(NULL, " \n"))
        take_word(it, name, value);
    if (!it->bits) {
        fputs("no case in plain words: `run` needs --plain\n", stderr);
        exit(2);
    }
    return 1;
}

/* Writes bits as digits; 2 is a filler, and `none` a list without a bit. */
static void write_bits(const unsigned char *bits, unsigned count)
{
    if (!count)
        printf("none");
    for (unsigned i = 0; i < count; i++)
        putchar("01-"[bits[i]]);
}

#endif
