/* What the example encoder and the example receiver share: the shift table, CRCs and segmentation, by the clauses of TS 38.212. */
#ifndef EXAMPLES_CHAIN_H
#define EXAMPLES_CHAIN_H

#include <stdio.h>
#include <stdlib.h>
#include <string.h>

enum { MOST_COLUMNS = 68, MOST_ROWS = 46, MOST_SIZE = 384 };

struct entry {
    unsigned column, values[8];
};

struct graph {
    unsigned rows, information, count[MOST_ROWS];
    struct entry entries[MOST_ROWS][MOST_COLUMNS];
};

static struct graph graphs[3] = {{0}, {.rows = 46, .information = 22}, {.rows = 42, .information = 10}};

/* The segmentation parameters (5.2.2), and how many bits a codeword has with the 2 Zc that are never sent. */
struct plan {
    unsigned a, b, graph, c, l, kdash, kb, z, set, k, n, size;
};

/* Reads the eleven numbers of a record, which may stand in quotes and between spaces; answers how many there are. */
static unsigned read_numbers(char *at, unsigned *numbers)
{
    unsigned count = 0;
    for (char *end; count < 11; count++, at = end + strspn(end, " \t\",")) {
        at += strspn(at, " \t\"");
        numbers[count] = strtoul(at, &end, 10);
        if (end == at)
            break;
    }
    return *at ? 0 : count;
}

/* Takes a record of a shift table, at most one of a place. */
static int take_record(char *line)
{
    unsigned it[11];
    if (read_numbers(line, it) != 11 || it[0] < 1 || it[0] > 2 || it[1] >= graphs[it[0]].rows || it[2] >= MOST_COLUMNS)
        return 0;
    struct graph *to = &graphs[it[0]];
    struct entry *entry = &to->entries[it[1]][to->count[it[1]]];
    if (to->count[it[1]]++ == MOST_COLUMNS)
        return 0;
    entry->column = it[2];
    memcpy(entry->values, it + 3, sizeof entry->values);
    return 1;
}

/* Reads a shift table, with or without a header and a byte order mark; answers whether all its lines are such records. */
static int read_table(const char *path)
{
    static char text[1 << 22];
    FILE *file = fopen(path, "rb");
    if (!file)
        return 0;
    text[fread(text, 1, sizeof text - 1, file)] = 0;
    fclose(file);
    char *line = strtok(strncmp(text, "\xEF\xBB\xBF", 3) ? text : text + 3, "\r\n");
    if (line && strstr(line, "graph"))
        line = strtok(NULL, "\r\n");
    int taken = line != NULL;
    for (; taken && line; line = strtok(NULL, "\r\n"))
        taken = take_record(line);
    return taken;
}

/* The remainder of a list of bits by a generator polynomial (5.1). */
static unsigned crc_of(const unsigned char *bits, unsigned count, unsigned length, unsigned polynomial)
{
    unsigned rest = 0;
    for (unsigned i = 0; i < count; i++) {
        unsigned out = rest >> (length - 1) ^ bits[i];
        rest = (rest << 1 & ((1u << length) - 1)) ^ (out ? polynomial : 0);
    }
    return rest;
}

/* The set index of a lifting size (Table 5.3.2-1), or 8 if it is none. */
static unsigned set_of(unsigned z)
{
    static const unsigned odd[8] = {1, 3, 5, 7, 9, 11, 13, 15};
    while (z % 2 == 0)
        z /= 2;
    for (unsigned set = 0; set < 8; set++)
        if (odd[set] == z)
            return set;
    return 8;
}

/* The plan of a block of `a` bits. With `late` 1 the limits by which Kb is chosen come one bit too early, as a mistake. */
static struct plan plan_of(unsigned a, unsigned rate2048, unsigned late)
{
    struct plan it = {.a = a, .b = a + (a > 3824 ? 24 : 16)};
    int two = a <= 292 || (a <= 3824 && 100 * rate2048 <= 67 * 2048) || 4 * rate2048 <= 2048;
    unsigned kcb = two ? 3840 : 8448, over = it.b + late;
    it.graph = two ? 2 : 1;
    it.l = it.b > kcb ? 24 : 0;
    it.c = it.b > kcb ? (it.b + kcb - 25) / (kcb - 24) : 1;
    it.kdash = (it.b + it.c * it.l) / it.c;
    it.kb = !two ? 22 : over > 640 ? 10 : over > 560 ? 9 : over > 192 ? 8 : 6;
    for (it.z = 2; set_of(it.z) == 8 || it.kb * it.z < it.kdash; it.z++)
        ;
    it.set = set_of(it.z);
    it.k = graphs[it.graph].information * it.z;
    it.n = (two ? 50 : 66) * it.z;
    it.size = it.n + 2 * it.z;
    return it;
}

#endif
