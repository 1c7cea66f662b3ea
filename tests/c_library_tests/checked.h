/* What the test programs share: a check that counts, a table's text, and rooms between octets that nothing may write. */
#ifndef CHECKED_H
#define CHECKED_H

#include <stdio.h>
#include <stdlib.h>
#include <string.h>

#include "nr.h"

static int wrong;

#define CHECK(holds) \
    do { \
        if (!(holds)) { \
            printf("%s:%d: %s\n", __FILE__, __LINE__, #holds); \
            wrong += 1; \
        } \
    } while (0)

/* The text of a file, in memory of its own length; the program ends if it can't be read. */
static inline uint8_t *text_of(const char *path, size_t *length) {
    FILE *file = path ? fopen(path, "rb") : NULL;
    uint8_t *text = NULL;
    long end = -1;
    if (file && !fseek(file, 0, SEEK_END)) end = ftell(file);
    if (end > 0) text = (uint8_t *)malloc((size_t)end);
    if (!text || fseek(file, 0, SEEK_SET) || fread(text, 1, (size_t)end, file) != (size_t)end) {
        printf("no text in %s\n", path ? path : "no file");
        exit(2);
    }
    fclose(file);
    *length = (size_t)end;
    return text;
}

/* The entries of a table's text, in memory of their own count; the program ends if it is no table. */
static inline NrEntry *entries_of(const uint8_t *text, size_t length, size_t *count) {
    NrEntry none, *entries = NULL;
    if (nr_table_entries(text, length, &none, 0, count) == NR_ERR_ROOM) entries = (NrEntry *)malloc(*count * sizeof *entries);
    if (!entries || nr_table_entries(text, length, entries, *count, count) != NR_OK) {
        printf("no table\n");
        exit(2);
    }
    return entries;
}

/* A transmission of all code blocks. */
static inline NrTx transmission(uint32_t rv, uint32_t g, uint32_t qm) {
    NrTx tx;
    memset(&tx, 0, sizeof tx);
    tx.rv = rv;
    tx.g = g;
    tx.qm = qm;
    tx.nl = 1;
    return tx;
}

/* The bits of octets, one to an octet. */
static inline void bits_of(const uint8_t *octets, size_t count, uint8_t *bits) {
    for (size_t bit = 0; bit < 8 * count; bit++) bits[bit] = octets[bit / 8] >> (7 - bit % 8) & 1;
}

/* Whether every octet is still as it was filled. */
static inline int is_filled(const void *room, size_t length) {
    for (size_t at = 0; at < length; at++)
        if (((const uint8_t *)room)[at] != 0xA5) return 0;
    return 1;
}

#endif
