/* Measures the calls of nr.h: how many a second, in processor time, the best of five rounds of a tenth of a second or more.

       make -C c && cc -O2 -Ic bench/c_calls.c c/out/libnr.a -o c/out/c_calls && c/out/c_calls

   It reads the tables of examples/, so it runs at the repository's top; or with a word, the path of that folder. */
#include <errno.h>
#include <stdio.h>
#include <stdlib.h>
#include <string.h>
#include <time.h>

#include "nr.h"

struct table {
    uint8_t text[1 << 16];
    size_t length;
    NrEntry entries[512];
    size_t count;
};

static struct table practice, drawn;

/* What the measured call is given. */
static struct table *table;
static const NrSettings settings = {2048, 0, {0, 0}};
static uint8_t block[1024], bits[1 << 16], delivered[1024];
static size_t octets;
static NrTx tx;
static uint32_t answer, left;

static uint32_t read_entries(void) { return nr_table_entries(table->text, table->length, table->entries, table->count, &table->count); }

/* Says what is wrong with a table, and ends. */
static void refuse(const char *path, const char *said) {
    fprintf(stderr, "c_calls: %s: %s\nusage: c_calls [FOLDER], with practice.csv and drawn.csv in it (examples)\n", path, said);
    exit(2);
}

static void read_table(const char *folder, const char *name, struct table *to) {
    char path[4096];
    FILE *file;
    snprintf(path, sizeof path, "%s/%s", folder, name);
    file = fopen(path, "rb");
    if (!file) refuse(path, strerror(errno));
    to->length = fread(to->text, 1, sizeof to->text, file);
    fclose(file);
    table = to;
    if (read_entries() != NR_ERR_ROOM || to->count > 512 || read_entries() != NR_OK)
        refuse(path, "no shift table of 512 entries at most");
}

static uint32_t plan(void) {
    NrPlan numbers;
    return nr_plan(2048, (uint32_t)(8 * octets), &numbers);
}

static uint32_t crc(void) { return nr_crc(NR_POLY_CRC24A, block, octets, &answer); }

static uint32_t check_table(void) {
    NrReport report;
    return nr_table_check(table->text, table->length, &report);
}

static uint32_t send(void) { return nr_send(table->entries, table->count, &settings, block, octets, &tx, bits, tx.g); }

static uint32_t receive(void) {
    return nr_receive(table->entries, table->count, &settings, (uint32_t)(8 * octets), &tx, 1, bits, tx.g, &answer, 1, &left, 1,
                      delivered, octets);
}

/* The least processor time of a call, in seconds. */
static double time_of(uint32_t (*call)(void)) {
    double least = 1e9;
    for (int round = 0; round < 5; round++) {
        clock_t start = clock(), now = start;
        unsigned long calls = 0;
        for (; now - start < CLOCKS_PER_SEC / 10; now = clock(), calls++)
            if (call() != NR_OK) exit(3);
        double each = (double)(now - start) / CLOCKS_PER_SEC / (double)calls;
        least = each < least ? each : least;
    }
    return least;
}

static void show(const char *what, uint32_t (*call)(void)) {
    double each = time_of(call);
    printf("%-60s %8.2f us %9.0f a second\n", what, each * 1e6, 1 / each);
}

/* Measures sending and receiving, without erasures, of a block that goes once at about the code rate a third. */
static void link_of(struct table *by, size_t length, const char *name) {
    char what[80];
    table = by;
    octets = length;
    memset(&tx, 0, sizeof tx);
    tx.g = (uint32_t)(24 * length + 72);
    tx.qm = tx.nl = 1;
    snprintf(what, sizeof what, "nr_send, A = %u, G = %u, %s", (unsigned)(8 * length), tx.g, name);
    show(what, send);
    snprintf(what, sizeof what, "nr_receive, the same");
    show(what, receive);
    if (answer != NR_OUTCOME_DELIVERED) printf("(not delivered)\n");
}

int main(int count, char **words) {
    const char *folder = count > 1 ? words[1] : "examples";
    read_table(folder, "practice.csv", &practice);
    read_table(folder, "drawn.csv", &drawn);
    for (size_t at = 0; at < sizeof block; at++) block[at] = (uint8_t)(37 * at + 1);
    octets = 300;
    show("nr_plan, A = 2400", plan);
    show("nr_crc, 300 octets, gCRC24A", crc);
    table = &practice;
    show("nr_table_check, base graph 2, 105 entries", check_table);
    show("nr_table_entries, the same", read_entries);
    table = &drawn;
    show("nr_table_check, base graph 1, 316 entries", check_table);
    show("nr_table_entries, the same", read_entries);
    link_of(&practice, 3, "base graph 2, 105 entries");
    link_of(&drawn, 300, "base graph 1, 316 entries");
    return 0;
}
