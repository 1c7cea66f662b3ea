/* Sends a transport block four times over a link that erases half of the places, and says what may be handed up after each.

       cc erasures.c $(pkg-config --cflags --libs nr) -o erasures && ./erasures practice.csv */
#include <stdio.h>
#include <stdlib.h>

#include "nr.h"

enum { G = 400, MOST = 4 };

/* Reads the shift table of a file, once for all calls: its entries, in memory of their own, and how many they are. */
static uint32_t read_table(const char *path, NrEntry **entries, size_t *count) {
    static uint8_t text[1 << 16];
    FILE *file = fopen(path, "rb");
    size_t length;
    uint32_t status;
    if (!file) return NR_ERR_READ;
    length = fread(text, 1, sizeof text, file);
    status = ferror(file) ? NR_ERR_READ : NR_OK;
    fclose(file);
    if (status) return status;
    /* A room for none: how many are wanted. */
    status = nr_table_entries(text, length, NULL, 0, count);
    if (status != NR_ERR_ROOM) return status;
    *entries = malloc(*count * sizeof **entries);
    return *entries ? nr_table_entries(text, length, *entries, *count, count) : NR_ERR_MEMORY;
}

int main(int count, char **words) {
    static const uint32_t versions[MOST] = {0, 2, 3, 1};
    static const char *const names[] = {"open", "delivered", "contradiction"};
    static uint8_t heard[MOST * G];
    static NrTx txs[MOST];
    const uint8_t block[9] = {'1', '2', '3', '4', '5', '6', '7', '8', '9'};
    const NrSettings settings = {.rate2048 = 2048};
    uint8_t delivered[sizeof block];
    uint32_t status, outcomes[MOST], left;
    NrEntry *table = NULL;
    size_t entries;
    if (count != 2) {
        fputs("usage: erasures TABLE.csv\n", stderr);
        return 2;
    }
    status = read_table(words[1], &table, &entries);
    srand(1);
    for (size_t at = 0; at < MOST && !status; at++) {
        uint8_t *places = heard + at * G;
        txs[at].rv = versions[at];
        txs[at].g = G;
        txs[at].qm = 2;
        txs[at].nl = 1;
        status = nr_send(table, entries, &settings, block, sizeof block, &txs[at], places, G);
        for (size_t place = 0; place < G; place++)
            if (rand() % 2) places[place] = NR_BIT_ERASED;
    }
    if (!status)
        status = nr_receive(table, entries, &settings, 8 * sizeof block, txs, MOST, heard, sizeof heard, outcomes, MOST, &left, 1,
                            delivered, sizeof delivered);
    free(table);
    if (status) {
        fprintf(stderr, "refused: %s\n", nr_fault_name(status));
        return 1;
    }
    for (int at = 0; at < MOST; at++) printf("after transmission %d: %s\n", at + 1, names[outcomes[at]]);
    if (outcomes[MOST - 1] == NR_OUTCOME_DELIVERED) printf("%.*s\n", (int)sizeof delivered, (const char *)delivered);
    return 0;
}
