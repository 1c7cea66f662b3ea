/* What bench/fast_bodies counts: each function does a piece of work by a fast call or by the plain ones. The words are A, the code
   rate in 2048ths, G, and how many places in 1,000 are erased. The shift table stands on standard input. */
#include <stdio.h>
#include <stdlib.h>
#include <string.h>

#include "nr.h"

enum { ROWS = 64, TXS = 4, MOST = 1 << 20, MOST_ENTRIES = 1850 };
#define APART __attribute__((noinline)) static void

static NrSettings link;
static NrEntry table[MOST_ENTRIES];
static NrTx txs[TXS];
static NrPlan plan;
static size_t entries, room_len;
static uint32_t a, g, threshold, delivered[ROWS], outcomes[ROWS], left[MOST], erased[MOST];
static uint64_t seeds[ROWS], from[MOST / 64], to[MOST / 64];
static uint8_t text[MOST], heard[ROWS * MOST], sent[ROWS * MOST], blocks[ROWS * MOST], room[MOST], bits[MOST];

static void judge(uint32_t status) {
    if (!status) return;
    fprintf(stderr, "fast_bodies: %s\n", nr_fault_name(status));
    exit(1);
}

static void receive(size_t count, const uint8_t *places, uint32_t *outcome) {
    judge(nr_receive(table, entries, &link, a, txs, count, places, count * g, outcome, count, left, plan.c, blocks, a / 8));
}

APART simulate(void) {
    judge(nr_simulate(table, entries, &link, a, txs, 1, &threshold, 1, seeds, ROWS, delivered, ROWS, left, ROWS * plan.c, erased,
                      ROWS * plan.c));
}

APART simulate_one_by_one(void) {
    for (size_t i = 0; i < ROWS; i++) {
        memset(heard, 0, g);
        judge(nr_erase(seeds[i], threshold, heard, g));
        receive(1, heard, &outcomes[i]);
    }
}

APART send_many(void) { judge(nr_send_many(table, entries, &link, a, txs, 1, ROWS, blocks, ROWS * a / 8, sent, ROWS * g)); }

APART send_one_by_one(void) {
    for (size_t i = 0; i < ROWS; i++) judge(nr_send(table, entries, &link, blocks + i * a / 8, a / 8, txs, sent + i * g, g));
}

APART receive_many(void) {
    judge(nr_receive_many(table, entries, &link, a, txs, 1, ROWS, heard, ROWS * g, outcomes, ROWS, left, ROWS * plan.c, blocks,
                          ROWS * a / 8));
}

APART receive_one_by_one(void) {
    for (size_t i = 0; i < ROWS; i++) receive(1, heard + i * g, &outcomes[i]);
}

APART take_in_a_room(void) {
    judge(nr_receiver_start(table, entries, &link, a, room, room_len));
    for (size_t k = 0; k < TXS; k++)
        judge(nr_receiver_take(table, entries, &link, a, room, room_len, &txs[k], heard + k * g, g, outcomes, left, plan.c, blocks,
                               a / 8));
}

APART receive_all_so_far(void) {
    for (size_t k = 0; k < TXS; k++) receive(k + 1, heard, outcomes);
}

APART interleave(void) { judge(nr_interleave(6, bits, g, sent, g)); }

APART interleave_bit_by_bit(void) {
    memset(from, 0, g / 8 + 8), memset(to, 0, g / 8 + 8);
    for (size_t m = 0; m < g; m++) from[m / 64] |= (uint64_t)(bits[m] & 1) << m % 64;
    for (size_t m = 0; m < g; m++) {
        size_t at = m % 6 * (g / 6) + m / 6;
        to[m / 64] |= (from[at / 64] >> at % 64 & 1) << m % 64;
    }
    for (size_t m = 0; m < g; m++)
        if (sent[m] != (to[m / 64] >> m % 64 & 1)) exit(3);
}

int main(int count, char **words) {
    static const uint32_t versions[] = {0, 2, 3, 1};
    size_t length = fread(text, 1, sizeof text, stdin);
    if (count != 5) return 2;
    a = strtoul(words[1], 0, 10), link.rate2048 = strtoul(words[2], 0, 10), g = strtoul(words[3], 0, 10);
    threshold = strtoul(words[4], 0, 10) * 4294967;
    judge(nr_table_entries(text, length, table, 0, &entries) != NR_ERR_ROOM || entries > MOST_ENTRIES ? NR_ERR_MANY : NR_OK);
    judge(nr_table_entries(text, length, table, entries, &entries));
    judge(nr_plan(link.rate2048, a, &plan));
    judge(nr_receiver_size(link.rate2048, a, &room_len));
    if (g > MOST || g % 6 || room_len > MOST || plan.c > MOST / ROWS) return 2;
    for (size_t k = 0; k < TXS; k++) txs[k].rv = versions[k], txs[k].g = g, txs[k].qm = 2, txs[k].nl = 1;
    for (size_t i = 0; i < ROWS; i++) seeds[i] = i;
    send_many(), send_one_by_one();
    simulate(), simulate_one_by_one();
    for (size_t i = 0; i < ROWS; i++)
        if ((delivered[i] == 1) != (outcomes[i] == NR_OUTCOME_DELIVERED)) return 3;
    memset(heard, 0, (size_t)ROWS * g);
    for (size_t i = 0; i < ROWS; i++) judge(nr_erase(seeds[i], threshold, heard + i * g, g));
    receive_many(), receive_one_by_one();
    take_in_a_room(), receive_all_so_far();
    for (size_t m = 0; m < g; m++) bits[m] = m % 5 % 2;
    interleave(), interleave_bit_by_bit();
    return 0;
}
