/* Measures nr_simulate: microseconds a round, the best of five calls. The hash of what it found shows that two libraries agree.

       make -C c && cc -O2 -Ic bench/rounds.c c/out/libnr.a -o c/out/rounds
       cat examples/practice.csv examples/drawn.csv | c/out/rounds

   To compare two libraries link it with each, and run the two in turn. The table stands on standard input. */
#include <stdio.h>
#include <stdlib.h>
#include <string.h>
#include <time.h>

#include "nr.h"

enum { CALLS = 5, MOST = 1 << 16, MOST_ROUNDS = 6400, MOST_NUMBERS = 1 << 14, MOST_ENTRIES = 1850 };

struct setting { uint32_t a, rate2048, g, txs, rounds; double p; };

static const struct setting settings[] = {
    {3840, 683, 5760, 1, 640, 0.27}, {3840, 683, 7680, 1, 640, 0.45}, {8424, 1024, 16896, 1, 640, 0.40},
    {3824, 512, 11472, 1, 640, 0.44}, {24, 683, 100, 1, 6400, 0.30}, {320, 683, 600, 1, 6400, 0.35},
    {3840, 683, 5760, 4, 640, 0.64}, {168456, 1024, 336912, 1, 64, 0.44},
};

static uint8_t text[MOST];
static NrEntry table[MOST_ENTRIES];
static size_t table_len;
static uint64_t seeds[4 * MOST_ROUNDS];
static uint32_t delivered[MOST_ROUNDS], left[MOST_NUMBERS], erased[MOST_NUMBERS];

static void judge(uint32_t status) {
    if (!status) return;
    fprintf(stderr, "rounds: %s\n", nr_fault_name(status));
    exit(1);
}

static void measure(const struct setting *s) {
    const NrSettings link = {s->rate2048, 0, {0, 0}};
    const uint32_t versions[] = {0, 2, 3, 1};
    uint32_t thresholds[4];
    size_t sent = (size_t)s->rounds * s->txs, numbers;
    uint64_t hash = 0;
    double best = 1e9;
    NrTx txs[4];
    NrPlan plan;
    judge(nr_plan(s->rate2048, s->a, &plan));
    numbers = sent * plan.c;
    memset(txs, 0, sizeof txs);
    for (uint32_t k = 0; k < s->txs; k++) {
        txs[k].rv = versions[k];
        txs[k].g = s->g;
        txs[k].qm = 2;
        txs[k].nl = 1;
        thresholds[k] = (uint32_t)(s->p * 4294967296.0);
    }
    for (size_t i = 0; i < sent; i++) seeds[i] = i;
    for (int call = 0; call < CALLS; call++) {
        clock_t begin = clock();
        judge(nr_simulate(table, table_len, &link, s->a, txs, s->txs, thresholds, s->txs, seeds, sent, delivered, s->rounds, left,
                          numbers, erased, numbers));
        double took = 1e6 * (double)(clock() - begin) / CLOCKS_PER_SEC / s->rounds;
        if (took < best) best = took;
    }
    for (size_t i = 0; i < s->rounds; i++) hash = 31 * hash + delivered[i];
    for (size_t i = 0; i < numbers; i++) hash = 31 * hash + 7 * left[i] + erased[i];
    printf("A %6u C %2u G %6u, %u sent, p %.2f: %9.2f us %016llx\n", s->a, plan.c, s->g, s->txs, s->p, best, (unsigned long long)hash);
}

int main(void) {
    size_t length = fread(text, 1, sizeof text, stdin);
    table_len = 0;
    if (nr_table_entries(text, length, table, 0, &table_len) != NR_ERR_ROOM || table_len > MOST_ENTRIES) return 1;
    judge(nr_table_entries(text, length, table, table_len, &table_len));
    for (size_t i = 0; i < sizeof settings / sizeof *settings; i++) measure(&settings[i]);
    return 0;
}
