/* Four threads at once. Each sends and receives a block of its own over erasures of its own, again and again. Each answer is
   the one that was given when no other thread ran. Then one thread makes every call with what is longest. Each has the stack
   that nr.h asks for. */
#include <pthread.h>

#include "checked.h"

enum { THREADS = 4, ROUNDS = 40, TRIED = 66, OCTETS = 60, G = 2000, KEPT = 1665, STACK = 64 << 10 };

/* What the longest calls are given: transmissions of eight bits, and a transport block of 344 code blocks. */
enum { MANY = 4096, EACH = 8, LONG = 163827, BLOCKS = 344, KDASH = 3834, K = 3840, N = 19200, PARITY_OCTETS = 2097152 };

static NrEntry *table;
static size_t table_len;
static const NrSettings settings = {2048, 0, {0, 0}};

struct answer {
    uint32_t status, outcome, parity, left, rounds[TRIED], rows[TRIED], erased[TRIED];
    uint8_t bits[G], block[OCTETS], kept[KEPT];
};

struct job {
    uint32_t seed;
    int wrong;
    struct answer alone;
};

static uint32_t next(uint32_t *state) { return *state = *state * 1664525u + 1013904223u; }

/* Rounds of one transmission: 64 side by side, and two. */
static uint32_t simulate(uint32_t *seed, const NrTx *tx, struct answer *to) {
    const uint32_t threshold = 0x80000000;
    uint64_t seeds[TRIED];
    for (int round = 0; round < TRIED; round++) seeds[round] = next(seed);
    return nr_simulate(table, table_len, &settings, 8 * OCTETS, tx, 1, &threshold, 1, seeds, TRIED, to->rounds, TRIED, to->rows, TRIED,
                       to->erased, TRIED);
}

static void answer(uint32_t seed, struct answer *to) {
    uint8_t block[OCTETS], heard[G];
    NrTx tx = transmission(seed % 4, G, 2);
    uint32_t outcome, left;
    memset(to, 0, sizeof *to);
    for (int at = 0; at < OCTETS; at++) block[at] = (uint8_t)(next(&seed) >> 24);
    to->status = nr_crc(NR_POLY_CRC24A, block, OCTETS, &to->parity);
    if (!to->status) to->status = nr_send(table, table_len, &settings, block, OCTETS, &tx, to->bits, G);
    for (int place = 0; place < G; place++) heard[place] = next(&seed) >> 24 < 64 ? NR_BIT_ERASED : to->bits[place];
    if (!to->status)
        to->status = nr_receive(table, table_len, &settings, 8 * OCTETS, &tx, 1, heard, G, &to->outcome, 1, &to->left, 1, to->block,
                                OCTETS);
    if (to->outcome == NR_OUTCOME_DELIVERED && memcmp(to->block, block, OCTETS)) to->status = 99;
    if (!to->status) to->status = nr_receiver_start(table, table_len, &settings, 8 * OCTETS, to->kept, KEPT);
    if (!to->status)
        to->status = nr_receiver_take(table, table_len, &settings, 8 * OCTETS, to->kept, KEPT, &tx, heard, G, &outcome, &left, 1,
                                      to->block, OCTETS);
    if (!to->status && (outcome != to->outcome || left != to->left)) to->status = 98;
    if (!to->status) to->status = simulate(&seed, &tx, to);
}

static void *work(void *given) {
    struct job *job = (struct job *)given;
    struct answer found;
    for (int round = 0; round < ROUNDS; round++) {
        answer(job->seed, &found);
        job->wrong += memcmp(&found, &job->alone, sizeof found) != 0;
    }
    return NULL;
}

static uint8_t *text;
static size_t text_len;

/* Many transmissions: of a short block, which the last one delivers, and of a long one, of which nothing is heard. */
static void receive_many(const NrSettings *low, const uint8_t *block) {
    static NrTx txs[MANY];
    static uint8_t heard[EACH * (MANY - 1) + G], found[LONG];
    static uint32_t outcomes[MANY], left[BLOCKS];
    for (uint32_t at = 0; at < MANY; at++) {
        txs[at] = transmission(at % 4, at < MANY - 1 ? EACH : G, 2);
        CHECK(nr_send(table, table_len, &settings, block, OCTETS, &txs[at], heard + EACH * at, txs[at].g) == NR_OK);
    }
    CHECK(nr_receive(table, table_len, &settings, 8 * OCTETS, txs, MANY, heard, sizeof heard, outcomes, MANY, left, 1, found, OCTETS) ==
          NR_OK);
    CHECK(outcomes[MANY - 2] == NR_OUTCOME_OPEN && outcomes[MANY - 1] == NR_OUTCOME_DELIVERED && !memcmp(found, block, OCTETS));
    memset(heard, NR_BIT_ERASED, sizeof heard);
    CHECK(nr_receive(table, table_len, low, 8 * LONG, txs, MANY, heard, sizeof heard, outcomes, MANY, left, BLOCKS, found, LONG) ==
          NR_OK);
    CHECK(outcomes[MANY - 1] == NR_OUTCOME_OPEN && left[BLOCKS - 1] == KDASH);
}

/* A receiver of the long one in a room of seven megabytes. */
static void keep_long(const NrSettings *low, const NrTx *tx) {
    static uint8_t room[32 + BLOCKS * (52 * 384 + 1)], heard[BLOCKS * EACH], found[LONG];
    static uint32_t left[BLOCKS];
    uint32_t outcome;
    size_t octets;
    memset(heard, NR_BIT_ERASED, sizeof heard);
    CHECK(nr_receiver_size(512, 8 * LONG, &octets) == NR_OK && octets == sizeof room);
    CHECK(nr_receiver_start(table, table_len, low, 8 * LONG, room, sizeof room) == NR_OK);
    CHECK(nr_receiver_take(table, table_len, low, 8 * LONG, room, sizeof room, tx, heard, sizeof heard, &outcome, left, BLOCKS, found,
                           LONG) == NR_OK);
    CHECK(outcome == NR_OUTCOME_OPEN && left[BLOCKS - 1] == KDASH);
    CHECK(nr_receive_many(table, table_len, low, 8 * LONG, tx, 1, 1, heard, sizeof heard, &outcome, 1, left, BLOCKS, found, LONG) ==
          NR_OK);
    CHECK(outcome == NR_OUTCOME_OPEN && left[BLOCKS - 1] == KDASH);
}

/* A round of 344 code blocks, which stays open. */
static void simulate_long(const NrSettings *low, const NrTx *tx) {
    static uint32_t left[BLOCKS], erased[BLOCKS];
    const uint32_t threshold = 0x80000000;
    const uint64_t seed = 1;
    uint32_t after = 7;
    CHECK(nr_simulate(table, table_len, low, 8 * LONG, tx, 1, &threshold, 1, &seed, 1, &after, 1, left, BLOCKS, erased, BLOCKS) == NR_OK);
    CHECK(after == 0 && left[BLOCKS - 1] + EACH >= KDASH && erased[BLOCKS - 1] <= EACH);
}

/* Every call with what is longest. */
static void *make_long_calls(void *given) {
    static const NrSettings low = {512, 0, {0, 0}};
    static uint8_t block[PARITY_OCTETS], bits[K], d[N], again[N], sent[BLOCKS * EACH];
    static uint32_t shares[BLOCKS];
    NrTx tx = transmission(2, BLOCKS * EACH, 8);
    NrReport report;
    NrBuffer buffer;
    NrPlan plan;
    NrEntry *entries;
    size_t count;
    uint32_t parity;
    for (size_t at = 0; at < LONG; at++) block[at] = (uint8_t)(at * at >> 3);
    CHECK(nr_table_check(text, text_len, &report) == NR_OK && report.one + report.two == table_len);
    entries = entries_of(text, text_len, &count);
    CHECK(count == table_len);
    free(entries);
    CHECK(nr_plan(512, 8 * LONG, &plan) == NR_OK && plan.c == BLOCKS && plan.kdash == KDASH && plan.k == K && plan.n == N);
    CHECK(nr_crc(NR_POLY_CRC24A, block, PARITY_OCTETS, &parity) == NR_OK);
    CHECK(nr_lengths(512, 8 * LONG, &tx, shares, BLOCKS) == NR_OK && shares[BLOCKS - 1] == EACH);
    CHECK(nr_buffer(&low, 8 * LONG, 3, &buffer) == NR_OK && buffer.ncb == N);
    CHECK(nr_cut(512, block, LONG, BLOCKS - 1, bits, KDASH) == NR_OK);
    CHECK(nr_codeword(table, table_len, 512, 8 * LONG, bits, KDASH, d, N) == NR_OK);
    memset(bits + KDASH, NR_BIT_FILLER, K - KDASH);
    CHECK(nr_encode(table, table_len, 2, 384, bits, K, again, N) == NR_OK && !memcmp(d, again, N));
    CHECK(nr_select(&low, 8 * LONG, 2, d, N, sent, EACH) == NR_OK);
    CHECK(nr_interleave(8, sent, EACH, sent + EACH, EACH) == NR_OK);
    CHECK(nr_erase(1, 0x80000000, sent, sizeof sent) == NR_OK);
    CHECK(nr_send(table, table_len, &low, block, LONG, &tx, sent, sizeof sent) == NR_OK);
    CHECK(nr_send_many(table, table_len, &low, 8 * LONG, &tx, 1, 1, block, LONG, sent, sizeof sent) == NR_OK);
    receive_many(&low, block);
    simulate_long(&low, &tx);
    keep_long(&low, &tx);
    return given;
}

int main(int count, char **words) {
    static struct job jobs[THREADS];
    pthread_t threads[THREADS];
    pthread_attr_t small;
    int delivered = 0;
    text = text_of(count > 1 ? words[1] : NULL, &text_len);
    table = entries_of(text, text_len, &table_len);
    if (pthread_attr_init(&small) || pthread_attr_setstacksize(&small, STACK)) return 2;
    for (uint32_t at = 0; at < THREADS; at++) {
        jobs[at].seed = at + 1;
        answer(jobs[at].seed, &jobs[at].alone);
        CHECK(jobs[at].alone.status == NR_OK);
        delivered += jobs[at].alone.outcome == NR_OUTCOME_DELIVERED;
    }
    CHECK(delivered > 0);
    for (int at = 0; at < THREADS; at++)
        if (pthread_create(&threads[at], &small, work, &jobs[at])) return 2;
    for (int at = 0; at < THREADS; at++) {
        pthread_join(threads[at], NULL);
        CHECK(jobs[at].wrong == 0);
    }
    if (pthread_create(&threads[0], &small, make_long_calls, NULL)) return 2;
    pthread_join(threads[0], NULL);
    printf("%d threads, %d rounds each, %d of the blocks delivered, %d wrong\n", THREADS, ROUNDS, delivered, wrong);
    free(table);
    free(text);
    return wrong != 0;
}
