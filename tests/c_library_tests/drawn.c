/* Calls every function of the archive with drawn arguments, right and wrong. Prints of each how often it was called, how often it
   returned 0, and a digest of all that it returned and wrote. Every archive of the same sources gives the same lines. */
#include "checked.h"

enum { MOST = 1 << 18, TXS = 2, ROWS = 2, ROUNDS = 3, BLOCKS = 16 };

/* A room that a call may write. */
typedef struct Room {
    const void *at;
    size_t octets;
} Room;

/* What came of the calls of a function. */
typedef struct Seen {
    const char *name;
    unsigned long calls, right;
    uint64_t digest;
    struct Seen *next;
} Seen;

static NrEntry *table, listed[2048];
static uint8_t *text, block[ROWS * MOST], cut[MOST], code[MOST], d[MOST], e[MOST], f[MOST], bits[ROWS * MOST], heard[ROWS * MOST];
static uint8_t passed[BLOCKS], joined[MOST], packed[MOST], room[MOST];
static uint32_t lengths[BLOCKS], places[MOST], outcomes[TXS * ROWS], left[ROWS * BLOCKS], lefts[ROUNDS * TXS * BLOCKS];
static uint32_t erased[ROUNDS * TXS * BLOCKS], delivered[ROUNDS];
static size_t text_len, table_len;
static uint64_t state;
static unsigned long calls;
static Seen *first, **last = &first;

/* The next word of the generator splitmix64, and a number below n. */
static uint64_t word(void) {
    uint64_t z = state += 0x9E3779B97F4A7C15u;
    z = (z ^ z >> 30) * 0xBF58476D1CE4E5B9u;
    z = (z ^ z >> 27) * 0x94D049BB133111EBu;
    return z ^ z >> 31;
}

static uint32_t draw(uint32_t n) { return (uint32_t)(word() % n); }

/* A length as it has to be, or now and then one that is not. */
static size_t about(size_t length) { return draw(50) ? length : length + 1; }

static void note(Seen *seen, uint32_t status, const Room *rooms, size_t count) {
    uint64_t digest = (seen->digest ^ status) * 0x100000001B3u;
    for (size_t k = 0; k < count; k++)
        for (size_t at = 0; at < rooms[k].octets; at++) digest = (digest ^ ((const uint8_t *)rooms[k].at)[at]) * 0x100000001B3u;
    if (!seen->calls++) {
        *last = seen;
        last = &seen->next;
    }
    seen->right += !status;
    seen->digest = digest;
    calls++;
}

/* Makes a call, and notes its status and what is in these rooms afterwards, whether it wrote them or not. */
#define CALL(name, given, ...) \
    do { \
        static Seen seen = {#name, 0, 0, 0xCBF29CE484222325u, NULL}; \
        const uint32_t status = name given; \
        const Room rooms[] = {__VA_ARGS__}; \
        note(&seen, status, rooms, sizeof rooms / sizeof *rooms); \
    } while (0)
#define TABLE table, table_len

static NrTx drawn_tx(uint32_t a) {
    static const uint32_t orders[] = {1, 2, 4, 6, 8, 3};
    NrTx tx = transmission(draw(40) ? draw(4) : 4, 0, orders[draw(40) ? draw(5) : 5]);
    tx.nl = 1 + draw(4);
    tx.g = tx.qm * tx.nl * (1 + draw(3 * a / (tx.qm * tx.nl) + 1)) + !draw(40);
    tx.some = !draw(6);
    tx.blocks[0] = draw(8);
    return tx;
}

/* What concerns the code blocks of a transport block, one of them for all but nr_cut and nr_join. */
static void stages(const NrSettings *settings, uint32_t a, const NrTx *tx, const NrPlan *plan) {
    const uint32_t rate = settings->rate2048, r = draw(plan->c), k = plan->kdash, length = lengths[r];
    NrBuffer buffer = {0, 0, {0, 0}};
    uint32_t block_passed = 7;
    for (uint32_t n = 0; n < plan->c; n++) CALL(nr_cut, (rate, block, a / 8, n, cut + n * k, about(k)), {cut + n * k, k});
    memcpy(code, cut + r * k, k);
    memset(code + k, NR_BIT_FILLER, plan->k - k);
    CALL(nr_codeword, (TABLE, rate, a, code, about(k), d, plan->n), {d, plan->n});
    CALL(nr_encode, (TABLE, plan->graph, plan->z, code, plan->k, d, about(plan->n)), {d, plan->n});
    CALL(nr_buffer, (settings, a, tx->rv, &buffer), {&buffer, sizeof buffer});
    CALL(nr_select, (settings, a, tx->rv, d, about(plan->n), e, length), {e, length});
    CALL(nr_interleave, (tx->qm, e, length, f, about(length)), {f, length});
    const NrMatch numbers = {plan->graph, plan->z, plan->k - k, buffer.ncb, tx->rv, tx->qm, {0, 0}};
    CALL(nr_match, (&numbers, d, about(plan->n), f, length), {f, length});
    CALL(nr_places, (settings, a, tx, places, about(tx->g)), {places, 4 * tx->g});
    cut[draw(plan->c * k)] ^= draw(2);
    CALL(nr_join, (rate, a, cut, about(plan->c * k), passed, plan->c, &block_passed, joined, a / 8), {passed, plan->c},
         {&block_passed, 4}, {joined, a / 8});
}

/* The bits of some transport blocks, and what receivers make of those that arrive. */
static void ends(const NrSettings *settings, uint32_t a, const NrTx *txs, const NrPlan *plan) {
    const uint32_t c = plan->c, octets = a / 8, g = txs[0].g, row = g + txs[1].g, eighth = (g + 7) / 8;
    uint64_t seeds[ROUNDS * TXS];
    const uint32_t thresholds[TXS] = {(uint32_t)word(), (uint32_t)word() >> 1};
    size_t size = 0;
    CALL(nr_send, (TABLE, settings, block, octets, txs, bits, about(g)), {bits, g});
    CALL(nr_send_packed, (TABLE, settings, block, octets, txs, packed, about(eighth)), {packed, eighth});
    CALL(nr_send_many, (TABLE, settings, a, txs, TXS, ROWS, block, ROWS * octets, bits, about(ROWS * row)), {bits, ROWS * row});
    memcpy(heard, bits, ROWS * row);
    CALL(nr_erase, (word(), (uint32_t)word() >> draw(4), heard, ROWS * row), {heard, ROWS * row});
    if (draw(2)) heard[draw(row)] = (uint8_t)draw(4);
    CALL(nr_receive, (TABLE, settings, a, txs, TXS, heard, about(row), outcomes, TXS, left, c, joined, octets),
         {outcomes, 4 * TXS}, {left, 4 * c}, {joined, octets});
    CALL(nr_receive_many,
         (TABLE, settings, a, txs, TXS, ROWS, heard, about(ROWS * row), outcomes, ROWS * TXS, left, ROWS * c, joined,
          ROWS * octets),
         {outcomes, 4 * ROWS * TXS}, {left, 4 * ROWS * c}, {joined, ROWS * octets});
    /* (Half of the places arrive, those of the block's ones.) */
    CALL(nr_receive_packed,
         (TABLE, settings, a, txs, 1, packed, eighth, block, about(eighth), outcomes, 1, left, c, joined, octets),
         {outcomes, 4}, {left, 4 * c}, {joined, octets});
    CALL(nr_receiver_size, (settings->rate2048, a, &size), {&size, sizeof size});
    CALL(nr_receiver_start, (TABLE, settings, a, room, about(size)), {room, size});
    for (uint32_t k = 0, from = 0; k < TXS; from += txs[k++].g)
        CALL(nr_receiver_take,
             (TABLE, settings, a, room, size, txs + k, heard + from, about(txs[k].g), outcomes, left, c, joined, octets),
             {room, size}, {outcomes, 4}, {left, 4 * c}, {joined, octets});
    for (int k = 0; k < ROUNDS * TXS; k++) seeds[k] = word();
    const uint32_t wide = ROUNDS * TXS * c;
    CALL(nr_simulate,
         (TABLE, settings, a, txs, TXS, thresholds, TXS, seeds, ROUNDS * TXS, delivered, ROUNDS, lefts, about(wide), erased, wide),
         {delivered, sizeof delivered}, {lefts, 4 * wide}, {erased, 4 * wide});
}

/* A call of each function, over one block size and rate. An entry or an octet of the table is now and then another one. */
static void every_call(void) {
    static NrPlan plan = {2, 24, 0, 1, 24, 6, 4, 0, 40, 200, {0, 0}};
    static uint32_t parity;
    static NrReport report;
    const uint32_t a = 8 * (1 + draw(draw(14) ? 40 : draw(14) ? 500 : 3000)), poly = draw(50) ? draw(3) : 3;
    const NrSettings settings = {draw(60) ? 1 + draw(2048) : 2049 * draw(2), draw(2) * draw(6 * a), {0, 0}};
    const NrTx txs[TXS] = {drawn_tx(a), drawn_tx(a)};
    uint16_t *const value = &table[draw((uint32_t)table_len)].values[draw(8)], value_before = *value;
    uint8_t *const octet = text + draw((uint32_t)text_len), octet_before = *octet;
    size_t count = 0;
    for (uint32_t at = 0; at < ROWS * a / 8; at++) block[at] = (uint8_t)word();
    *value = (uint16_t)(draw(4) ? *value : draw(400));
    *octet = (uint8_t)(draw(4) ? *octet : "0123456789,\n"[draw(12)]);
    CALL(nr_table_check, (text, text_len, &report), {&report, sizeof report});
    CALL(nr_table_entries, (text, text_len, listed, about(table_len), &count), {listed, sizeof *listed * table_len},
         {&count, sizeof count});
    CALL(nr_crc, (poly, block, a / 8, &parity), {&parity, sizeof parity});
    CALL(nr_plan, (settings.rate2048, a, &plan), {&plan, sizeof plan});
    CALL(nr_lengths, (settings.rate2048, a, txs, lengths, about(plan.c)), {lengths, 4 * plan.c});
    stages(&settings, a, txs, &plan);
    ends(&settings, a, txs, &plan);
    *value = value_before;
    *octet = octet_before;
}

int main(int count, char **words) {
    text = text_of(count > 1 ? words[1] : NULL, &text_len);
    table = entries_of(text, text_len, &table_len);
    const unsigned long wanted = count > 2 ? strtoul(words[2], NULL, 10) : 1;
    while (calls < wanted) every_call();
    for (const Seen *it = first; it; it = it->next)
        printf("%s %lu %lu %016llx\n", it->name, it->calls, it->right, (unsigned long long)it->digest);
    return wrong;
}
