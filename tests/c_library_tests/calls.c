/* Each call once with its answer, and once refused. The answers are those of README's examples. Each list has memory of its own
   length, so that a tool which watches memory sees every octet past an end. */
#include "checked.h"

static uint8_t *text;
static NrEntry *table;
static size_t text_len, table_len;
static const NrSettings settings = {2048, 0, {0, 0}};
static const NrMatch numbers = {2, 4, 16, 200, 0, 4, {0, 0}};

static void *filled(size_t length) {
    void *room = malloc(length);
    if (!room) exit(2);
    return memset(room, 0xA5, length);
}

static void tables(void) {
    NrReport report = {7, 7, 7, 7};
    CHECK(nr_table_check(text, text_len, &report) == NR_OK);
    CHECK(report.one == 0 && report.two == 105 && report.place == 0 && report.reserved == 0);
    CHECK(nr_table_check((const uint8_t *)"1,2\n", 4, &report) == NR_ERR_FIELDS);
    CHECK(report.one == 0 && report.two == 0 && report.place == 0);
    CHECK(nr_table_check(text, text_len - 3, &report) == NR_ERR_CSV);
    CHECK(report.place == 105);
}

/* The first entry of the practice table is 2,0,0 and its last one 2,41,51, all values 0. */
static void entries(void) {
    static const NrEntry first = {2, 0, 0, {0}}, last = {2, 41, 51, {0}};
    NrEntry *room = (NrEntry *)filled(106 * sizeof(NrEntry)), swapped;
    uint8_t bits[24];
    NrTx tx = transmission(0, 24, 1);
    size_t count = 7;
    CHECK(sizeof(NrEntry) == 22);
    CHECK(nr_table_entries((const uint8_t *)"1,2\n", 4, room, 105, &count) == NR_ERR_FIELDS);
    CHECK(count == 7 && is_filled(room, 106 * sizeof(NrEntry)));
    CHECK(nr_table_entries(text, text_len, room, 104, &count) == NR_ERR_ROOM && count == 105);
    CHECK(nr_table_entries(text, text_len, room, 106, &count) == NR_ERR_ROOM && count == 105);
    CHECK(is_filled(room, 106 * sizeof(NrEntry)));
    CHECK(nr_table_entries(text, text_len, room, 105, &count) == NR_OK && count == 105);
    CHECK(is_filled(room + 105, sizeof(NrEntry)));
    CHECK(!memcmp(room, &first, sizeof first) && !memcmp(room + 104, &last, sizeof last));
    CHECK(!memcmp(room, table, 105 * sizeof(NrEntry)));
    swapped = room[3];
    room[3] = room[4];
    room[4] = swapped;
    memset(bits, 0xA5, sizeof bits);
    CHECK(nr_send(room, 105, &settings, (const uint8_t *)"\1", 1, &tx, bits, 24) == NR_ERR_ENTRIES && is_filled(bits, 24));
    free(room);
}

static void plans(void) {
    static const NrPlan wanted = {2, 24, 0, 1, 24, 6, 4, 0, 40, 200, {0, 0}};
    NrPlan plan;
    memset(&plan, 0xA5, sizeof plan);
    CHECK(nr_plan(2049, 8, &plan) == NR_ERR_RATE_RANGE);
    CHECK(nr_plan(2048, 9, &plan) == NR_ERR_SIZE);
    CHECK(is_filled(&plan, sizeof plan));
    CHECK(nr_plan(2048, 8, &plan) == NR_OK);
    CHECK(!memcmp(&plan, &wanted, sizeof plan));
}

static void parities(void) {
    uint32_t parity = 7;
    CHECK(nr_crc(3, (const uint8_t *)"", 0, &parity) == NR_ERR_POLY);
    CHECK(parity == 7);
    CHECK(nr_crc(NR_POLY_CRC16, (const uint8_t *)"\1", 1, &parity) == NR_OK);
    CHECK(parity == 0x1021);
    CHECK(nr_crc(NR_POLY_CRC24A, (const uint8_t *)"\1", 1, &parity) == NR_OK);
    CHECK(parity == 0x864CFB);
    CHECK(nr_crc(NR_POLY_CRC24B, (const uint8_t *)"\1", 1, &parity) == NR_OK);
    CHECK(parity == 0x800063);
}

/* e and f of the code block that has these d, for 24 bits of a modulation order of 4. Word 0 of the generator erases place 0. */
static void selecting(const uint8_t *d) {
    static const uint8_t sent[] = {0x00, 0x0a, 0x51};
    uint8_t wanted[24], selected[24], spread[24];
    memset(spread, 0xA5, sizeof spread);
    CHECK(nr_select(&settings, 8, 4, d, 200, spread, 24) == NR_ERR_RV && nr_interleave(3, d, 24, spread, 24) == NR_ERR_ORDER);
    CHECK(is_filled(spread, sizeof spread));
    CHECK(nr_select(&settings, 8, 0, d, 200, selected, 24) == NR_OK && !memcmp(selected, d, 16) && !memcmp(selected + 16, d + 32, 8));
    CHECK(nr_interleave(4, selected, 24, spread, 24) == NR_OK);
    bits_of(sent, sizeof sent, wanted);
    CHECK(!memcmp(spread, wanted, 24));
    memset(selected, 0xA5, sizeof selected);
    CHECK(nr_match(&numbers, d, 199, selected, 24) == NR_ERR_LENGTH && is_filled(selected, sizeof selected));
    CHECK(nr_match(&numbers, d, 200, selected, 24) == NR_OK && !memcmp(selected, wanted, 24));
    CHECK(nr_erase(42, 0xa15c02b8, spread, 1) == NR_OK && spread[0] == NR_BIT_ERASED && spread[1] == wanted[1]);
}

/* The block 01 with its CRC16, 011021, and what is sent of its code block. E = G, as it is the only one. All of d is sent from
   its start, and with redundancy version 3 from column 43 on, but for the fillers. */
static void coding(void) {
    static const uint8_t attached[] = {0x01, 0x10, 0x21}, first[] = {0x10, 0x21}, last[] = {0x80, 0x00, 0x00};
    NrTx tx = transmission(0, 184, 1);
    NrBuffer buffer = {7, 7, {7, 7}};
    const uint8_t block[] = {1};
    uint8_t bits[24], wanted[24], code[40], *out = (uint8_t *)filled(200), *encoded = (uint8_t *)filled(200);
    uint32_t length = 7;
    CHECK(nr_lengths(2048, 8, &tx, &length, 0) == NR_ERR_ROOM && length == 7);
    CHECK(nr_lengths(2048, 8, &tx, &length, 1) == NR_OK && length == 184);
    CHECK(nr_buffer(&settings, 8, 4, &buffer) == NR_ERR_RV && buffer.ncb == 7 && buffer.k0 == 7);
    CHECK(nr_buffer(&settings, 8, 3, &buffer) == NR_OK && buffer.ncb == 200 && buffer.k0 == 172);
    CHECK(buffer.reserved[0] == 0 && buffer.reserved[1] == 0);
    bits_of(attached, sizeof attached, bits);
    memset(code, 0xA5, sizeof code);
    CHECK(nr_cut(2048, block, 1, 1, code, 24) == NR_ERR_CODE_BLOCK && nr_cut(2048, block, 1, 0, code, 23) == NR_ERR_ROOM);
    CHECK(is_filled(code, sizeof code));
    CHECK(nr_cut(2048, block, 1, 0, code, 24) == NR_OK && !memcmp(code, bits, 24) && is_filled(code + 24, 16));
    bits[23] = 2;
    CHECK(nr_codeword(table, table_len, 2048, 8, bits, 24, out, 200) == NR_ERR_BIT && is_filled(out, 200));
    bits[23] = 1;
    CHECK(nr_codeword(table, table_len, 2048, 8, bits, 24, out, 200) == NR_OK);
    bits_of(first, sizeof first, wanted);
    CHECK(!memcmp(out, wanted, 16));
    for (int filler = 16; filler < 32; filler++) CHECK(out[filler] == NR_BIT_FILLER);
    bits_of(last, sizeof last, wanted);
    CHECK(!memcmp(out + 172, wanted, 24));
    selecting(out);
    memset(code + 24, NR_BIT_FILLER, 16);
    CHECK(nr_encode(table, table_len, 2, 3, code, 30, encoded, 150) == NR_ERR_LIFTING && is_filled(encoded, 200));
    CHECK(nr_encode(table, table_len, 2, 4, code, 40, encoded, 200) == NR_OK && !memcmp(encoded, out, 200));
    free(encoded);
    free(out);
}

/* Transmission 2 of the example: Qm is 4, so its bits are interleaved. */
static void sending(void) {
    static const uint8_t sent[] = {0x00, 0x0a, 0x51};
    const uint8_t block[] = {1};
    NrTx tx = transmission(0, 24, 4);
    uint8_t wanted[24], *out = (uint8_t *)filled(24);
    bits_of(sent, sizeof sent, wanted);
    CHECK(nr_send(table, table_len, &settings, block, 1, &tx, out, 23) == NR_ERR_ROOM);
    tx.rv = 4;
    CHECK(nr_send(table, table_len, &settings, block, 1, &tx, out, 24) == NR_ERR_RV);
    CHECK(is_filled(out, 24));
    tx.rv = 0;
    CHECK(nr_send(table, table_len, &settings, block, 1, &tx, out, 24) == NR_OK);
    CHECK(!memcmp(out, wanted, 24));
    free(out);
}

/* A round of which nothing arrives at first, and then all 184 bits; and one that is refused. */
static void simulating(void) {
    static const uint32_t thresholds[] = {0xFFFFFFFF, 0};
    static const uint64_t seeds[] = {1, 2};
    NrTx txs[2];
    uint32_t delivered = 7, left[] = {7, 7}, erased[] = {7, 7};
    txs[0] = txs[1] = transmission(0, 184, 1);
    CHECK(nr_simulate(table, table_len, &settings, 8, txs, 2, thresholds, 2, seeds, 2, &delivered, 1, left, 2, erased, 1) ==
          NR_ERR_ROOM);
    CHECK(nr_simulate(table, table_len, &settings, 8, txs, 2, thresholds, 1, seeds, 2, &delivered, 1, left, 2, erased, 2) ==
          NR_ERR_LENGTH);
    CHECK(delivered == 7 && left[0] == 7 && erased[1] == 7);
    CHECK(nr_simulate(table, table_len, &settings, 8, txs, 2, thresholds, 2, seeds, 2, &delivered, 1, left, 2, erased, 2) == NR_OK);
    CHECK(delivered == 2 && left[0] == 24 && left[1] == 0 && erased[0] == 184 && erased[1] == 0);
    CHECK(nr_simulate(table, table_len, &settings, 8, NULL, 0, NULL, 0, NULL, 0, NULL, 0, NULL, 0, NULL, 0) == NR_OK);
}

/* What is received of a block of 8 bits, which is one code block. */
static uint32_t receive(const NrTx *txs, size_t count, const uint8_t *heard, size_t heard_len, uint32_t *outcomes,
                        size_t outcomes_len, uint32_t *left, uint8_t *block) {
    return nr_receive(table, table_len, &settings, 8, txs, count, heard, heard_len, outcomes, outcomes_len, left, 1, block, 1);
}

/* All of transmission 1, which leaves 4 bits; then also the last four of transmission 2. */
static void receiving(void) {
    static const uint8_t sent[] = {0x10, 0x21, 0x03, 0x10, 0x21, 0x03, 0x30};
    NrTx *txs = (NrTx *)filled(2 * sizeof(NrTx));
    uint8_t bits[56], *heard = (uint8_t *)filled(52), *block = (uint8_t *)filled(1);
    uint32_t *outcomes = (uint32_t *)filled(2 * sizeof(uint32_t)), *left = (uint32_t *)filled(sizeof(uint32_t));
    txs[0] = transmission(0, 24, 1);
    txs[1] = transmission(0, 28, 1);
    bits_of(sent, sizeof sent, bits);
    memcpy(heard, bits, 24);
    memset(heard + 24, NR_BIT_ERASED, 24);
    memcpy(heard + 48, bits + 48, 4);
    CHECK(receive(txs, 2, heard, 51, outcomes, 2, left, block) == NR_ERR_LENGTH);
    CHECK(receive(txs, 2, heard, 52, outcomes, 1, left, block) == NR_ERR_ROOM);
    CHECK(is_filled(outcomes, 2 * sizeof *outcomes) && is_filled(left, sizeof *left) && is_filled(block, 1));
    CHECK(receive(txs, 1, heard, 24, outcomes, 1, left, block) == NR_OK);
    CHECK(outcomes[0] == NR_OUTCOME_OPEN && is_filled(outcomes + 1, sizeof *outcomes) && *left == 4 && is_filled(block, 1));
    CHECK(receive(txs, 2, heard, 52, outcomes, 2, left, block) == NR_OK);
    CHECK(outcomes[0] == NR_OUTCOME_OPEN && outcomes[1] == NR_OUTCOME_DELIVERED && *left == 0 && block[0] == 1);
    heard[0] = !heard[0];
    block[0] = 0xA5;
    CHECK(receive(txs, 2, heard, 52, outcomes, 2, left, block) == NR_OK);
    CHECK(outcomes[0] == NR_OUTCOME_OPEN && outcomes[1] == NR_OUTCOME_CONTRADICTION && *left == 0 && is_filled(block, 1));
    free(left);
    free(outcomes);
    free(block);
    free(heard);
    free(txs);
}

/* Takes up a transmission of a block of 8 bits in a room of 241 octets. */
static uint32_t take(uint8_t *room, const NrTx *tx, const uint8_t *heard, uint32_t *outcome, uint32_t *left, uint8_t *block) {
    return nr_receiver_take(table, table_len, &settings, 8, room, 241, tx, heard, tx->g, outcome, left, 1, block, 1);
}

/* The same transmissions, one at a call: each is heard from memory of its own length. */
static void taking_up(void) {
    static const uint8_t sent[] = {0x10, 0x21, 0x03};
    NrTx tx = transmission(0, 24, 1);
    size_t octets = 7;
    uint8_t *heard = (uint8_t *)filled(24), *room = (uint8_t *)filled(241), *before = (uint8_t *)filled(241);
    uint8_t *block = (uint8_t *)filled(1);
    uint32_t *outcome = (uint32_t *)filled(sizeof(uint32_t)), *left = (uint32_t *)filled(sizeof(uint32_t));
    bits_of(sent, sizeof sent, heard);
    CHECK(nr_receiver_size(2048, 7, &octets) == NR_ERR_SIZE && octets == 7);
    CHECK(nr_receiver_size(2048, 8, &octets) == NR_OK && octets == 241);
    CHECK(nr_receiver_start(table, table_len, &settings, 8, NULL, 0) == NR_ERR_ROOM);
    CHECK(take(room, &tx, heard, outcome, left, block) == NR_ERR_STATE && is_filled(room, 241));
    CHECK(nr_receiver_start(table, table_len, &settings, 8, room, 241) == NR_OK);
    CHECK(take(room, &tx, heard, outcome, left, block) == NR_OK && *outcome == NR_OUTCOME_OPEN && *left == 4);
    CHECK(is_filled(block, 1));
    memcpy(before, room, 241);
    tx.rv = 4;
    CHECK(take(room, &tx, heard, outcome, left, block) == NR_ERR_RV);
    tx.rv = 0;
    CHECK(nr_receiver_take(table, table_len, &settings, 8, room, 241, &tx, NULL, 0, outcome, left, 1, block, 1) == NR_ERR_LENGTH);
    CHECK(nr_receiver_take(table, table_len, &settings, 8, room, 241, &tx, heard, 24, outcome, NULL, 0, block, 1) == NR_ERR_ROOM);
    CHECK(*outcome == NR_OUTCOME_OPEN && *left == 4 && is_filled(block, 1) && !memcmp(room, before, 241));
    tx = transmission(0, 28, 1);
    free(heard);
    heard = (uint8_t *)filled(28);
    memset(heard, NR_BIT_ERASED, 24);
    memcpy(heard + 24, "\0\0\1\1", 4);
    CHECK(take(room, &tx, heard, outcome, left, block) == NR_OK && *outcome == NR_OUTCOME_DELIVERED && *left == 0 && *block == 1);
    free(heard);
    free(room);
    free(before);
    free(block);
    free(outcome);
    free(left);
}

/* A list of no items may be NULL: where the table is read, coded and sent. */
static void no_items(void) {
    const uint8_t block[] = {1}, zeros[24] = {0};
    NrTx tx = transmission(0, 24, 1);
    NrReport report = {7, 7, 7, 7};
    size_t count = 7;
    uint32_t parity = 7;
    uint8_t *out = (uint8_t *)filled(200);
    CHECK(nr_table_check(NULL, 0, &report) == NR_ERR_EMPTY && report.two == 0);
    CHECK(nr_table_entries(NULL, 0, NULL, 0, &count) == NR_ERR_EMPTY && count == 7);
    CHECK(nr_table_entries(text, text_len, NULL, 0, &count) == NR_ERR_ROOM && count == 105);
    CHECK(nr_crc(NR_POLY_CRC24A, NULL, 0, &parity) == NR_OK && parity == 0);
    CHECK(nr_lengths(2048, 8, &tx, NULL, 0) == NR_ERR_ROOM);
    CHECK(nr_codeword(NULL, 0, 2048, 8, zeros, 24, out, 200) == NR_ERR_EMPTY);
    CHECK(nr_codeword(table, table_len, 2048, 8, NULL, 0, out, 200) == NR_ERR_LENGTH);
    CHECK(nr_codeword(table, table_len, 2048, 8, zeros, 24, NULL, 0) == NR_ERR_ROOM);
    CHECK(nr_send(NULL, 0, &settings, block, 1, &tx, out, 24) == NR_ERR_EMPTY);
    CHECK(nr_send(table, table_len, &settings, NULL, 0, &tx, out, 24) == NR_ERR_SIZE);
    CHECK(nr_send(table, table_len, &settings, block, 1, &tx, NULL, 0) == NR_ERR_ROOM);
    CHECK(nr_cut(2048, NULL, 0, 0, out, 24) == NR_ERR_SIZE);
    CHECK(nr_cut(2048, block, 1, 0, NULL, 0) == NR_ERR_ROOM);
    CHECK(nr_select(&settings, 8, 0, NULL, 0, out, 24) == NR_ERR_LENGTH);
    CHECK(nr_interleave(2, NULL, 0, out, 24) == NR_ERR_ROOM && nr_interleave(2, NULL, 0, NULL, 0) == NR_OK);
    CHECK(nr_match(&numbers, NULL, 0, out, 24) == NR_ERR_LENGTH);
    CHECK(nr_erase(1, 0xFFFFFFFF, NULL, 0) == NR_OK);
    CHECK(nr_encode(NULL, 0, 2, 4, zeros, 24, out, 200) == NR_ERR_EMPTY);
    CHECK(nr_encode(table, table_len, 2, 4, NULL, 0, out, 200) == NR_ERR_LENGTH);
    CHECK(is_filled(out, 200));
    free(out);
}

/* The same where it is received: no transmission, and no room if none is wanted; a room that is wanted. */
static void nothing_received(void) {
    static const uint8_t erased[] = {2, 2, 2, 2}, zeros[32] = {0};
    NrTx tx = transmission(0, 4, 1);
    uint32_t outcome = 7, left = 7;
    uint8_t block = 7;
    CHECK(nr_receive(NULL, 0, &settings, 8, &tx, 1, erased, 4, &outcome, 1, &left, 1, NULL, 0) == NR_ERR_EMPTY);
    CHECK(nr_receive(table, table_len, &settings, 8, NULL, 0, erased, 1, NULL, 0, &left, 1, &block, 1) == NR_ERR_LENGTH);
    CHECK(nr_receive(table, table_len, &settings, 8, &tx, 1, NULL, 0, &outcome, 1, &left, 1, &block, 1) == NR_ERR_LENGTH);
    CHECK(nr_receive(table, table_len, &settings, 8, &tx, 1, erased, 4, NULL, 0, &left, 1, &block, 1) == NR_ERR_ROOM);
    CHECK(nr_receive(table, table_len, &settings, 8, &tx, 1, erased, 4, &outcome, 1, NULL, 0, &block, 1) == NR_ERR_ROOM);
    CHECK(nr_receive(table, table_len, &settings, 8, &tx, 1, erased, 4, &outcome, 1, &left, 1, NULL, 0) == NR_ERR_ROOM);
    tx.g = 32;
    CHECK(nr_receive(table, table_len, &settings, 8, &tx, 1, zeros, 32, &outcome, 1, &left, 1, NULL, 0) == NR_ERR_ROOM);
    CHECK(outcome == 7 && left == 7);
    CHECK(nr_receive(table, table_len, &settings, 8, NULL, 0, NULL, 0, NULL, 0, &left, 1, NULL, 0) == NR_ERR_ROOM && left == 7);
    CHECK(nr_receive(table, table_len, &settings, 8, NULL, 0, NULL, 0, NULL, 0, &left, 1, &block, 1) == NR_OK && left == 24);
    CHECK(block == 7);
}

/* The same where else a list may have no items: tables, rooms and results. */
static void left_out(void) {
    static const uint8_t bits[40] = {0};
    uint8_t d[200] = {0}, room[241] = {0}, block = 7;
    NrTx tx = transmission(0, 24, 1);
    uint32_t outcome = 7, left = 7;
    memset(d + 16, NR_BIT_FILLER, 16);
    CHECK(nr_select(&settings, 8, 0, d, 200, NULL, 0) == NR_OK && nr_match(&numbers, d, 200, NULL, 0) == NR_OK);
    CHECK(nr_encode(table, table_len, 2, 4, bits, 40, NULL, 0) == NR_ERR_ROOM);
    CHECK(nr_receiver_start(NULL, 0, &settings, 8, room, 241) == NR_ERR_EMPTY);
    CHECK(nr_receiver_take(NULL, 0, &settings, 8, room, 241, &tx, bits, 24, &outcome, &left, 1, &block, 1) == NR_ERR_EMPTY);
    CHECK(nr_receiver_take(table, table_len, &settings, 8, NULL, 0, &tx, bits, 24, &outcome, &left, 1, &block, 1) == NR_ERR_ROOM);
    CHECK(nr_receiver_take(table, table_len, &settings, 8, room, 241, &tx, bits, 24, &outcome, &left, 1, NULL, 0) == NR_ERR_ROOM);
    CHECK(nr_simulate(NULL, 0, &settings, 8, NULL, 0, NULL, 0, NULL, 0, NULL, 0, NULL, 0, NULL, 0) == NR_ERR_EMPTY);
    CHECK(nr_send_many(NULL, 0, &settings, 8, &tx, 1, 0, NULL, 0, NULL, 0) == NR_ERR_EMPTY);
    CHECK(nr_receive_many(NULL, 0, &settings, 8, NULL, 0, 0, NULL, 0, NULL, 0, NULL, 0, NULL, 0) == NR_ERR_EMPTY);
    CHECK(nr_receive_many(table, table_len, &settings, 8, NULL, 0, 0, NULL, 0, NULL, 0, NULL, 0, NULL, 0) == NR_OK);
    CHECK(outcome == 7 && left == 7 && block == 7);
}

int main(int count, char **words) {
    text = text_of(count > 1 ? words[1] : NULL, &text_len);
    table = entries_of(text, text_len, &table_len);
    tables();
    entries();
    plans();
    parities();
    coding();
    sending();
    simulating();
    receiving();
    taking_up();
    no_items();
    nothing_received();
    left_out();
    CHECK(!strcmp(nr_fault_name(NR_ERR_NONE_SCHEDULED), "NoneScheduled"));
    CHECK(!strcmp(nr_fault_name(1000), "unknown"));
    free(table);
    free(text);
    printf("%d wrong\n", wrong);
    return wrong != 0;
}
