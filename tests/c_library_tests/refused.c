/* Refuses memory: each growth of each call in turn, alone and with all that follow. Linked with --wrap=malloc and so on, so that
   the library asks here. Each such call answers Memory, writes nothing and holds nothing; the next one gives the answer. What is
   refused before the first growth is told whatever memory there is. */
#include "checked.h"

void *__real_malloc(size_t size);
void *__real_realloc(void *old, size_t size);
void *__real_calloc(size_t count, size_t size);
void __real_free(void *block);

static unsigned long met, first, last;
static long held;

static int refuses(void) {
    met += 1;
    return met >= first && met <= last;
}

static void *keep(void *block) {
    held += block != NULL;
    return block;
}

void *__wrap_malloc(size_t size) { return refuses() ? NULL : keep(__real_malloc(size)); }

void *__wrap_calloc(size_t count, size_t size) { return refuses() ? NULL : keep(__real_calloc(count, size)); }

void *__wrap_realloc(void *old, size_t size) {
    void *block = refuses() ? NULL : __real_realloc(old, size);
    held += block && !old;
    return block;
}

void __wrap_free(void *block) {
    held -= block != NULL;
    __real_free(block);
}

/* What the calls are given, and the rooms that they write. */
enum { OCTETS = 37, G = 1056, ENTRIES = 421, LONG = 4194305, KEPT = 1053, ROUNDS = 66 };
static uint8_t *text, long_text[LONG];
static NrEntry *table, unplaced[ENTRIES];
static size_t text_len, table_len;
static const NrSettings settings = {2048, 0, {0, 0}};
static uint8_t block[OCTETS], heard[2 * G], two_blocks[2 * OCTETS], two_heard[2 * G];
static uint8_t packed[2 * G / 8], known[2 * G / 8];
static NrTx txs[2];
static struct {
    NrReport report;
    size_t count;
    NrEntry entries[ENTRIES];
    uint32_t parity, block_passed, outcomes[ROUNDS], left, rows[2 * ROUNDS], erased[2 * ROUNDS];
    uint8_t bits[G], coded[990], block[OCTETS], kept[KEPT], many_bits[2 * G], many_blocks[2 * OCTETS];
    uint8_t passed, packed[G / 8];
} rooms;

/* The room of a new receiver, and one that takes up a transmission. */
static uint8_t begun[KEPT], kept[KEPT];

static uint32_t check_table(void) { return nr_table_check(text, text_len, &rooms.report); }

static uint32_t check_bad_table(void) { return nr_table_check(text, text_len - 3, &rooms.report); }

static uint32_t list(void) { return nr_table_entries(text, text_len, rooms.entries, ENTRIES, &rooms.count); }

static uint32_t list_in_less(void) { return nr_table_entries(text, text_len, rooms.entries, ENTRIES - 1, &rooms.count); }

static uint32_t list_bad(void) { return nr_table_entries(text, text_len - 3, rooms.entries, ENTRIES, &rooms.count); }

static uint32_t crc(void) { return nr_crc(NR_POLY_CRC24A, block, OCTETS, &rooms.parity); }

/* The octets of `bits` are zeros, and so is the codeword, but for its fillers. */
static uint32_t codeword(void) {
    static const uint8_t bits[312];
    return nr_codeword(table, table_len, 2048, 8 * OCTETS, bits, sizeof bits, rooms.coded, sizeof rooms.coded);
}

/* The same by base graph 1 and Zc = 15: 330 zeros and 990 without fillers. */
static uint32_t encode(void) {
    static const uint8_t bits[330];
    return nr_encode(table, table_len, 1, 15, bits, sizeof bits, rooms.coded, sizeof rooms.coded);
}

/* 37 octets with CRC16. */
static uint32_t cut(void) { return nr_cut(2048, block, OCTETS, 0, rooms.bits, 312); }

/* One code block of zeros, whose CRC16 is 0. */
static uint32_t join(void) {
    static const uint8_t bits[312];
    return nr_join(2048, 8 * OCTETS, bits, sizeof bits, &rooms.passed, 1, &rooms.block_passed, rooms.block, OCTETS);
}

/* The codeword of zeros, with fillers at 312 to 329 of the 1,020 columns, of which the first 30 are not sent. */
static uint32_t selection(void) {
    static uint8_t d[990];
    memset(d + 282, NR_BIT_FILLER, 18);
    return nr_select(&settings, 8 * OCTETS, 0, d, sizeof d, rooms.bits, G);
}

/* The same by its own numbers: base graph 1, Zc = 15, 18 fillers, all of d. */
static const NrMatch numbers = {1, 15, 18, 990, 0, 4, {0, 0}};

static uint32_t matching(void) {
    static uint8_t d[990];
    memset(d + 282, NR_BIT_FILLER, 18);
    return nr_match(&numbers, d, sizeof d, rooms.bits, G);
}

static uint32_t interleaving(void) {
    static const uint8_t bits[G];
    return nr_interleave(4, bits, G, rooms.bits, G);
}

static uint32_t send(void) { return nr_send(table, table_len, &settings, block, OCTETS, txs, rooms.bits, G); }

static uint32_t receive(void) {
    return nr_receive(table, table_len, &settings, 8 * OCTETS, txs, 2, heard, 2 * G, rooms.outcomes, 2, &rooms.left, 1, rooms.block,
                      OCTETS);
}

static uint32_t send_packed(void) {
    return nr_send_packed(table, table_len, &settings, block, OCTETS, txs, rooms.packed, G / 8);
}

static uint32_t receive_packed(void) {
    return nr_receive_packed(table, table_len, &settings, 8 * OCTETS, txs, 2, packed, sizeof packed, known, sizeof known,
                             rooms.outcomes, 2, &rooms.left, 1, rooms.block, OCTETS);
}

/* The same block in each of two rows. */
static uint32_t send_many(void) {
    return nr_send_many(table, table_len, &settings, 8 * OCTETS, txs, 1, 2, two_blocks, 2 * OCTETS, rooms.many_bits, 2 * G);
}

/* The last transmission alone, in each of so many rows. */
static size_t rows = 1;

static uint32_t receive_many(void) {
    return nr_receive_many(table, table_len, &settings, 8 * OCTETS, txs, 1, rows, two_heard, rows * G, rooms.outcomes, rows,
                           rooms.rows, rows, rooms.many_blocks, rows * OCTETS);
}

static uint32_t start(void) { return nr_receiver_start(table, table_len, &settings, 8 * OCTETS, rooms.kept, KEPT); }

/* What is refused leaves the receiver's room as it was. */
static uint32_t take(void) {
    uint32_t status;
    memcpy(kept, begun, KEPT);
    status = nr_receiver_take(table, table_len, &settings, 8 * OCTETS, kept, KEPT, txs, heard + G, G, rooms.outcomes, &rooms.left, 1,
                              rooms.block, OCTETS);
    CHECK((status == NR_OK) == (memcmp(kept, begun, KEPT) != 0));
    return status;
}

/* Rounds of two transmissions: 64 side by side, and two. */
static uint32_t simulate(void) {
    static const uint32_t thresholds[] = {0xFFFFFFFF, 0};
    static const uint64_t seeds[2 * ROUNDS] = {1, 2, 3, 4};
    return nr_simulate(table, table_len, &settings, 8 * OCTETS, txs, 2, thresholds, 2, seeds, 2 * ROUNDS, rooms.outcomes, ROUNDS,
                       rooms.rows, 2 * ROUNDS, rooms.erased, 2 * ROUNDS);
}

static int is_right(const char *name) {
    static const uint8_t zeros[OCTETS];
    if (!strcmp(name, "nr_table_entries")) return rooms.count == ENTRIES && !memcmp(rooms.entries, table, sizeof rooms.entries);
    if (!strcmp(name, "nr_table_entries, less room"))
        return rooms.count == ENTRIES && is_filled(rooms.entries, sizeof rooms.entries);
    if (!strcmp(name, "nr_send")) return !memcmp(rooms.bits, heard + G, G);
    if (!strcmp(name, "nr_send_packed")) return !memcmp(rooms.packed, packed + G / 8, G / 8);
    if (!strcmp(name, "nr_join")) return rooms.passed == 1 && rooms.block_passed == 1 && !memcmp(rooms.block, zeros, OCTETS);
    if (!strcmp(name, "nr_send_many")) return !memcmp(rooms.many_bits, two_heard, 2 * G);
    if (!strcmp(name, "nr_receive_many"))
        return rooms.outcomes[1] == NR_OUTCOME_DELIVERED && !memcmp(rooms.many_blocks, two_blocks, 2 * OCTETS);
    if (!strcmp(name, "nr_receiver_start")) return !memcmp(rooms.kept, begun, KEPT);
    if (!strcmp(name, "nr_receiver_take")) return rooms.outcomes[0] == NR_OUTCOME_DELIVERED && !memcmp(rooms.block, block, OCTETS);
    if (!strcmp(name, "nr_simulate")) return rooms.outcomes[0] == 2 && rooms.outcomes[65] == 2 && rooms.erased[130] == G;
    if (!strcmp(name, "nr_receive") || !strcmp(name, "nr_receive_packed"))
        return rooms.outcomes[1] == NR_OUTCOME_DELIVERED && !memcmp(rooms.block, block, OCTETS);
    return 1;
}

static uint32_t refusing(uint32_t (*call)(void), unsigned long from, unsigned long to) {
    uint32_t status;
    memset(&rooms, 0xA5, sizeof rooms);
    met = held = 0;
    first = from;
    last = to;
    status = call();
    first = last = 0;
    return status;
}

/* `due` is what the call answers with memory to spare, after `most` growths at most: as nr.h says of one code block. */
static void sweep(const char *name, uint32_t (*call)(void), uint32_t due, unsigned long most) {
    unsigned long growths;
    CHECK(refusing(call, 0, 0) == due && held == 0 && is_right(name));
    growths = met;
    CHECK(growths > 0 && growths <= most);
    for (unsigned long growth = 1; growth <= growths; growth++)
        for (int alone = 0; alone < 2; alone++) {
            uint32_t status = refusing(call, growth, alone ? growth : (unsigned long)-1);
            if (status != NR_ERR_MEMORY || held || !is_filled(&rooms, sizeof rooms)) {
                printf("%s: growth %lu%s refused: status %u, %ld blocks held, %s\n", name, growth, alone ? "" : " and all later",
                       (unsigned)status, held, is_filled(&rooms, sizeof rooms) ? "nothing written" : "something written");
                wrong += 1;
            }
            CHECK(refusing(call, 0, 0) == due && held == 0 && is_right(name));
        }
    printf("%s: %lu growths refused\n", name, growths);
}

/* What is refused with no memory at all as with memory to spare, after so many growths at most. */
static void refused_first(const char *name, uint32_t (*call)(void), uint32_t due, unsigned long growths) {
    for (unsigned long from = 0; from < 2; from++) {
        uint32_t status = refusing(call, from, from ? (unsigned long)-1 : 0);
        if (status != due || met > growths || held || (due != NR_ERR_TOO_LONG && !is_filled(&rooms, sizeof rooms))) {
            printf("%s: status %u after %lu growths, %ld blocks held\n", name, (unsigned)status, met, held);
            wrong += 1;
        }
    }
}

/* The faults that are told whatever memory there is: a call, its fault, after how many growths at most, and what it is given. */
#define FIRST(FAULT) \
    FAULT(nr_table_check, NR_ERR_TOO_LONG, 0, (long_text, LONG, &rooms.report)) \
    FAULT(nr_table_entries, NR_ERR_TOO_LONG, 0, (long_text, LONG, rooms.entries, ENTRIES, &rooms.count)) \
    FAULT(nr_codeword, NR_ERR_ENTRIES, 1, (unplaced, ENTRIES, 0, 0, block, 1, rooms.coded, 1)) \
    FAULT(nr_send, NR_ERR_ENTRIES, 1, (unplaced, ENTRIES, &settings, block, 0, txs, rooms.bits, 1)) \
    FAULT(nr_send_many, NR_ERR_ENTRIES, 1, (unplaced, ENTRIES, &settings, 0, txs, 1, 1, NULL, 0, rooms.bits, 1)) \
    FAULT(nr_receive, NR_ERR_ENTRIES, 1, \
          (unplaced, ENTRIES, &settings, 0, txs, 2, heard, 1, rooms.outcomes, 1, &rooms.left, 0, rooms.block, 0)) \
    FAULT(nr_receive_many, NR_ERR_ENTRIES, 1, \
          (unplaced, ENTRIES, &settings, 0, txs, 1, 1, NULL, 0, rooms.outcomes, 2, rooms.rows, 1, rooms.block, 1)) \
    FAULT(nr_receiver_start, NR_ERR_ENTRIES, 1, (unplaced, ENTRIES, &settings, 0, rooms.kept, 0)) \
    FAULT(nr_receiver_take, NR_ERR_ENTRIES, 1, \
          (unplaced, ENTRIES, &settings, 0, rooms.kept, 0, txs, heard, 1, rooms.outcomes, &rooms.left, 0, rooms.block, 0)) \
    FAULT(nr_simulate, NR_ERR_ENTRIES, 1, \
          (unplaced, ENTRIES, &settings, 0, txs, 2, NULL, 0, NULL, 0, rooms.outcomes, 2, rooms.rows, 0, rooms.erased, 0)) \
    FAULT(nr_encode, NR_ERR_ENTRIES, 1, (unplaced, ENTRIES, 0, 0, block, 1, rooms.coded, 1)) \
    FAULT(nr_cut, NR_ERR_SIZE, 0, (2048, block, 0, 0, rooms.bits, 0)) \
    FAULT(nr_cut, NR_ERR_CODE_BLOCK, 0, (2048, block, OCTETS, 1, rooms.bits, 312)) \
    FAULT(nr_cut, NR_ERR_ROOM, 0, (2048, block, OCTETS, 0, rooms.bits, 311)) \
    FAULT(nr_join, NR_ERR_LENGTH, 0, \
          (2048, 8 * OCTETS, block, OCTETS, &rooms.passed, 1, &rooms.block_passed, rooms.block, OCTETS)) \
    FAULT(nr_send_packed, NR_ERR_ENTRIES, 1, (unplaced, ENTRIES, &settings, block, 0, txs, rooms.packed, 1)) \
    FAULT(nr_receive_packed, NR_ERR_ENTRIES, 1, \
          (unplaced, ENTRIES, &settings, 0, txs, 2, packed, 1, known, 0, rooms.outcomes, 1, &rooms.left, 0, rooms.block, 0)) \
    FAULT(nr_select, NR_ERR_LENGTH, 0, (&settings, 8 * OCTETS, 0, block, OCTETS, rooms.bits, G)) \
    FAULT(nr_interleave, NR_ERR_ROOM, 0, (1, NULL, 0, rooms.bits, G)) \
    FAULT(nr_match, NR_ERR_LENGTH, 0, (&numbers, block, OCTETS, rooms.bits, G))

#define FUNCTION(call, due, growths, given) static uint32_t call##_##due(void) { return call given; }
FIRST(FUNCTION)

#define TEST(call, due, growths, given) refused_first(#call, call##_##due, due, growths);
static void refuse_first(void) { FIRST(TEST) }

int main(int count, char **words) {
    text = text_of(count > 1 ? words[1] : NULL, &text_len);
    table = entries_of(text, text_len, &table_len);
    CHECK(table_len == ENTRIES);
    memcpy(unplaced, table, sizeof unplaced);
    unplaced[ENTRIES - 1].col = 52;
    for (int at = 0; at < OCTETS; at++) block[at] = (uint8_t)(at + 1);
    txs[0] = txs[1] = transmission(0, G, 4);
    memset(heard, NR_BIT_ERASED, sizeof heard);
    CHECK(nr_send(table, table_len, &settings, block, OCTETS, txs, heard + G, G) == NR_OK);
    /* the same packed: nothing is known of the first transmission, all of the second */
    for (int m = 0; m < G; m++) packed[(G + m) / 8] |= (uint8_t)(heard[G + m] << (7 - m % 8));
    memset(known + G / 8, 0xFF, G / 8);
    sweep("nr_table_check", check_table, NR_OK, 34);
    sweep("nr_table_check, refused", check_bad_table, NR_ERR_CSV, 18);
    sweep("nr_table_entries", list, NR_OK, 34);
    sweep("nr_table_entries, less room", list_in_less, NR_ERR_ROOM, 34);
    sweep("nr_table_entries, refused", list_bad, NR_ERR_CSV, 18);
    sweep("nr_crc", crc, NR_OK, 1);
    sweep("nr_codeword", codeword, NR_OK, 6);
    sweep("nr_cut", cut, NR_OK, 3);
    sweep("nr_encode", encode, NR_OK, 5);
    sweep("nr_join", join, NR_OK, 3);
    sweep("nr_select", selection, NR_OK, 2);
    sweep("nr_interleave", interleaving, NR_OK, 2);
    sweep("nr_match", matching, NR_OK, 3);
    sweep("nr_send", send, NR_OK, 10);
    sweep("nr_receive", receive, NR_OK, 25);
    sweep("nr_send_packed", send_packed, NR_OK, 11);
    sweep("nr_receive_packed", receive_packed, NR_OK, 31);
    sweep("nr_simulate", simulate, NR_OK, 39);
    for (int k = 0; k < 2; k++) {
        memcpy(two_blocks + k * OCTETS, block, OCTETS);
        memcpy(two_heard + k * G, heard + G, G);
    }
    sweep("nr_send_many", send_many, NR_OK, 17);
    CHECK(refusing(receive_many, 0, 0) == NR_OK && met <= 40);
    rows = 2;
    sweep("nr_receive_many", receive_many, NR_OK, 41);
    CHECK(nr_receiver_start(table, table_len, &settings, 8 * OCTETS, begun, KEPT) == NR_OK);
    sweep("nr_receiver_start", start, NR_OK, 18);
    sweep("nr_receiver_take", take, NR_OK, 26);
    refuse_first();
    printf("%d wrong\n", wrong);
    return wrong != 0;
}
