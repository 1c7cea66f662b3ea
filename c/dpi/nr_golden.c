/* The handles of nr_golden.h, tables, and how the stages of a golden transmission are made. */
#include "nr_held.h"

#include <stdio.h>
#include <stdlib.h>
#include <string.h>

static NrHeld *all_held;

void *nr_held_new(enum NrKind kind, size_t octets) {
    NrHeld *it = (NrHeld *)calloc(1, octets);
    if (it) {
        it->kind = kind;
        it->next = all_held;
        all_held = it;
    }
    return it;
}

/* Takes what a handle stands for out of the list: NULL if it is of none of these kinds. */
static NrHeld *unlinked(void *handle, unsigned kinds) {
    for (NrHeld **from = &all_held; *from; from = &(*from)->next) {
        if (*from == handle) {
            NrHeld *it = *from;
            if (!(it->kind & kinds)) return NULL;
            *from = it->next;
            return it;
        }
    }
    return NULL;
}

void *nr_held(void *handle, unsigned kinds) {
    NrHeld *it = unlinked(handle, kinds);
    if (it) {
        /* What was asked for last stands first. */
        it->next = all_held;
        all_held = it;
    }
    return it;
}

void *nr_held_taken(void **handle, enum NrKind kind) {
    NrHeld *it = unlinked(*handle, kind);
    if (it) *handle = NULL;
    return it;
}

const char *nr_golden_fault_name(uint32_t status) {
    switch (status) {
    case NR_GOLDEN_HANDLE: return "Handle";
    case NR_GOLDEN_HEX: return "Hex";
    case NR_GOLDEN_WIDTH: return "Width";
    case NR_GOLDEN_BEAT: return "Beat";
    case NR_GOLDEN_DIFFERS: return "Differs";
    case NR_GOLDEN_UNKNOWN: return "Unknown";
    case NR_GOLDEN_END: return "End";
    case NR_GOLDEN_CASE: return "Case";
    case NR_GOLDEN_WRITE: return "Write";
    default: return nr_fault_name(status);
    }
}

typedef struct Table {
    NrHeld held;
    size_t count;
    NrEntry entries[1]; /* `count` of them */
} Table;

/* The most octets of a table's text (nr_table_check), and one more, which tells that a file has more. */
enum { MOST_TEXT = 4194304 + 1 };

/* The text of a file. */
static uint32_t text_of(const char *path, uint8_t **text, size_t *length) {
    FILE *file = fopen(path, "rb");
    if (!file) return NR_ERR_READ;
    *text = (uint8_t *)malloc(MOST_TEXT);
    uint32_t status = *text ? NR_OK : NR_ERR_MEMORY;
    if (*text) *length = fread(*text, 1, MOST_TEXT, file);
    if (*text && ferror(file)) {
        free(*text);
        status = NR_ERR_READ;
    }
    fclose(file);
    return status;
}

uint32_t nr_golden_table_open(const char *path, void **table) {
    uint8_t *text = NULL;
    size_t length = 0, count = 0;
    uint32_t status = text_of(path, &text, &length);
    if (status != NR_OK) return status;
    status = nr_table_entries(text, length, NULL, 0, &count);
    if (status == NR_ERR_ROOM) {
        Table *it = (Table *)nr_held_new(NR_KIND_TABLE, sizeof *it + count * sizeof *it->entries);
        status = it ? nr_table_entries(text, length, it->entries, count, &it->count) : NR_ERR_MEMORY;
        void *handle = it;
        if (status == NR_OK) *table = it;
        else if (it) free(nr_held_taken(&handle, NR_KIND_TABLE));
    }
    free(text);
    return status;
}

uint32_t nr_golden_table_close(void **table) {
    void *it = nr_held_taken(table, NR_KIND_TABLE);
    if (!it) return NR_GOLDEN_HANDLE;
    free(it);
    return NR_OK;
}

uint32_t nr_golden_entries(void *table, const NrEntry **entries, size_t *count) {
    Table *it = (Table *)nr_held(table, NR_KIND_TABLE);
    if (!it) return NR_GOLDEN_HANDLE;
    *entries = it->entries;
    *count = it->count;
    return NR_OK;
}

uint32_t nr_golden_new(void **golden) {
    void *it = nr_held_new(NR_KIND_GOLDEN, sizeof(NrStaged));
    if (!it) return NR_ERR_MEMORY;
    *golden = it;
    return NR_OK;
}

uint32_t nr_golden_free(void **golden) {
    NrStaged *it = (NrStaged *)nr_held_taken(golden, NR_KIND_GOLDEN);
    if (!it) return NR_GOLDEN_HANDLE;
    free(it->stages.memory);
    nr_suite_free(it->suite);
    free(it);
    return NR_OK;
}

/* The value of a hexadecimal digit; 16 of any other character. */
static uint32_t digit(char it) {
    const char *digits = "0123456789abcdef", *found = it ? strchr(digits, it >= 'A' && it <= 'F' ? it + 32 : it) : NULL;
    return found ? (uint32_t)(found - digits) : 16;
}

/* Writes the octets of `count` pairs of digits. */
static uint32_t octets_of(const char *hex, size_t count, uint8_t *octets) {
    for (size_t i = 0; i < count; i++) {
        uint32_t high = digit(hex[2 * i]), low = digit(hex[2 * i + 1]);
        if (high > 15 || low > 15) return NR_GOLDEN_HEX;
        octets[i] = (uint8_t)(high << 4 | low);
    }
    return NR_OK;
}

/* What a transmission is made of. */
typedef struct Given {
    const NrEntry *entries;
    size_t entries_len;
    const NrSettings *settings;
    const NrTx *tx;
    const uint8_t *octets;
    size_t octets_len;
} Given;

/* Room for all stages. */
static uint32_t room_for(NrStages *made, const Given *given) {
    const NrPlan *plan = &made->plan;
    uint32_t g = given->tx->g < NR_MOST_SENT ? given->tx->g : (uint32_t)NR_MOST_SENT;
    const size_t lengths[NR_STAGES] = {0, plan->b, (size_t)plan->c * plan->kdash, (size_t)plan->c * plan->n, g, 0, g};
    size_t all = sizeof *made->places * g;
    for (int i = 0; i < NR_STAGES; i++) all += lengths[i];
    made->places = (uint32_t *)malloc(all);
    uint8_t *at = made->memory = (uint8_t *)made->places;
    if (!at) return NR_ERR_MEMORY;
    at += sizeof *made->places * g;
    for (int i = 0; i < NR_STAGES; i++) {
        made->first[i] = at;
        at += lengths[i];
    }
    /* The block's bits begin `attached`, and f of all code blocks, joined, is `sent`. */
    made->first[NR_STAGE_A] = made->first[NR_STAGE_ATTACHED];
    made->first[NR_STAGE_F] = made->first[NR_STAGE_SENT];
    made->a = 8 * (uint32_t)given->octets_len;
    made->sent = g;
    return NR_OK;
}

/* e of code block r: what is sent of it alone with one bit a symbol, where nothing is interleaved. */
static uint32_t select_alone(NrStages *made, const Given *given, uint32_t r) {
    NrTx alone;
    memset(&alone, 0, sizeof alone);
    alone.rv = given->tx->rv;
    alone.g = made->lengths[r];
    alone.qm = alone.nl = 1;
    alone.some = 1;
    alone.blocks[r / 64] = (uint64_t)1 << r % 64;
    return nr_send(given->entries, given->entries_len, given->settings, given->octets, given->octets_len, &alone,
                   made->first[NR_STAGE_E] + made->offsets[r], alone.g);
}

/* The stages of code block r, and its share of `attached`. */
static uint32_t make_block(NrStages *made, const Given *given, uint32_t r) {
    const NrPlan *plan = &made->plan;
    uint32_t rate = given->settings->rate2048, share = plan->kdash - plan->l;
    uint8_t *bits = made->first[NR_STAGE_BITS] + (size_t)r * plan->kdash, *d = made->first[NR_STAGE_D] + (size_t)r * plan->n;
    uint32_t status = nr_cut(rate, given->octets, given->octets_len, r, bits, plan->kdash);
    if (status != NR_OK) return status;
    memcpy(made->first[NR_STAGE_ATTACHED] + (size_t)r * share, bits, share);
    status = nr_codeword(given->entries, given->entries_len, rate, made->a, bits, plan->kdash, d, plan->n);
    return status == NR_OK && made->lengths[r] ? select_alone(made, given, r) : status;
}

/* Makes all stages, the last one first: it judges all that is given. */
static uint32_t make(NrStages *made, const Given *given) {
    uint32_t rate = given->settings->rate2048, a = 8 * (uint32_t)given->octets_len;
    uint32_t status = nr_plan(rate, a, &made->plan);
    if (status == NR_OK) status = room_for(made, given);
    if (status == NR_OK)
        status = nr_send(given->entries, given->entries_len, given->settings, given->octets, given->octets_len, given->tx,
                         made->first[NR_STAGE_SENT], made->sent);
    if (status == NR_OK) status = nr_buffer(given->settings, a, given->tx->rv, &made->buffer);
    if (status == NR_OK) status = nr_lengths(rate, a, given->tx, made->lengths, made->plan.c);
    if (status == NR_OK) status = nr_places(given->settings, a, given->tx, made->places, made->sent);
    for (uint32_t r = 0; status == NR_OK && r < made->plan.c; r++) {
        made->offsets[r + 1] = made->offsets[r] + made->lengths[r];
        status = make_block(made, given, r);
    }
    return status;
}

uint32_t nr_golden_send(void *golden, void *table, const NrSettings *settings, const NrTx *tx, const char *hex) {
    NrStaged *it = (NrStaged *)nr_held(golden, NR_KIND_GOLDEN);
    Given given = {NULL, 0, settings, tx, NULL, strlen(hex) / 2};
    NrStages made;
    memset(&made, 0, sizeof made);
    uint32_t status = it ? nr_golden_entries(table, &given.entries, &given.entries_len) : (uint32_t)NR_GOLDEN_HANDLE;
    if (status != NR_OK) return status;
    if (strlen(hex) % 2) return NR_GOLDEN_HEX;
    uint8_t *octets = (uint8_t *)malloc(given.octets_len + 1);
    if (!octets) return NR_ERR_MEMORY;
    status = octets_of(hex, given.octets_len, octets);
    given.octets = octets;
    if (status == NR_OK) status = given.octets_len > NR_MOST_OCTETS ? (uint32_t)NR_ERR_SIZE : make(&made, &given);
    if (status == NR_OK) {
        free(it->stages.memory);
        it->stages = made;
    } else {
        free(made.memory);
    }
    free(octets);
    return status;
}
