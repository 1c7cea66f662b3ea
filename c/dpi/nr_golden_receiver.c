/* The golden receiver: what was received of a transport block so far, as nr_receiver_take keeps it, and what is heard of the next
   transmission. */
#include "nr_held.h"

#include <stdlib.h>
#include <string.h>

/* A list of places that grows. */
typedef struct Places {
    uint8_t *items;
    size_t count, room;
} Places;

typedef struct Receiver {
    NrStaged staged; /* the stage NR_STAGE_A is the block, if it is delivered */
    NrEntry *entries;
    size_t entries_len;
    NrSettings settings;
    uint8_t *room; /* of nr_receiver_take */
    size_t room_len;
    Places next; /* the places of the next transmission */
    uint32_t left[NR_MOST_BLOCKS];
} Receiver;

static Receiver *receiver_of(void *handle) { return (Receiver *)nr_held(handle, NR_KIND_RECEIVER); }

/* Makes room for so many places; those that are new are erased. */
static uint32_t grow(Places *places, size_t count) {
    if (count <= places->count) return NR_OK;
    if (count > places->room) {
        size_t room = 2 * places->room > count ? 2 * places->room : count;
        uint8_t *items = (uint8_t *)realloc(places->items, room);
        if (!items) return NR_ERR_MEMORY;
        places->items = items;
        places->room = room;
    }
    memset(places->items + places->count, NR_BIT_ERASED, count - places->count);
    places->count = count;
    return NR_OK;
}

static void free_receiver(Receiver *it) {
    free(it->staged.stages.memory);
    free(it->entries);
    free(it->room);
    free(it->next.items);
    free(it);
}

/* Keeps what a receiver is set to. */
static uint32_t set_up(Receiver *it, const NrEntry *entries, size_t count, const NrSettings *settings, uint32_t a) {
    NrStages *stages = &it->staged.stages;
    uint32_t status = nr_plan(settings->rate2048, a, &stages->plan);
    if (status == NR_OK) status = nr_receiver_size(settings->rate2048, a, &it->room_len);
    if (status != NR_OK) return status;
    it->settings = *settings;
    it->entries_len = count;
    it->entries = (NrEntry *)malloc(count * sizeof *entries);
    /* The block's octets, and after them its bits. */
    stages->a = a;
    stages->memory = (uint8_t *)malloc(a / 8 + a);
    it->room = (uint8_t *)malloc(it->room_len);
    if (!it->entries || !stages->memory || !it->room) return NR_ERR_MEMORY;
    memcpy(it->entries, entries, count * sizeof *entries);
    for (uint32_t r = 0; r < stages->plan.c; r++) it->left[r] = stages->plan.kdash;
    return nr_receiver_start(entries, count, settings, a, it->room, it->room_len);
}

uint32_t nr_golden_receiver_new(void *table, const NrSettings *settings, uint32_t a, void **receiver) {
    const NrEntry *entries;
    size_t count;
    uint32_t status = nr_golden_entries(table, &entries, &count);
    if (status != NR_OK) return status;
    void *made = nr_held_new(NR_KIND_RECEIVER, sizeof(Receiver));
    if (!made) return NR_ERR_MEMORY;
    status = set_up((Receiver *)made, entries, count, settings, a);
    if (status == NR_OK) *receiver = made;
    else free_receiver((Receiver *)nr_held_taken(&made, NR_KIND_RECEIVER));
    return status;
}

uint32_t nr_golden_receiver_free(void **receiver) {
    Receiver *it = (Receiver *)nr_held_taken(receiver, NR_KIND_RECEIVER);
    if (!it) return NR_GOLDEN_HANDLE;
    free_receiver(it);
    return NR_OK;
}

uint32_t nr_golden_receiver_hear(void *receiver, const NrPlace *place, const uint32_t *data, const uint32_t *erased) {
    Receiver *it = receiver_of(receiver);
    if (!it) return NR_GOLDEN_HANDLE;
    if (place->width < 1 || place->width > NR_WIDEST) return NR_GOLDEN_WIDTH;
    uint64_t from = (uint64_t)place->beat * place->width, end = from;
    /* As far as something is heard. */
    for (uint32_t i = 0; i < place->width; i++)
        if (!nr_bit(erased, nr_lane(place, i))) end = from + i + 1;
    if (end > NR_MOST_SENT) return NR_GOLDEN_BEAT;
    uint32_t status = end > from ? grow(&it->next, (size_t)end) : (uint32_t)NR_OK;
    for (uint32_t i = 0; status == NR_OK && from + i < end; i++) {
        uint32_t lane = nr_lane(place, i);
        if (!nr_bit(erased, lane)) it->next.items[from + i] = (uint8_t)nr_bit(data, lane);
    }
    return status;
}

uint32_t nr_golden_receiver_take(void *receiver, const NrTx *tx, uint32_t *outcome) {
    Receiver *it = receiver_of(receiver);
    if (!it) return NR_GOLDEN_HANDLE;
    NrStages *stages = &it->staged.stages;
    /* As many places as it has, so that what is wrong with it is told; and those that were heard past them. */
    size_t heard = it->next.count, g = tx->g <= NR_MOST_SENT ? tx->g : (size_t)NR_MOST_SENT + 1;
    uint32_t status = grow(&it->next, g);
    if (status == NR_OK)
        status = nr_receiver_take(it->entries, it->entries_len, &it->settings, stages->a, it->room, it->room_len, tx, it->next.items,
                                  it->next.count, outcome, it->left, stages->plan.c, stages->memory, stages->a / 8);
    if (status != NR_OK) {
        it->next.count = heard;
        return status;
    }
    it->next.count = 0;
    uint8_t *bits = stages->memory + stages->a / 8;
    int delivered = *outcome == NR_OUTCOME_DELIVERED;
    for (uint32_t i = 0; delivered && i < stages->a; i++) bits[i] = stages->memory[i / 8] >> (7 - i % 8) & 1;
    stages->first[NR_STAGE_A] = delivered ? bits : NULL;
    return NR_OK;
}

uint32_t nr_golden_receiver_left(void *receiver, uint32_t r, uint32_t *left) {
    Receiver *it = receiver_of(receiver);
    if (!it) return NR_GOLDEN_HANDLE;
    if (r >= it->staged.stages.plan.c) return NR_GOLDEN_BEAT;
    *left = it->left[r];
    return NR_OK;
}
