/* nr_held.h: what the handles of nr_golden.h stand for. */

#ifndef NR_HELD_H
#define NR_HELD_H

#include "nr_golden.h"

enum { NR_MOST_BLOCKS = 344, NR_MOST_SENT = 4194304, NR_MOST_OCTETS = 163840 };

/* A handle is the address of one of these, which stand in a list while they are open. */
enum NrKind { NR_KIND_TABLE = 1, NR_KIND_GOLDEN = 2, NR_KIND_RECEIVER = 4 };
typedef struct NrHeld {
    struct NrHeld *next;
    enum NrKind kind;
} NrHeld;

/* Makes one of so many octets, the first of which are an NrHeld, all 0; NULL if there is no memory. */
void *nr_held_new(enum NrKind kind, size_t octets);

/* The one of a handle, or NULL if none of these kinds is open by it; and the same, no longer open. */
void *nr_held(void *handle, unsigned kinds);
void *nr_held_taken(void **handle, enum NrKind kind);

/* Where bit i of a beat stands in tdata, and a bit of words of 32. */
static inline uint32_t nr_lane(const NrPlace *place, uint32_t i) {
    return place->first == NR_FIRST_HIGHEST ? place->width - 1 - i : i;
}
static inline uint32_t nr_bit(const uint32_t *words, uint32_t at) { return words[at / 32] >> at % 32 & 1; }

/* The stages of a transport block, in one piece of memory: NULL if there is none. e and f of code block r begin at offset[r]. `places`
   has what nr_places returns. */
typedef struct NrStages {
    uint8_t *memory, *first[NR_STAGES];
    NrPlan plan;
    NrBuffer buffer;
    uint32_t *places, a, sent, lengths[NR_MOST_BLOCKS], offsets[NR_MOST_BLOCKS + 1];
} NrStages;

/* The suite of a golden transmission (nr_suite.c). */
typedef struct NrSuite NrSuite;
void nr_suite_free(NrSuite *suite);

/* What has stages, what was said last of one, and its suite or NULL. */
typedef struct NrStaged {
    NrHeld held;
    NrStages stages;
    char said[192];
    NrSuite *suite;
} NrStaged;

/* A stage's name, as answers have it. */
const char *nr_stage_name(uint32_t stage);

/* The bits of a stage, or of code block r of it, and how many; NULL if there is none. */
const uint8_t *nr_stage_of(const NrStages *stages, uint32_t stage, uint32_t r, uint32_t *count);

#endif
