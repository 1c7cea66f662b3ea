/* The beats of stages: as they are read, and as they are judged. */
#include "nr_held.h"

#include <stdarg.h>
#include <stdio.h>
#include <string.h>

static const char *const STAGE_NAMES[NR_STAGES] = {"a", "attached", "bits", "d", "e", "f", "sent"};

const char *nr_stage_name(uint32_t stage) { return STAGE_NAMES[stage]; }

const uint8_t *nr_stage_of(const NrStages *stages, uint32_t stage, uint32_t r, uint32_t *count) {
    const NrPlan *plan = &stages->plan;
    if (stage >= NR_STAGES || !stages->first[stage]) return NULL;
    const uint8_t *first = stages->first[stage];
    int of_blocks = stage != NR_STAGE_A && stage != NR_STAGE_ATTACHED && stage != NR_STAGE_SENT;
    if (of_blocks && r >= plan->c) return NULL;
    switch (stage) {
    case NR_STAGE_A: *count = stages->a; return first;
    case NR_STAGE_ATTACHED: *count = plan->b; return first;
    case NR_STAGE_BITS: *count = plan->kdash; return first + (size_t)r * plan->kdash;
    case NR_STAGE_D: *count = plan->n; return first + (size_t)r * plan->n;
    case NR_STAGE_SENT: *count = stages->sent; return first;
    default: *count = stages->lengths[r]; return first + stages->offsets[r];
    }
}

static void set(uint32_t *words, uint32_t at) { words[at / 32] |= (uint32_t)1 << at % 32; }

/* The bits of a beat, and how many there are: 0 if the beat is past them. */
static uint32_t bits_of(NrStaged *it, const NrPlace *place, const uint8_t **bits, uint32_t *count) {
    uint32_t all = 0;
    if (!it) return NR_GOLDEN_HANDLE;
    if (place->width < 1 || place->width > NR_WIDEST) return NR_GOLDEN_WIDTH;
    *bits = nr_stage_of(&it->stages, place->stage, place->r, &all);
    if (!*bits) return NR_GOLDEN_BEAT;
    uint64_t from = (uint64_t)place->beat * place->width;
    *count = from >= all ? 0 : all - from > place->width ? place->width : (uint32_t)(all - from);
    if (*count) *bits += from;
    return NR_OK;
}

static NrStaged *staged(void *handle) { return (NrStaged *)nr_held(handle, NR_KIND_GOLDEN | NR_KIND_RECEIVER); }

uint32_t nr_golden_count(void *golden, uint32_t stage, uint32_t r, uint32_t *bits) {
    NrStaged *it = staged(golden);
    if (!it) return NR_GOLDEN_HANDLE;
    if (!nr_stage_of(&it->stages, stage, r, bits)) return NR_GOLDEN_BEAT;
    return NR_OK;
}

uint32_t nr_golden_plan(void *golden, NrPlan *plan) {
    NrStaged *it = (NrStaged *)nr_held(golden, NR_KIND_GOLDEN);
    if (!it) return NR_GOLDEN_HANDLE;
    if (!it->stages.memory) return NR_GOLDEN_BEAT;
    *plan = it->stages.plan;
    return NR_OK;
}

uint32_t nr_golden_block(void *golden, uint32_t r, NrBuffer *buffer, uint32_t *e) {
    NrStaged *it = (NrStaged *)nr_held(golden, NR_KIND_GOLDEN);
    if (!it) return NR_GOLDEN_HANDLE;
    if (!it->stages.memory || r >= it->stages.plan.c) return NR_GOLDEN_BEAT;
    *buffer = it->stages.buffer;
    *e = it->stages.lengths[r];
    return NR_OK;
}

uint32_t nr_golden_place(void *golden, uint32_t m, uint32_t *r, uint32_t *n) {
    NrStaged *it = (NrStaged *)nr_held(golden, NR_KIND_GOLDEN);
    if (!it) return NR_GOLDEN_HANDLE;
    if (!it->stages.memory || m >= it->stages.sent) return NR_GOLDEN_BEAT;
    *r = it->stages.places[m] / it->stages.plan.n;
    *n = it->stages.places[m] % it->stages.plan.n;
    return NR_OK;
}

/* Makes a beat of `count` bits that are there. */
static void fill(const NrStaged *it, const NrPlace *place, const uint8_t *bits, uint32_t count, NrBeat *beat) {
    uint32_t all = 0;
    memset(beat, 0, sizeof *beat);
    for (uint32_t i = 0; i < count; i++) {
        uint32_t lane = nr_lane(place, i);
        if (bits[i]) set(bits[i] == NR_BIT_FILLER ? beat->filler : beat->data, lane);
        set(beat->keep, lane / 8);
    }
    nr_stage_of(&it->stages, place->stage, place->r, &all);
    beat->bits = count;
    beat->last = (uint64_t)place->beat * place->width + count == all;
}

uint32_t nr_golden_beat(void *golden, const NrPlace *place, NrBeat *beat) {
    NrStaged *it = staged(golden);
    const uint8_t *bits;
    uint32_t count = 0, status = bits_of(it, place, &bits, &count);
    if (status != NR_OK) return status;
    if (!count) return NR_GOLDEN_BEAT;
    fill(it, place, bits, count, beat);
    return NR_OK;
}

/* What is judged, as text: a stage of the block, or of the code block that has this bit. */
static void say_stage(NrStaged *it, const NrPlace *place, uint32_t bit) {
    const NrStages *stages = &it->stages;
    uint32_t r = place->r;
    if (place->stage == NR_STAGE_SENT)
        for (r = 0; r + 1 < stages->plan.c && stages->offsets[r + 1] <= bit; r++) {}
    if (place->stage == NR_STAGE_A || place->stage == NR_STAGE_ATTACHED)
        snprintf(it->said, sizeof it->said, "%s: ", STAGE_NAMES[place->stage]);
    else
        snprintf(it->said, sizeof it->said, "%s of code block r = %u: ", STAGE_NAMES[place->stage], r);
}

/* Says what of this is wrong. */
static uint32_t differs(NrStaged *it, const NrPlace *place, uint32_t bit, const char *form, ...) {
    va_list given;
    say_stage(it, place, bit);
    size_t used = strlen(it->said);
    va_start(given, form);
    vsnprintf(it->said + used, sizeof it->said - used, form, given);
    va_end(given);
    return NR_GOLDEN_DIFFERS;
}

/* A beat where no bit is left. */
static uint32_t one_too_many(NrStaged *it, const NrPlace *place) {
    uint32_t all = 0;
    nr_stage_of(&it->stages, place->stage, place->r, &all);
    return differs(it, place, all, "beat %u is one too many, there are %u bits", place->beat, all);
}

uint32_t nr_golden_judge(void *golden, const NrPlace *place, const uint32_t *data, const uint32_t *unknown) {
    NrStaged *it = staged(golden);
    const uint8_t *bits;
    uint32_t count = 0, status = bits_of(it, place, &bits, &count);
    if (status != NR_OK) return status;
    if (!count) return one_too_many(it, place);
    for (uint32_t i = 0; i < count; i++) {
        uint32_t lane = nr_lane(place, i), bit = place->beat * place->width + i;
        if (bits[i] == NR_BIT_FILLER || (nr_bit(data, lane) == bits[i] && !nr_bit(unknown, lane))) continue;
        const char *is = nr_bit(unknown, lane) ? "X or Z" : nr_bit(data, lane) ? "1" : "0";
        return differs(it, place, bit, "bit %u is %s, right is %u (beat %u, tdata[%u])", bit, is, bits[i], place->beat, lane);
    }
    return NR_OK;
}

uint32_t nr_golden_judge_sides(void *golden, const NrPlace *place, const uint32_t *keep, uint32_t last) {
    NrStaged *it = staged(golden);
    const uint8_t *bits;
    NrBeat right;
    uint32_t count = 0, status = bits_of(it, place, &bits, &count);
    if (status != NR_OK) return status;
    if (!count) return one_too_many(it, place);
    fill(it, place, bits, count, &right);
    uint32_t bit = place->beat * place->width;
    for (uint32_t lane = 0; 8 * lane < place->width; lane++)
        if (nr_bit(keep, lane) != nr_bit(right.keep, lane))
            return differs(it, place, bit, "tkeep[%u] of beat %u is %u, right is %u", lane, place->beat, nr_bit(keep, lane),
                           nr_bit(right.keep, lane));
    if ((last != 0) == right.last) return NR_OK;
    return differs(it, place, bit, "tlast of beat %u is %u, right is %u", place->beat, last != 0, right.last);
}

const char *nr_golden_said(void *golden) {
    const NrStaged *it = staged(golden);
    return it ? it->said : "";
}
