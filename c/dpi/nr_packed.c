/* The packed structs of nr_dpi_pkg.sv, from words and to words. */
#include "nr_packed.h"

#include <string.h>

NrSettings nr_packed_settings(uint32_t rate2048, uint32_t lbrm) {
    NrSettings settings;
    memset(&settings, 0, sizeof settings);
    settings.rate2048 = rate2048;
    settings.lbrm = lbrm;
    return settings;
}

NrTx nr_packed_tx(const uint32_t *words) {
    NrTx tx;
    memset(&tx, 0, sizeof tx);
    for (int i = 0; i < 6; i++) tx.blocks[i] = words[2 * i] | (uint64_t)words[2 * i + 1] << 32;
    tx.some = words[12];
    tx.nl = words[13];
    tx.qm = words[14];
    tx.g = words[15];
    tx.rv = words[16];
    return tx;
}

void nr_packed_plan(const NrPlan *plan, uint32_t *words) {
    const uint32_t said[NR_PLAN_WORDS] = {plan->n,     plan->k, plan->set, plan->z, plan->kb,
                                          plan->kdash, plan->c, plan->l,   plan->b, plan->graph};
    memcpy(words, said, sizeof said);
}

void nr_packed_beat(const NrBeat *beat, uint32_t *words) {
    words[0] = beat->last;
    words[1] = beat->bits;
    memcpy(words + 2, beat->keep, sizeof beat->keep);
    memcpy(words + 4, beat->filler, sizeof beat->filler);
    memcpy(words + 20, beat->data, sizeof beat->data);
}
