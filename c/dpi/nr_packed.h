/* nr_packed.h: the packed structs of nr_dpi_pkg.sv as words, the lowest first: the last field of a struct is the lowest. */

#ifndef NR_PACKED_H
#define NR_PACKED_H

#include "nr_golden.h"

enum { NR_PLAN_WORDS = 10, NR_TX_WORDS = 17, NR_BEAT_WORDS = 36 };

#ifdef __cplusplus
extern "C" {
#endif

NrSettings nr_packed_settings(uint32_t rate2048, uint32_t lbrm);
NrTx nr_packed_tx(const uint32_t *words);
void nr_packed_plan(const NrPlan *plan, uint32_t *words);
void nr_packed_beat(const NrBeat *beat, uint32_t *words);

#ifdef __cplusplus
}
#endif

#endif
