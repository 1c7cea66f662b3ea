/* The shim between nr_dpi_pkg.sv and nr_golden.h: converts packed structs and vectors, and decides nothing. A function without them
   is imported from nr_golden.h directly. It is C and C++, because Verilator gives it to g++. */
#include "nr_packed.h"
#include "svdpi.h"

#ifdef __cplusplus
extern "C" {
#endif

static NrPlace place_of(uint32_t stage, uint32_t r, uint32_t beat, uint32_t width, uint32_t first) {
    NrPlace place = {stage, r, beat, width, first};
    return place;
}

/* The golden transmission. */

uint32_t nr_dpi_golden_send(void *golden, void *table, uint32_t rate2048, uint32_t lbrm, const svBitVecVal *tx, const char *hex) {
    NrTx given = nr_packed_tx(tx);
    NrSettings settings = nr_packed_settings(rate2048, lbrm);
    return nr_golden_send(golden, table, &settings, &given, hex);
}

uint32_t nr_dpi_golden_plan(void *golden, svBitVecVal *out) {
    NrPlan plan;
    uint32_t status = nr_golden_plan(golden, &plan);
    if (status == NR_OK) nr_packed_plan(&plan, out);
    return status;
}

uint32_t nr_dpi_golden_block(void *golden, uint32_t r, uint32_t *ncb, uint32_t *k0, uint32_t *e) {
    NrBuffer buffer;
    uint32_t status = nr_golden_block(golden, r, &buffer, e);
    if (status != NR_OK) return status;
    *ncb = buffer.ncb;
    *k0 = buffer.k0;
    return NR_OK;
}

uint32_t nr_dpi_golden_beat(void *golden, uint32_t stage, uint32_t r, uint32_t beat, uint32_t width, uint32_t first,
                            svBitVecVal *out) {
    NrPlace place = place_of(stage, r, beat, width, first);
    NrBeat found;
    uint32_t status = nr_golden_beat(golden, &place, &found);
    if (status != NR_OK) return status;
    nr_packed_beat(&found, out);
    return NR_OK;
}

uint32_t nr_dpi_golden_judge(void *golden, uint32_t stage, uint32_t r, uint32_t beat, uint32_t width, uint32_t first,
                             const svBitVecVal *data, const svBitVecVal *unknown) {
    NrPlace place = place_of(stage, r, beat, width, first);
    return nr_golden_judge(golden, &place, data, unknown);
}

uint32_t nr_dpi_golden_judge_sides(void *golden, uint32_t stage, uint32_t r, uint32_t beat, uint32_t width, uint32_t first,
                                   const svBitVecVal *keep, svBit last) {
    NrPlace place = place_of(stage, r, beat, width, first);
    return nr_golden_judge_sides(golden, &place, keep, last);
}

/* The cases of a suite. */

uint32_t nr_dpi_golden_case(void *golden, uint32_t *rv, uint32_t *g, uint32_t *qm, uint32_t *nl) {
    NrTx tx;
    uint32_t status = nr_golden_case(golden, &tx);
    if (status != NR_OK) return status;
    *rv = tx.rv;
    *g = tx.g;
    *qm = tx.qm;
    *nl = tx.nl;
    return NR_OK;
}

uint32_t nr_dpi_golden_expect(void *golden, uint32_t stage, uint32_t r, uint32_t width, uint32_t first) {
    NrPlace place = place_of(stage, r, 0, width, first);
    return nr_golden_expect(golden, &place);
}

uint32_t nr_dpi_golden_take(void *golden, uint32_t stage, const svBitVecVal *data, const svBitVecVal *unknown, const svBitVecVal *keep,
                            svBit last) {
    return nr_golden_take(golden, stage, data, unknown, keep, last);
}

/* The golden receiver. */

uint32_t nr_dpi_receiver_new(void *table, uint32_t rate2048, uint32_t lbrm, uint32_t a, void **receiver) {
    NrSettings settings = nr_packed_settings(rate2048, lbrm);
    return nr_golden_receiver_new(table, &settings, a, receiver);
}

uint32_t nr_dpi_receiver_hear(void *receiver, uint32_t beat, uint32_t width, uint32_t first, const svBitVecVal *data,
                              const svBitVecVal *erased) {
    NrPlace place = place_of(NR_STAGE_SENT, 0, beat, width, first);
    return nr_golden_receiver_hear(receiver, &place, data, erased);
}

uint32_t nr_dpi_receiver_take(void *receiver, const svBitVecVal *tx, uint32_t *outcome) {
    NrTx given = nr_packed_tx(tx);
    return nr_golden_receiver_take(receiver, &given, outcome);
}

#ifdef __cplusplus
}
#endif
