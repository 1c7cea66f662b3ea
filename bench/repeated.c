/* What a call takes without Python: the same one again and again over rows of memory. */
#include "nr.h"

uint32_t sent(uint32_t times, const NrEntry *table, size_t table_len, const NrSettings *settings, const uint8_t *block, size_t block_len,
              const NrTx *tx, uint8_t *out) {
    uint32_t status = NR_OK;
    while (times-- && !status) status = nr_send(table, table_len, settings, block, block_len, tx, out, tx->g);
    return status;
}

uint32_t received(uint32_t rows, const NrEntry *table, size_t table_len, const NrSettings *settings, uint32_t a, const NrTx *tx,
                  const uint8_t *heard, uint32_t *outcome, uint32_t *left, uint8_t *block) {
    uint32_t status = NR_OK;
    for (uint32_t row = 0; row < rows && !status; row++)
        status = nr_receive(table, table_len, settings, a, tx, 1, heard + (size_t)row * tx->g, tx->g, outcome + row, 1, left + row, 1,
                            block + (size_t)row * (a / 8), a / 8);
    return status;
}
