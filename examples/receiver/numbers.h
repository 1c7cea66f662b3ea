/* What a receiver is told to be: its arithmetic, and a mistake. */
#ifndef RECEIVER_NUMBERS_H
#define RECEIVER_NUMBERS_H

#include "../chain.h"
#include "arrival.h"

enum { MOST_ENTRIES = MOST_COLUMNS, ITERATIONS = 30, LARGEST = 127 };

/* The mistakes that can be planted; 0 is none. */
static const char *const mistakes[] = {
    "", "lengths-longer-first", "lengths-no-layers", "lengths-count-all", "interleaver-by-columns",
    "interleaver-symbol-reversed", "symbols-of-first", "k0-shifted", "k0-from-n", "rv-ignored", "rv-of-first",
    "ncb-no-factor", "ncb-ignored", "fillers-filled", "not-wrapped", "combine-last", "combine-first", "combine-wraps",
    "cleared-never", "cleared-by-rv", "process-one", "process-of-eight", "codeblocks-wiped", "punctured-zeros",
    "fillers-erased", "core-rows", "rows-of-last", "shift-subtracted-once", "zeros-delivered", "crc-unchecked",
    "code-crc-kept", "kb-limits",
};
enum mistake {
    RIGHT, LENGTHS_LONGER_FIRST, LENGTHS_NO_LAYERS, LENGTHS_COUNT_ALL, INTERLEAVER_BY_COLUMNS,
    INTERLEAVER_SYMBOL_REVERSED, SYMBOLS_OF_FIRST, K0_SHIFTED, K0_FROM_N, RV_IGNORED, RV_OF_FIRST,
    NCB_NO_FACTOR, NCB_IGNORED, FILLERS_FILLED, NOT_WRAPPED, COMBINE_LAST, COMBINE_FIRST, COMBINE_WRAPS,
    CLEARED_NEVER, CLEARED_BY_RV, PROCESS_ONE, PROCESS_OF_EIGHT, CODEBLOCKS_WIPED, PUNCTURED_ZEROS,
    FILLERS_ERASED, CORE_ROWS, ROWS_OF_LAST, SHIFT_SUBTRACTED_ONCE, ZEROS_DELIVERED, CRC_UNCHECKED,
    CODE_CRC_KEPT, KB_LIMITS, MISTAKES,
};
static enum mistake planted;

/* How the decoder counts: the largest message and the largest sum, 0 for no limit, and whether rows take hyperbolic
 * tangents. Those of 8 and of 4 bits are whole numbers, which floats hold exactly. */
struct arithmetic {
    const char *name;
    float message, sum;
    int tangents;
};
static const struct arithmetic arithmetics[] = {
    {"int8", 31, 127, 0}, {"int4", 7, 31, 0}, {"float", 0, 0, 0}, {"sum-product", 20, 0, 1}, {"narrow", 127, 127, 0},
};
static const struct arithmetic *counting = arithmetics;
static int soft_answered, positive_is_one, stops_early;

#endif
