/* Octave's and MATLAB's arrays as the library takes them, and its errors as theirs: for nr_mex.c alone.

   Bits are columns, logical or double. What memory a call takes by mxMalloc goes back by itself, also where the call ends with
   an error. */
#include <math.h>
#include <stdint.h>
#include <string.h>

#include "mex.h"
#include "nr.h"

/* What is received where nothing is, and a filler of a codeword, are NaN and -1 in a column of doubles. */
static const double FILLER = -1;
static const uint32_t MOST_PLACES = 4194304;
static const uint32_t MOST_BITS = 1310720;

#define SENTENCE(status, name, text) {status, text},
static const struct {
    uint32_t status;
    const char *text;
} SENTENCES[] = {
#include "nr_sentences.h"
};

/* Ends the call with the error nr:NAME of a status, if it is one; `place` is 0 or where the table has the fault. */
static void judge(uint32_t status, uint32_t place) {
    char id[64];
    const char *said = "there is no such status";
    if (status == NR_OK) return;
    for (size_t at = 0; at < sizeof SENTENCES / sizeof *SENTENCES; at++)
        if (SENTENCES[at].status == status) said = SENTENCES[at].text;
    strcpy(id, "nr:");
    strncat(id, nr_fault_name(status), sizeof id - 4);
    if (place)
        mexErrMsgIdAndTxt(id, "%s %u: %s", nr_fault_name(status), (unsigned)place, said);
    else
        mexErrMsgIdAndTxt(id, "%s: %s", nr_fault_name(status), said);
}

/* The same of a call over a transport block of `a` bits: names the base graph that the table lacks, and the sizes that will do. */
static void judge_block(uint32_t status, uint32_t rate2048, uint32_t a) {
    NrPlan plan;
    if (status == NR_ERR_GRAPH && nr_plan(rate2048, a, &plan) == NR_OK)
        mexErrMsgIdAndTxt("nr:Graph", "Graph: the table has no entries for base graph %u, which this size and rate take",
                          (unsigned)plan.graph);
    if (status == NR_ERR_UNEVEN)
        mexErrMsgIdAndTxt("nr:Uneven", "Uneven: the code blocks of %u bits would differ in length (5.2.2); nr_near(%u, RATE) has "
                          "sizes that will do", (unsigned)a, (unsigned)a);
    judge(status, 0);
}

static void wrong(const char *said) { mexErrMsgIdAndTxt("nr:argument", "argument: %s", said); }

/* Ends the call with the error of a list of another length. */
static void wrong_length(const char *what, size_t turn, size_t found, size_t wanted) {
    mexErrMsgIdAndTxt("nr:Length", "Length: %s %u has the length %u, and not %u", what, (unsigned)turn, (unsigned)found,
                      (unsigned)wanted);
}

/* A real array of doubles or of logical values, in full. */
static int is_plain(const mxArray *given) {
    return (mxIsDouble(given) || mxIsLogical(given)) && !mxIsComplex(given) && !mxIsSparse(given);
}

static double item(const mxArray *given, size_t at) {
    return mxIsLogical(given) ? (double)mxGetLogicals(given)[at] : mxGetPr(given)[at];
}

/* A whole number of 32 bits, or an error that names it. One that stands alone is of any class. */
static uint32_t number(const mxArray *given, size_t at, const char *name) {
    size_t count = mxGetNumberOfElements(given);
    double value = is_plain(given) && at < count ? item(given, at) : -1;
    if (mxIsNumeric(given) && !mxIsDouble(given) && !mxIsComplex(given) && count == 1 && !at) value = mxGetScalar(given);
    if (!(value >= 0 && value <= 4294967295.0) || value != floor(value))
        mexErrMsgIdAndTxt("nr:argument", "argument: %s is not a whole number from 0 to 4,294,967,295", name);
    return (uint32_t)value;
}

/* The entries of a table, which stand in memory as nr.h has them: a column of eleven numbers for each. */
static const NrEntry *entries(const mxArray *given, size_t *count) {
    if (!mxIsUint16(given) || mxGetM(given) != 11) wrong("the table is none: nr_table reads one");
    *count = mxGetN(given);
    return (const NrEntry *)mxGetData(given);
}

/* What else than 0 and 1 is a bit: nothing, NaN for NR_BIT_ERASED, or -1 for NR_BIT_FILLER. */
enum also { NOTHING_ELSE, ERASED_TOO, FILLERS_TOO };

/* The bits of an array, an octet each. */
static uint8_t *bits_of(const mxArray *given, enum also also) {
    static const char *const wanted[] = {
        "bits are 0 or 1", "what is heard is 0, 1, or NaN where nothing was heard", "bits are 0 or 1, or -1 for a filler"};
    size_t count = mxGetNumberOfElements(given);
    uint8_t *bits = mxMalloc(count + 1);
    if (!is_plain(given)) wrong("bits are an array of logical values or of doubles");
    for (size_t at = 0; at < count; at++) {
        double value = item(given, at);
        if (value == 0 || value == 1)
            bits[at] = (uint8_t)value;
        else if (also == ERASED_TOO && isnan(value))
            bits[at] = NR_BIT_ERASED;
        else if (also == FILLERS_TOO && value == FILLER)
            bits[at] = NR_BIT_FILLER;
        else
            wrong(wanted[also]);
    }
    return bits;
}

/* The octets of a column of bits, the first bit of each highest. */
static uint8_t *octets_of(const mxArray *given, size_t *count) {
    size_t bits = mxGetNumberOfElements(given);
    const uint8_t *each = bits_of(given, NOTHING_ELSE);
    uint8_t *octets = mxCalloc(bits / 8 + 1, 1);
    if (bits % 8) judge(NR_ERR_SIZE, 0);
    for (size_t at = 0; at < bits; at++) octets[at / 8] |= (uint8_t)(each[at] << (7 - at % 8));
    *count = bits / 8;
    return octets;
}

/* The same of one block: a column, or a row. */
static uint8_t *block_octets_of(const mxArray *given, size_t *count) {
    if (mxGetM(given) > 1 && mxGetN(given) > 1) wrong("one column of bits is wanted, and not several");
    return octets_of(given, count);
}

/* A column of bits, of the class that another array has. */
static mxArray *column(const uint8_t *bits, size_t count, const mxArray *like) {
    mxArray *made = mxIsLogical(like) ? mxCreateLogicalMatrix(count, 1) : mxCreateDoubleMatrix(count, 1, mxREAL);
    for (size_t at = 0; at < count; at++)
        if (mxIsLogical(like))
            mxGetLogicals(made)[at] = bits[at] != 0;
        else
            mxGetPr(made)[at] = bits[at];
    return made;
}

/* Such columns side by side. */
static mxArray *columns(const uint8_t *bits, size_t rows, size_t count, const mxArray *like) {
    mxArray *made = column(bits, rows * count, like);
    mxSetM(made, rows);
    mxSetN(made, count);
    return made;
}

/* Numbers as a column of doubles. */
static mxArray *numbers_of(const uint32_t *numbers, size_t count) {
    mxArray *made = mxCreateDoubleMatrix(count, 1, mxREAL);
    for (size_t at = 0; at < count; at++) mxGetPr(made)[at] = numbers[at];
    return made;
}

/* Numbers as an array of doubles of three dimensions, the first of which changes fastest. */
static mxArray *shaped(const uint32_t *numbers, size_t first, size_t second, size_t third) {
    const mwSize sizes[] = {(mwSize)first, (mwSize)second, (mwSize)third};
    mxArray *made = mxCreateNumericArray(3, sizes, mxDOUBLE_CLASS, mxREAL);
    for (size_t at = 0; at < first * second * third; at++) mxGetPr(made)[at] = numbers[at];
    return made;
}

/* A seed, of uint64 or of doubles that are whole. */
static uint64_t seed_of(const mxArray *given, size_t at) {
    double value = is_plain(given) ? item(given, at) : -1;
    if (mxIsUint64(given)) return ((const uint64_t *)mxGetData(given))[at];
    if (!(value >= 0 && value < 18446744073709551616.0) || value != floor(value))
        wrong("seeds are uint64 or doubles, and whole numbers from 0, below 2^64");
    return (uint64_t)value;
}

/* So many bits of octets, an octet each. */
static uint8_t *bits_in(const uint8_t *octets, size_t count) {
    uint8_t *bits = mxMalloc(count + 1);
    for (size_t at = 0; at < count; at++) bits[at] = octets[at / 8] >> (7 - at % 8) & 1;
    return bits;
}

/* A transport block of `a` bits, if it is delivered, as a column of the class that another array has; else an empty array. */
static mxArray *block_of(uint32_t outcome, const uint8_t *octets, uint32_t a, const mxArray *like) {
    return outcome == NR_OUTCOME_DELIVERED ? column(bits_in(octets, a), a, like) : mxCreateDoubleMatrix(0, 0, mxREAL);
}

/* Item `at` of a cell, or an error. */
static const mxArray *in_cell(const mxArray *given, size_t at) {
    const mxArray *found = mxIsCell(given) && at < mxGetNumberOfElements(given) ? mxGetCell(given, at) : NULL;
    if (!found) wrong("a cell with an array for each transmission is wanted");
    return found;
}

/* Transmission `at` of an array of 5 rows (rv, g, qm, nl, whether all code blocks are scheduled) and of the code blocks of each. */
static NrTx tx_of(const mxArray *numbers, const mxArray *blocks, size_t at) {
    NrTx tx = {0};
    const mxArray *chosen = in_cell(blocks, at);
    tx.rv = number(numbers, 5 * at, "rv");
    tx.g = number(numbers, 5 * at + 1, "g");
    tx.qm = number(numbers, 5 * at + 2, "qm");
    tx.nl = number(numbers, 5 * at + 3, "nl");
    tx.some = number(numbers, 5 * at + 4, "blocks");
    for (size_t which = 0; tx.some && which < mxGetNumberOfElements(chosen); which++) {
        uint32_t block = number(chosen, which, "blocks");
        if (block > 383) wrong("blocks are numbers of code blocks, from 0 to 383");
        tx.blocks[block / 64] |= (uint64_t)1 << block % 64;
    }
    return tx;
}

/* The transmission of such an array of one. */
static NrTx one_tx(const mxArray *numbers, const mxArray *blocks) {
    if (mxGetNumberOfElements(blocks) != 1) wrong("one transmission is wanted, and not several");
    return tx_of(numbers, blocks, 0);
}

/* All transmissions of such an array. */
static NrTx *txs_of(const mxArray *numbers, const mxArray *blocks, size_t *count) {
    NrTx *txs;
    *count = mxGetNumberOfElements(blocks);
    txs = mxMalloc(sizeof *txs * (*count + 1));
    for (size_t at = 0; at < *count; at++) txs[at] = tx_of(numbers, blocks, at);
    return txs;
}

static NrSettings settings_of(const mxArray *given) {
    NrSettings settings = {0};
    settings.rate2048 = number(given, 0, "the code rate in 2048ths");
    settings.lbrm = number(given, 1, "lbrm");
    return settings;
}
