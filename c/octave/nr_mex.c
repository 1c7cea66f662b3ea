/* The calls of nr.h for Octave and MATLAB: nr_mex(NAME, ..), which the files nr_*.m beside this one call and nr_build.m builds. */
#include "nr_arrays.h"

/* nr_mex('entries', TEXT): the entries of the table of a text, which is uint8. */
static void make_entries(mxArray **out, const mxArray **in) {
    const uint8_t *text;
    size_t length = mxGetNumberOfElements(in[0]), count = 0;
    NrReport report = {0};
    if (!mxIsUint8(in[0])) wrong("the text of a table is an array of uint8");
    text = (const uint8_t *)mxGetData(in[0]);
    judge(nr_table_check(text, length, &report), report.place);
    count = (size_t)report.one + report.two;
    out[0] = mxCreateNumericMatrix(11, count, mxUINT16_CLASS, mxREAL);
    judge(nr_table_entries(text, length, (NrEntry *)mxGetData(out[0]), count, &count), 0);
}

/* nr_mex('plan', RATE2048, A): a structure of the plan's numbers. */
static void make_plan(mxArray **out, const mxArray **in) {
    static const char *names[] = {"graph", "b", "l", "c", "kdash", "kb", "z", "set", "k", "n"};
    NrPlan plan;
    uint32_t rate = number(in[0], 0, "the code rate in 2048ths"), a = number(in[1], 0, "a");
    judge_block(nr_plan(rate, a, &plan), rate, a);
    const uint32_t numbers[] = {plan.graph, plan.b, plan.l, plan.c, plan.kdash, plan.kb, plan.z, plan.set, plan.k, plan.n};
    out[0] = mxCreateStructMatrix(1, 1, 10, names);
    for (int at = 0; at < 10; at++) mxSetField(out[0], 0, names[at], mxCreateDoubleScalar(numbers[at]));
}

/* nr_mex('near', RATE2048, A): the sizes next to A that can be segmented, below and above, 0 for none. */
static void make_near(mxArray **out, const mxArray **in) {
    uint32_t rate = number(in[0], 0, "the code rate in 2048ths"), a = number(in[1], 0, "a"), sizes[2];
    NrPlan plan;
    sizes[0] = (a < MOST_BITS ? a : MOST_BITS) / 8 * 8;
    while (sizes[0] && nr_plan(rate, sizes[0], &plan)) sizes[0] -= 8;
    sizes[1] = a < 8 ? 8 : a < MOST_BITS ? (a + 7) / 8 * 8 : a;
    while (sizes[1] <= MOST_BITS && nr_plan(rate, sizes[1], &plan)) sizes[1] += 8;
    if (sizes[1] > MOST_BITS) sizes[1] = 0;
    out[0] = numbers_of(sizes, 2);
}

/* C, or 0 of a block that has no plan: the call that it is for tells then why. */
static uint32_t code_blocks(uint32_t rate2048, uint32_t a) {
    NrPlan plan;
    return nr_plan(rate2048, a, &plan) == NR_OK ? plan.c : 0;
}

/* nr_mex('lengths', RATE2048, A, NUMBERS, BLOCKS): E_r of each code block, a column of doubles. */
static void make_lengths(mxArray **out, const mxArray **in) {
    uint32_t rate = number(in[0], 0, "the code rate in 2048ths"), a = number(in[1], 0, "a");
    uint32_t c = code_blocks(rate, a), lengths[344];
    NrTx tx = one_tx(in[2], in[3]);
    judge_block(nr_lengths(rate, a, &tx, lengths, c), rate, a);
    out[0] = numbers_of(lengths, c);
}

/* nr_mex('buffer', [RATE2048 LBRM], A, RV): Ncb and k0. */
static void make_buffer(int outs, mxArray **out, const mxArray **in) {
    NrSettings settings = settings_of(in[0]);
    NrBuffer buffer;
    judge(nr_buffer(&settings, number(in[1], 0, "a"), number(in[2], 0, "rv"), &buffer), 0);
    out[0] = mxCreateDoubleScalar(buffer.ncb);
    if (outs > 1) out[1] = mxCreateDoubleScalar(buffer.k0);
}

/* nr_mex('crc', POLY, BITS): the parity bits of a column of whole octets, a column of its class. */
static void make_crc(mxArray **out, const mxArray **in) {
    uint32_t poly = number(in[0], 0, "the polynomial"), parity;
    uint8_t bits[24];
    size_t length, count = poly == NR_POLY_CRC16 ? 16 : 24;
    const uint8_t *octets = block_octets_of(in[1], &length);
    judge(nr_crc(poly, octets, length, &parity), 0);
    for (size_t at = 0; at < count; at++) bits[at] = parity >> (count - 1 - at) & 1;
    out[0] = column(bits, count, in[1]);
}

/* nr_mex('codeword', TABLE, RATE2048, A, BITS): the codewords of the columns of BITS, as doubles. */
static void make_codeword(mxArray **out, const mxArray **in) {
    size_t count, rows = mxGetM(in[3]), columns = mxGetN(in[3]);
    const NrEntry *table = entries(in[0], &count);
    uint32_t rate = number(in[1], 0, "the code rate in 2048ths"), a = number(in[2], 0, "a");
    const uint8_t *bits = bits_of(in[3], NOTHING_ELSE);
    uint8_t *word;
    NrPlan plan;
    judge_block(nr_plan(rate, a, &plan), rate, a);
    word = mxMalloc(plan.n);
    out[0] = mxCreateDoubleMatrix(plan.n, columns, mxREAL);
    for (size_t at = 0; at < columns; at++) {
        judge_block(nr_codeword(table, count, rate, a, bits + at * rows, rows, word, plan.n), rate, a);
        for (size_t bit = 0; bit < plan.n; bit++)
            mxGetPr(out[0])[at * plan.n + bit] = word[bit] == NR_BIT_FILLER ? FILLER : word[bit];
    }
}

/* nr_mex('encode', TABLE, GRAPH, BITS): the codewords of the columns of BITS, K bits each, as doubles. */
static void make_encoded(mxArray **out, const mxArray **in) {
    size_t count, rows = mxGetM(in[2]), columns = mxGetN(in[2]);
    const NrEntry *table = entries(in[0], &count);
    uint32_t graph = number(in[1], 0, "the base graph");
    size_t information = graph == 1 ? 22 : 10, z = rows / information, coded = (graph == 1 ? 66 : 50) * z;
    const uint8_t *bits = bits_of(in[2], FILLERS_TOO);
    uint8_t *word = mxMalloc(coded + 1);
    if (rows % information || z > 384) judge(NR_ERR_LIFTING, 0);
    out[0] = mxCreateDoubleMatrix(coded, columns, mxREAL);
    for (size_t at = 0; at < columns; at++) {
        judge(nr_encode(table, count, graph, (uint32_t)z, bits + at * rows, rows, word, coded), 0);
        for (size_t bit = 0; bit < coded; bit++)
            mxGetPr(out[0])[at * coded + bit] = word[bit] == NR_BIT_FILLER ? FILLER : word[bit];
    }
}

/* nr_mex('match', WORDS, E, GRAPH, RV, QM, NCB): the E bits that are sent of each column of WORDS, as doubles. */
static void make_matched(mxArray **out, const mxArray **in) {
    size_t rows = mxGetM(in[0]), columns = mxGetN(in[0]);
    const uint8_t *words = bits_of(in[0], FILLERS_TOO);
    uint32_t graph = number(in[2], 0, "the base graph"), wanted = number(in[1], 0, "e");
    NrMatch by = {graph, 0, 0, number(in[5], 0, "ncb"), number(in[3], 0, "rv"), number(in[4], 0, "qm"), {0, 0}};
    size_t coded = graph == 1 ? 66 : 50, z = rows / coded;
    size_t e = wanted <= MOST_PLACES ? wanted : MOST_PLACES + 1;
    uint8_t *bits = mxMalloc(e + 1);
    if (rows % coded || z > 384) judge(NR_ERR_LIFTING, 0);
    by.z = (uint32_t)z;
    out[0] = mxCreateDoubleMatrix(e, columns, mxREAL);
    for (size_t at = 0; at < columns; at++) {
        by.fillers = 0;
        for (size_t n = 0; n < rows; n++) by.fillers += words[at * rows + n] == NR_BIT_FILLER;
        judge(nr_match(&by, words + at * rows, rows, bits, e), 0);
        for (size_t k = 0; k < e; k++) mxGetPr(out[0])[at * e + k] = bits[k];
    }
}

/* nr_mex('cut', RATE2048, BLOCK): the K' bits of each code block, a column each, of BLOCK's class. */
static void make_cut(mxArray **out, const mxArray **in) {
    size_t length;
    uint32_t rate = number(in[0], 0, "the code rate in 2048ths"), a;
    const uint8_t *block = block_octets_of(in[1], &length);
    uint8_t *all;
    NrPlan plan;
    a = length <= MOST_BITS / 8 ? (uint32_t)(8 * length) : UINT32_MAX;
    judge_block(nr_plan(rate, a, &plan), rate, a);
    all = mxMalloc((size_t)plan.c * plan.kdash);
    for (uint32_t r = 0; r < plan.c; r++)
        judge_block(nr_cut(rate, block, length, r, all + (size_t)r * plan.kdash, plan.kdash), rate, a);
    out[0] = columns(all, plan.kdash, plan.c, in[1]);
}

/* nr_mex('send', TABLE, [RATE2048 LBRM], BLOCK, NUMBERS, BLOCKS): the bits sent, of BLOCK's class. */
static void make_sent(mxArray **out, const mxArray **in) {
    size_t count, length;
    const NrEntry *table = entries(in[0], &count);
    NrSettings settings = settings_of(in[1]);
    const uint8_t *block = block_octets_of(in[2], &length);
    NrTx tx = one_tx(in[3], in[4]);
    size_t room = tx.g < MOST_PLACES ? tx.g : MOST_PLACES;
    uint8_t *bits = mxMalloc(room + 1);
    judge_block(nr_send(table, count, &settings, block, length, &tx, bits, room), settings.rate2048, (uint32_t)(8 * length));
    out[0] = column(bits, room, in[2]);
}

/* nr_mex('send_many', TABLE, [RATE2048 LBRM], BLOCKS, NUMBERS, SCHEDULED): the bits that are sent of each column of BLOCKS, in a
   column of its class. */
static void make_many_sent(mxArray **out, const mxArray **in) {
    size_t count, length, some, rows = mxGetM(in[2]), blocks = mxGetN(in[2]), room = 0;
    const NrEntry *table = entries(in[0], &count);
    NrSettings settings = settings_of(in[1]);
    const uint8_t *octets = octets_of(in[2], &length);
    NrTx *txs = txs_of(in[3], in[4], &some);
    uint8_t *bits;
    if (rows > MOST_BITS) judge(NR_ERR_SIZE, 0);
    for (size_t at = 0; at < some; at++) room += txs[at].g < MOST_PLACES ? txs[at].g : MOST_PLACES;
    bits = mxMalloc(room * blocks + 1);
    judge_block(nr_send_many(table, count, &settings, (uint32_t)rows, txs, some, blocks, octets, length, bits, room * blocks),
                settings.rate2048, (uint32_t)rows);
    out[0] = columns(bits, room, blocks, in[2]);
}

/* What was received of several transmissions, one after the other: a cell with an array for each. */
static uint8_t *joined(const mxArray *given, const NrTx *txs, size_t count, size_t *total) {
    uint8_t *all;
    *total = 0;
    for (size_t at = 0; at < count; at++) {
        size_t places = mxGetNumberOfElements(in_cell(given, at));
        if (places != txs[at].g) wrong_length("what was heard of transmission", at + 1, places, txs[at].g);
        *total += txs[at].g;
    }
    all = mxMalloc(*total + 1);
    *total = 0;
    for (size_t at = 0; at < count; at++) {
        memcpy(all + *total, bits_of(in_cell(given, at), ERASED_TOO), txs[at].g);
        *total += txs[at].g;
    }
    return all;
}

/* [BLOCK, OUTCOMES, LEFT] = nr_mex('receive', TABLE, [RATE2048 LBRM], A, NUMBERS, BLOCKS, HEARD): BLOCK is a column of the class
   that all of HEARD have, or empty. */
static void make_received(int outs, mxArray **out, const mxArray **in) {
    size_t count, total, some;
    const NrEntry *table = entries(in[0], &count);
    NrSettings settings = settings_of(in[1]);
    NrTx *txs = txs_of(in[3], in[4], &some);
    uint32_t a = number(in[2], 0, "a"), c = code_blocks(settings.rate2048, a), *outcomes = mxMalloc(4 * (some + 1)), left[344];
    uint8_t *heard, *octets = mxMalloc(MOST_BITS / 8);
    heard = joined(in[5], txs, some, &total);
    judge_block(nr_receive(table, count, &settings, a, txs, some, heard, total, outcomes, some, left, c, octets,
                           (a < MOST_BITS ? a : MOST_BITS) / 8), settings.rate2048, a);
    out[0] = block_of(some ? outcomes[some - 1] : NR_OUTCOME_OPEN, octets, a, some ? in_cell(in[5], 0) : NULL);
    if (outs > 1) out[1] = numbers_of(outcomes, some);
    if (outs > 2) out[2] = numbers_of(left, c);
}

/* [BLOCKS, OUTCOMES, LEFT] = nr_mex('receive_many', TABLE, [RATE2048 LBRM], A, NUMBERS, SCHEDULED, HEARD): a column of each for each
   column of HEARD. One of BLOCKS is of the class of HEARD, zeros if the block is not delivered. */
static void make_many_received(int outs, mxArray **out, const mxArray **in) {
    size_t count, some, blocks = mxGetN(in[5]);
    const NrEntry *table = entries(in[0], &count);
    NrSettings settings = settings_of(in[1]);
    NrTx *txs = txs_of(in[3], in[4], &some);
    uint32_t a = number(in[2], 0, "a"), c = code_blocks(settings.rate2048, a), *outcomes = mxMalloc(4 * (some * blocks + 1));
    uint32_t *left = mxMalloc(4 * (c * blocks + 1));
    size_t size = (a < MOST_BITS ? a : MOST_BITS) / 8;
    uint8_t *octets = mxCalloc(size * blocks + 1, 1);
    judge_block(nr_receive_many(table, count, &settings, a, txs, some, blocks, bits_of(in[5], ERASED_TOO),
                                mxGetNumberOfElements(in[5]), outcomes, some * blocks, left, c * blocks, octets, size * blocks),
                settings.rate2048, a);
    out[0] = columns(bits_in(octets, 8 * size * blocks), a, blocks, in[5]);
    if (outs > 1) out[1] = shaped(outcomes, some, blocks, 1);
    if (outs > 2) out[2] = shaped(left, c, blocks, 1);
}

/* nr_mex('start', TABLE, [RATE2048 LBRM], A): the room of a receiver that has received nothing, a column of uint8. */
static void make_started(mxArray **out, const mxArray **in) {
    size_t count, octets;
    const NrEntry *table = entries(in[0], &count);
    NrSettings settings = settings_of(in[1]);
    uint32_t a = number(in[2], 0, "a");
    judge_block(nr_receiver_size(settings.rate2048, a, &octets), settings.rate2048, a);
    out[0] = mxCreateNumericMatrix(octets, 1, mxUINT8_CLASS, mxREAL);
    judge_block(nr_receiver_start(table, count, &settings, a, (uint8_t *)mxGetData(out[0]), octets), settings.rate2048, a);
}

/* [ROOM, BLOCK, OUTCOME, LEFT] = nr_mex('take', TABLE, [RATE2048 LBRM], A, ROOM, NUMBERS, BLOCKS, HEARD): the room with one
   transmission more, and what may be handed up. */
static void make_taken(int outs, mxArray **out, const mxArray **in) {
    size_t count, places = mxGetNumberOfElements(in[6]);
    const NrEntry *table = entries(in[0], &count);
    NrSettings settings = settings_of(in[1]);
    uint32_t a = number(in[2], 0, "a"), c = code_blocks(settings.rate2048, a), outcome = NR_OUTCOME_OPEN, left[344];
    NrTx tx = one_tx(in[4], in[5]);
    uint8_t *octets = mxMalloc(MOST_BITS / 8);
    if (!mxIsUint8(in[3])) wrong("the room of a receiver is an array of uint8");
    if (places != tx.g) wrong_length("what was heard of transmission", 1, places, tx.g);
    out[0] = mxDuplicateArray(in[3]);
    judge_block(nr_receiver_take(table, count, &settings, a, (uint8_t *)mxGetData(out[0]), mxGetNumberOfElements(out[0]), &tx,
                                 bits_of(in[6], ERASED_TOO), places, &outcome, left, c, octets,
                                 (a < MOST_BITS ? a : MOST_BITS) / 8), settings.rate2048, a);
    if (outs > 1) out[1] = block_of(outcome, octets, a, in[6]);
    if (outs > 2) out[2] = mxCreateDoubleScalar(outcome);
    if (outs > 3) out[3] = numbers_of(left, c);
}

/* [AFTER, LEFT, ERASED] = nr_mex('simulate', TABLE, [RATE2048 LBRM], A, NUMBERS, BLOCKS, THRESHOLDS, SEEDS): what comes of rounds.
   SEEDS has a column for each round and a row for each transmission. */
static void make_simulated(int outs, mxArray **out, const mxArray **in) {
    size_t count, some, rounds = mxGetN(in[6]), seeds_len = mxGetNumberOfElements(in[6]), length;
    const NrEntry *table = entries(in[0], &count);
    NrSettings settings = settings_of(in[1]);
    NrTx *txs = txs_of(in[3], in[4], &some);
    uint32_t a = number(in[2], 0, "a"), c = code_blocks(settings.rate2048, a), *left, *erased;
    uint32_t *thresholds = mxMalloc(4 * (some + 1)), *after = mxMalloc(4 * (rounds + 1));
    uint64_t *seeds = mxMalloc(8 * (seeds_len + 1));
    for (size_t at = 0; at < some; at++) thresholds[at] = number(in[5], at, "the threshold");
    for (size_t at = 0; at < seeds_len; at++) seeds[at] = seed_of(in[6], at);
    length = rounds * some * c;
    left = mxMalloc(4 * (length + 1));
    erased = mxMalloc(4 * (length + 1));
    judge_block(nr_simulate(table, count, &settings, a, txs, some, thresholds, some, seeds, seeds_len, after, rounds, left, length,
                            erased, length), settings.rate2048, a);
    out[0] = numbers_of(after, rounds);
    if (outs > 1) out[1] = shaped(left, c, some, rounds);
    if (outs > 2) out[2] = shaped(erased, c, some, rounds);
}

#include "nr_soft.h"

#define CALL(name, ins, call) \
    if (!strcmp(said, name) && given == (ins) + 1) { \
        call; \
        return; \
    }

void mexFunction(int outs, mxArray **out, int given, const mxArray **words) {
    const mxArray **in = words + 1;
    char said[16] = "";
    if (given) mxGetString(words[0], said, sizeof said);
    CALL("entries", 1, make_entries(out, in))
    CALL("plan", 2, make_plan(out, in))
    CALL("near", 2, make_near(out, in))
    CALL("lengths", 4, make_lengths(out, in))
    CALL("buffer", 3, make_buffer(outs, out, in))
    CALL("crc", 2, make_crc(out, in))
    CALL("codeword", 4, make_codeword(out, in))
    CALL("encode", 3, make_encoded(out, in))
    CALL("match", 6, make_matched(out, in))
    CALL("cut", 2, make_cut(out, in))
    CALL("places", 4, make_places(out, in))
    CALL("join", 3, make_joined(outs, out, in))
    CALL("send", 5, make_sent(out, in))
    CALL("receive", 6, make_received(outs, out, in))
    CALL("send_many", 5, make_many_sent(out, in))
    CALL("receive_many", 6, make_many_received(outs, out, in))
    CALL("start", 3, make_started(out, in))
    CALL("take", 7, make_taken(outs, out, in))
    CALL("simulate", 7, make_simulated(outs, out, in))
    CALL("version", 0, out[0] = mxCreateString(nr_version()))
    wrong("nr_mex is called by the files nr_*.m beside it");
}
