/* The parts of a soft receiver, for nr_mex.c alone. */

/* nr_mex('places', [RATE2048 LBRM], A, NUMBERS, BLOCKS): the index of each place, from 0, as a column of doubles. */
static void make_places(mxArray **out, const mxArray **in) {
    NrSettings settings = settings_of(in[0]);
    uint32_t a = number(in[1], 0, "a"), *found;
    NrTx tx = one_tx(in[2], in[3]);
    size_t room = tx.g < MOST_PLACES ? tx.g : MOST_PLACES;
    found = mxMalloc(4 * (room + 1));
    judge_block(nr_places(&settings, a, &tx, found, room), settings.rate2048, a);
    out[0] = numbers_of(found, room);
}

/* [BLOCK, PASSED, BLOCKPASSED] = nr_mex('join', RATE2048, A, BLOCKS): a column of the class of BLOCKS, and logical values. */
static void make_joined(int outs, mxArray **out, const mxArray **in) {
    uint32_t rate = number(in[0], 0, "the code rate in 2048ths"), a = number(in[1], 0, "a"), c = code_blocks(rate, a), block_passed;
    uint8_t *octets = mxMalloc(MOST_BITS / 8), passed[344], one;
    judge_block(nr_join(rate, a, bits_of(in[2], NOTHING_ELSE), mxGetNumberOfElements(in[2]), passed, c, &block_passed, octets,
                        (a < MOST_BITS ? a : MOST_BITS) / 8), rate, a);
    one = (uint8_t)block_passed;
    out[0] = column(bits_in(octets, a), a, in[2]);
    if (outs > 1) out[1] = column(passed, c, mxCreateLogicalScalar(1));
    if (outs > 2) out[2] = column(&one, 1, mxCreateLogicalScalar(1));
}
