/* Decoding of a code block, by layered min-sum or by hyperbolic tangents, with no thought of speed. */
#ifndef RECEIVER_DECODING_H
#define RECEIVER_DECODING_H

#include "numbers.h"
#include <math.h>

static float limited(float value, float most)
{
    return most > 0 && value > most ? most : most > 0 && value < -most ? -most : value;
}

/* What a row tells each of its bits, of what they tell it. It is the product of all the others' signs, and the least of
 * the others' strengths. In sum-product it is what their hyperbolic tangents make together. */
static void check(const float *in, unsigned count, float *out)
{
    float least = INFINITY, next = INFINITY, tangents[MOST_ENTRIES], before[MOST_ENTRIES + 1], after = 1;
    int negative = 0;
    before[0] = 1;
    for (unsigned i = 0; i < count; i++) {
        float strength = fabsf(in[i]);
        negative ^= in[i] < 0;
        if (strength < least)
            next = least, least = strength;
        else if (strength < next)
            next = strength;
        if (counting->tangents) {
            tangents[i] = tanhf(strength / 2);
            before[i + 1] = before[i] * tangents[i];
        }
    }
    for (unsigned i = count; i-- > 0;) {
        float strength = fabsf(in[i]), others = strength == least ? next : least;
        if (counting->tangents) {
            others = 2 * atanhf(fminf(before[i] * after, 1 - 1e-7f));
            after *= tangents[i];
        }
        out[i] = limited(negative != (in[i] < 0) ? -others : others, counting->message);
    }
}

/* By how much the identity matrix of an entry is shifted to the right (5.3.2). */
static unsigned shift_of(unsigned value, unsigned z)
{
    if (planted == SHIFT_SUBTRACTED_ONCE)
        return value < z ? value : value - z < z ? value - z : 0;
    return value % z;
}

/* One row of Zc parity rows: from the sums its old messages are taken away, and the new ones are added. */
static int layer(const struct plan *plan, unsigned row, float *sums, float *messages)
{
    const struct graph *graph = &graphs[plan->graph];
    unsigned z = plan->z, count = graph->count[row], shift[MOST_ENTRIES];
    int met = 1;
    for (unsigned i = 0; i < count; i++)
        shift[i] = shift_of(graph->entries[row][i].values[plan->set], z);
    for (unsigned t = 0; t < z; t++) {
        float rest[MOST_ENTRIES], in[MOST_ENTRIES], out[MOST_ENTRIES], *at[MOST_ENTRIES];
        float *old = messages + t * MOST_ENTRIES;
        int odd = 0;
        for (unsigned i = 0; i < count; i++) {
            unsigned turned = t + shift[i] < z ? t + shift[i] : t + shift[i] - z;
            at[i] = &sums[graph->entries[row][i].column * z + turned];
            odd ^= *at[i] < 0;
            rest[i] = *at[i] - old[i];
            in[i] = limited(rest[i], counting->message);
        }
        met &= !odd;
        check(in, count, out);
        for (unsigned i = 0; i < count; i++) {
            *at[i] = limited(rest[i] + out[i], counting->sum);
            old[i] = out[i];
        }
    }
    return met;
}

/* Whether none of the information bits is left unknown. */
static int all_known(const struct plan *plan, const float *sums)
{
    for (unsigned place = 0; place < plan->kdash; place++)
        if (sums[place] == 0)
            return 0;
    return 1;
}

/* Decodes a code block into its K' bits; answers whether all of them are known and its CRC24B fits. */
static int decode(const struct plan *plan, const signed char *soft, unsigned length, unsigned char *bits)
{
    static float sums[MOST_COLUMNS * 384], messages[MOST_ROWS * 384 * MOST_ENTRIES];
    unsigned rows = planted == CORE_ROWS ? 4 : graphs[plan->graph].rows;
    if (planted == ROWS_OF_LAST) {
        int parity = (int)length + 2 * (int)plan->z - (int)plan->kdash, few = (parity + (int)plan->z - 1) / (int)plan->z;
        rows = few < 4 ? 4 : few < (int)rows ? (unsigned)few : rows;
    }
    for (unsigned place = 0; place < plan->size; place++)
        sums[place] = limited(soft[place], counting->sum);
    for (unsigned place = plan->kdash; place < plan->k && planted != FILLERS_ERASED; place++)
        sums[place] = counting->sum > 0 ? counting->sum : LARGEST;
    for (unsigned place = 0; place < 2 * plan->z && planted == PUNCTURED_ZEROS; place++)
        sums[place] = counting->sum > 0 ? counting->sum : LARGEST;
    memset(messages, 0, sizeof messages);
    for (unsigned turn = 0, met = 0; turn < ITERATIONS && !(met && (stops_early || all_known(plan, sums))); turn++) {
        met = 1;
        for (unsigned row = 0; row < rows; row++)
            met &= layer(plan, row, sums, messages + (size_t)row * plan->z * MOST_ENTRIES);
    }
    for (unsigned place = 0; place < plan->kdash; place++)
        bits[place] = sums[place] < 0;
    return (all_known(plan, sums) || planted == ZEROS_DELIVERED) && (!plan->l || !crc_of(bits, plan->kdash, 24, 0x800063));
}

#endif
