/* A whole encoder in plain C, by the clauses of TS 38.212 and with no thought of speed: a bit is an octet. Its three
 * functions between #ifndef and #endif are those that a planted_*.c has wrong. */
#ifndef CONFORM_ENCODER_H
#define CONFORM_ENCODER_H

#include "plain.h"
#include "../chain.h"

enum { ZERO, ONE, FILLER };

#ifndef PLANTED_SHIFT
/* P of an entry: by how much the identity matrix is shifted to the right (5.3.2). */
static unsigned shift_of(unsigned value, unsigned z)
{
    return value % z;
}
#endif

#ifndef PLANTED_FILLER
/* What stands in d at the place of a filler (5.3.2). */
static unsigned char filler_in_d(void)
{
    return FILLER;
}
#endif

#ifndef PLANTED_LENGTHS
/* Whether the j-th scheduled code block of `count` is a longer one, if `longer` of them are (5.4.2.1). */
static int is_longer(unsigned j, unsigned count, unsigned longer)
{
    return j >= count - longer;
}
#endif

/* Writes the parity bits of a list after it (5.1). */
static void put_crc(unsigned char *bits, unsigned count, unsigned length, unsigned polynomial)
{
    unsigned rest = crc_of(bits, count, length, polynomial);
    for (unsigned i = 0; i < length; i++)
        bits[count + i] = rest >> (length - 1 - i) & 1;
}

/* Adds the entries of a row in the first `known` columns of a word to `sum`. */
static void add_row(const struct plan *plan, unsigned row, unsigned known, const unsigned char *word,
                    unsigned char *sum)
{
    const struct graph *graph = &graphs[plan->graph];
    for (unsigned e = 0; e < graph->count[row]; e++) {
        const struct entry *it = &graph->entries[row][e];
        unsigned shift = shift_of(it->values[plan->set], plan->z);
        for (unsigned t = 0; it->column < known && t < plan->z; t++)
            sum[t] ^= word[it->column * plan->z + (t + shift) % plan->z];
    }
}

/* The odd one of the three shifts of the first parity column, by which the sum of rows 0 to 3 is rotated back. */
static unsigned odd_shift(const struct plan *plan)
{
    const struct graph *graph = &graphs[plan->graph];
    unsigned found[3], place = 0;
    for (unsigned row = 0; row < 4; row++)
        for (unsigned e = 0; e < graph->count[row]; e++)
            if (graph->entries[row][e].column == graph->information)
                found[place++] = shift_of(graph->entries[row][e].values[plan->set], plan->z);
    return found[0] == found[1] ? found[2] : found[0] == found[2] ? found[1] : found[0];
}

/* The parity columns after the information columns of a word (5.3.2). */
static void put_parity(const struct plan *plan, unsigned char *word)
{
    unsigned z = plan->z, first = graphs[plan->graph].information, back = odd_shift(plan);
    unsigned char sum[MOST_SIZE] = {0};
    memset(word + first * z, 0, graphs[plan->graph].rows * z);
    for (unsigned row = 0; row < 4; row++)
        add_row(plan, row, first, word, sum);
    for (unsigned t = 0; t < z; t++)
        word[first * z + (t + back) % z] = sum[t];
    for (unsigned row = 0; row < 3; row++)
        add_row(plan, row, first + 1 + row, word, word + (first + 1 + row) * z);
    for (unsigned row = 4; row < graphs[plan->graph].rows; row++)
        add_row(plan, row, first + 4, word, word + (first + row) * z);
}

/* The code block r of the block with its CRC, K' bits (5.2.2). */
static void put_code_block(const struct plan *plan, const unsigned char *b, unsigned r, unsigned char *to)
{
    unsigned part = plan->kdash - plan->l;
    memcpy(to, b + r * part, part);
    if (plan->l)
        put_crc(to, part, 24, 0x800063);
}

/* Bit selection (5.4.2.1). */
static void select_bits(const unsigned char *d, unsigned k0, unsigned ncb, unsigned count, unsigned char *e)
{
    for (unsigned k = 0, j = 0; k < count; j++)
        if (d[(k0 + j) % ncb] != FILLER)
            e[k++] = d[(k0 + j) % ncb];
}

/* Bit interleaving (5.4.2.2). */
static void interleave(const unsigned char *e, unsigned count, unsigned qm, unsigned char *f)
{
    for (unsigned j = 0; j < count / qm; j++)
        for (unsigned i = 0; i < qm; i++)
            f[i + j * qm] = e[i * (count / qm) + j];
}

/* Writes a name, and the bits of all code blocks, which stand one after the other. */
static void write_blocks(const char *name, const struct plan *plan, const unsigned char *bits, const unsigned *counts)
{
    printf(" %s ", name);
    for (unsigned r = 0; r < plan->c; bits += counts[r++]) {
        if (r)
            putchar(',');
        write_bits(bits, counts[r]);
    }
}

/* Writes the plan's numbers, Ncb, k0 and E of each code block. */
static void write_numbers(const struct plan *it, unsigned ncb, unsigned k0, const unsigned *lengths)
{
    printf(" b %u graph %u c %u l %u kdash %u kb %u", it->b, it->graph, it->c, it->l, it->kdash, it->kb);
    printf(" z %u set %u k %u n %u Ncb %u k0 %u E ", it->z, it->set, it->k, it->n, ncb, k0);
    for (unsigned r = 0; r < it->c; r++)
        printf(r ? ",%u" : "%u", lengths[r]);
}

/* E of each code block (5.4.2.1). */
static void share_out(const struct sent_case *it, const struct plan *plan, unsigned *lengths)
{
    unsigned count = 0, j = 0, unit = it->nl * it->qm, all = !strcmp(it->mask, "all");
    for (unsigned r = 0; r < plan->c; r++)
        count += all || it->mask[r] == '1';
    unsigned least = it->g / unit / count, longer = it->g / unit % count;
    for (unsigned r = 0; r < plan->c; r++) {
        int scheduled = all || it->mask[r] == '1';
        lengths[r] = scheduled ? unit * (least + is_longer(j, count, longer)) : 0;
        j += scheduled;
    }
}

/* Where a redundancy version begins (Table 5.4.2.1-2); 66 Zc and 50 Zc are N. */
static unsigned start_of(const struct plan *plan, unsigned rv, unsigned ncb)
{
    static const unsigned starts[3][4] = {{0}, {0, 17, 33, 56}, {0, 13, 25, 43}};
    return starts[plan->graph][rv] * ncb / plan->n * plan->z;
}

/* d of a code block of K' bits (5.3.2). */
static void put_d(const struct plan *plan, const unsigned char *bits, unsigned char *d)
{
    static unsigned char word[MOST_COLUMNS * MOST_SIZE];
    memset(word, 0, sizeof word);
    memcpy(word, bits, plan->kdash);
    put_parity(plan, word);
    memset(word + plan->kdash, filler_in_d(), plan->k - plan->kdash);
    memcpy(d, word + 2 * plan->z, plan->n);
}

/* All that stands between a block and its sent bits; lists of the code blocks stand one after the other. */
struct made {
    struct plan plan;
    unsigned ncb, k0, *lengths, *parts, *words;
    unsigned char *b, *bits, *d, *e, *f;
};

/* Writes the answer to a case. */
static void write_answer(const struct sent_case *it, const struct made *made, unsigned sent)
{
    printf("id %s attached ", it->id);
    write_bits(made->b, made->plan.b);
    write_numbers(&made->plan, made->ncb, made->k0, made->lengths);
    write_blocks("bits", &made->plan, made->bits, made->parts);
    write_blocks("d", &made->plan, made->d, made->words);
    write_blocks("e", &made->plan, made->e, made->lengths);
    write_blocks("f", &made->plan, made->f, made->lengths);
    printf(" sent ");
    write_bits(made->f, sent);
    putchar('\n');
    fflush(stdout);
}

/* Makes the code block r, and what is sent of it from place `at` on. */
static void make_code_block(const struct sent_case *it, struct made *made, unsigned r, unsigned at)
{
    const struct plan *plan = &made->plan;
    unsigned char *bits = made->bits + (size_t)r * plan->kdash, *d = made->d + (size_t)r * plan->n;
    made->parts[r] = plan->kdash, made->words[r] = plan->n;
    put_code_block(plan, made->b, r, bits);
    put_d(plan, bits, d);
    select_bits(d, made->k0, made->ncb, made->lengths[r], made->e + at);
    interleave(made->e + at, made->lengths[r], it->qm, made->f + at);
}

/* Answers one case. */
static void answer(struct sent_case *it)
{
    struct made made = {.plan = plan_of(it->a, it->rate2048, 0)};
    struct plan *plan = &made.plan;
    unsigned limit = it->limited ? (unsigned)(3ull * it->lbrm / (2 * plan->c)) : plan->n, at = 0;
    made.ncb = limit < plan->n ? limit : plan->n;
    made.k0 = start_of(plan, it->rv, made.ncb);
    made.lengths = calloc(3 * plan->c, sizeof *made.lengths);
    made.parts = made.lengths + plan->c, made.words = made.parts + plan->c;
    made.b = malloc(plan->b), made.bits = malloc((size_t)plan->c * plan->kdash);
    made.d = malloc((size_t)plan->c * plan->n), made.e = malloc(it->g), made.f = malloc(it->g);
    memcpy(made.b, it->bits, it->a);
    put_crc(made.b, it->a, plan->b - it->a, it->a > 3824 ? 0x864CFB : 0x1021);
    share_out(it, plan, made.lengths);
    for (unsigned r = 0; r < plan->c; at += made.lengths[r++])
        make_code_block(it, &made, r, at);
    write_answer(it, &made, at);
    free(made.lengths), free(made.b), free(made.bits), free(made.d), free(made.e), free(made.f);
}

int main(int count, char **words)
{
    struct sent_case it;
    if (count != 2 || !read_table(words[1])) {
        fprintf(stderr, "%s: one word is wanted, a shift table that `linksim check` accepts\n", words[0]);
        return 2;
    }
    while (read_case(&it)) {
        answer(&it);
        free(it.bits);
    }
    return 0;
}

#endif
