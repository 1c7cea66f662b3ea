/* A whole receiver in plain C, by the clauses of TS 38.212 and TS 38.321, with no thought of speed. It has rate recovery,
 * soft combining in 16 processes, layered min-sum, and CRC.
 *
 *   cc -std=c99 -O2 -o receiver examples/receiver/receiver.c -lm
 *   tools/conform receiver run --plain suite.jsonl -- ./receiver table.csv [WORD ..]
 *
 * A WORD may be the decoder's arithmetic: int8, int4, float, sum-product, or narrow, whose sums are no wider than
 * messages. It is `positive-1` if a positive value means a one, and `soft` if the soft buffer is to be answered too. With
 * `hard-decisions` it stops as soon as these meet all rows. It may also be a mistake, which the receiver then makes. */
#define _POSIX_C_SOURCE 200809L
#include "decoding.h"

enum { PROCESSES = 16 };

/* What a process keeps: how its block began, and a soft value for each place of each codeword. */
struct process {
    int begun;
    struct arrival first;
    struct plan plan;
    signed char *soft;
};
static struct process processes[PROCESSES];

/* Whether a code block is sent. */
static int is_scheduled(const struct arrival *it, unsigned r)
{
    return !strcmp(it->mask, "all") || (r < strlen(it->mask) && it->mask[r] == '1');
}

/* E of each code block (5.4.2.1). */
static void share_out(const struct arrival *it, const struct plan *plan, unsigned *lengths)
{
    unsigned count = 0, j = 0, unit = planted == LENGTHS_NO_LAYERS ? it->qm : it->nl * it->qm;
    for (unsigned r = 0; r < plan->c; r++)
        count += is_scheduled(it, r);
    if (planted == LENGTHS_COUNT_ALL)
        count = plan->c;
    unsigned least = it->g / unit / count, longer = it->g / unit % count;
    for (unsigned r = 0; r < plan->c; r++) {
        int scheduled = is_scheduled(it, r), more = planted == LENGTHS_LONGER_FIRST ? j < longer : j >= count - longer;
        lengths[r] = scheduled ? unit * (least + more) : 0;
        j += scheduled;
    }
}

/* Ncb and k0 (5.4.2.1, Table 5.4.2.1-2). */
static unsigned buffer_of(const struct arrival *it, const struct plan *plan)
{
    unsigned long long most = planted == NCB_NO_FACTOR ? it->lbrm / plan->c : 3ull * it->lbrm / (2 * plan->c);
    return it->limited && planted != NCB_IGNORED && most < plan->n ? (unsigned)most : plan->n;
}

static unsigned start_of(const struct process *process, const struct arrival *it, unsigned ncb)
{
    static const unsigned starts[3][4] = {{0}, {0, 17, 33, 56}, {0, 13, 25, 43}};
    const struct plan *plan = &process->plan;
    unsigned rv = planted == RV_IGNORED ? 0 : planted == RV_OF_FIRST ? process->first.rv : it->rv;
    unsigned from = planted == K0_FROM_N ? plan->n : ncb;
    unsigned place = (unsigned)((unsigned long long)starts[plan->graph][rv] * from / plan->n) * plan->z;
    return planted == K0_SHIFTED ? place + 2 * plan->z : place;
}

/* The sum of a soft value and what is added to it. */
static signed char sum_of(int had, int came)
{
    if (planted == COMBINE_FIRST)
        return had ? had : came;
    if (planted == COMBINE_WRAPS)
        return (signed char)(unsigned char)(had + came);
    return had + came > LARGEST ? LARGEST : had + came < -LARGEST ? -LARGEST : had + came;
}

/* Puts the E values of a code block, deinterleaved (5.4.2.2), at their places of the buffer (5.4.2.1). */
static void recover(const struct process *process, const struct arrival *it, const int *f, unsigned e, signed char *soft)
{
    const struct plan *plan = &process->plan;
    unsigned qm = planted == SYMBOLS_OF_FIRST ? process->first.qm : it->qm, ncb = buffer_of(it, plan);
    unsigned columns = e / qm, place = start_of(process, it, ncb) % ncb;
    unsigned first = plan->kdash - 2 * plan->z, last = plan->k - 2 * plan->z;
    unsigned char *seen = calloc(ncb, 1);
    for (unsigned k = 0; k < e; k++, place++) {
        for (;; place++) {
            if (place >= ncb && planted == NOT_WRAPPED) {
                free(seen);
                return;
            }
            place = place >= ncb ? 0 : place;
            if (place < first || place >= last || planted == FILLERS_FILLED)
                break;
        }
        unsigned from = k;
        if (k < columns * qm && planted != INTERLEAVER_BY_COLUMNS) {
            unsigned row = k / columns, bit = planted == INTERLEAVER_SYMBOL_REVERSED ? qm - 1 - row : row;
            from = bit + k % columns * qm;
        }
        signed char *to = &soft[2 * plan->z + place];
        if (planted == COMBINE_LAST && !seen[place])
            *to = 0;
        seen[place] = 1;
        *to = sum_of(*to, positive_is_one ? -f[from] : f[from]);
    }
    free(seen);
}

/* Adds what arrived to the soft values of all code blocks (5.5). */
static void combine(struct process *process, const struct arrival *it, const unsigned *lengths)
{
    unsigned at = 0;
    for (unsigned r = 0; r < process->plan.c; r++) {
        signed char *soft = process->soft + (size_t)r * process->plan.size;
        if (planted == CODEBLOCKS_WIPED && !lengths[r])
            memset(soft, 0, process->plan.size);
        if (lengths[r] && at + lengths[r] <= it->g)
            recover(process, it, it->llr + at, lengths[r], soft);
        at += lengths[r];
    }
}

/* Begins a round of a process if the transmission is fresh. */
static struct process *process_of(const struct arrival *it)
{
    unsigned number = planted == PROCESS_ONE ? 0 : planted == PROCESS_OF_EIGHT ? it->process % 8 : it->process;
    struct process *process = &processes[number % PROCESSES];
    struct plan plan = plan_of(it->a, it->rate2048, planted == KB_LIMITS);
    int clears = planted == CLEARED_NEVER ? 0 : planted == CLEARED_BY_RV ? it->rv == 0 : it->fresh != 0;
    if (it->fresh || !process->begun)
        process->first = *it;
    if (clears || !process->begun || plan.size != process->plan.size || plan.c != process->plan.c) {
        free(process->soft);
        process->soft = calloc(plan.c, plan.size);
    }
    process->begun = 1;
    process->plan = plan;
    return process;
}

/* Writes the signs of the soft buffer d of each code block. */
static void write_soft(const struct process *process)
{
    const struct plan *plan = &process->plan;
    printf(" soft ");
    for (unsigned r = 0; r < plan->c; r++) {
        const signed char *d = process->soft + (size_t)r * plan->size + 2 * plan->z;
        if (r)
            putchar(',');
        for (unsigned place = 0; place < plan->n; place++)
            putchar(d[place] > 0 ? '+' : d[place] < 0 ? '-' : '0');
    }
}

/* Takes one transmission, and writes the decision on its block. */
static void receive(const struct arrival *it)
{
    struct process *process = process_of(it);
    const struct plan *plan = &process->plan;
    unsigned *lengths = calloc(plan->c, sizeof *lengths), part = plan->kdash - plan->l, at = 0;
    unsigned char *block = calloc(plan->c + 1, plan->kdash), *bits = malloc(plan->kdash);
    char *passed = calloc(plan->c + 1, 1);
    unsigned longest = 0;
    int good = 1;
    share_out(it, plan, lengths);
    for (unsigned r = 0; r < plan->c; r++)
        longest = lengths[r] > longest ? lengths[r] : longest;
    combine(process, it, lengths);
    for (unsigned r = 0; r < plan->c; r++) {
        int fits = decode(plan, process->soft + (size_t)r * plan->size, longest, bits);
        passed[r] = '0' + fits;
        good &= fits;
        memcpy(block + at, bits, plan->kdash);
        at += planted == CODE_CRC_KEPT ? plan->kdash : part;
    }
    unsigned length = plan->b - plan->a;
    if (planted != CRC_UNCHECKED)
        good &= !crc_of(block, plan->b, length, length == 24 ? 0x864CFB : 0x1021);
    printf("id %s tx %u delivered ", it->id, it->tx);
    if (good)
        write_digits(block, plan->a);
    else
        putchar('-');
    printf(" passed %s", passed);
    if (soft_answered)
        write_soft(process);
    putchar('\n');
    fflush(stdout);
    free(lengths), free(block), free(bits), free(passed);
}

/* Forgets all that was received. */
static void reset(void)
{
    for (unsigned number = 0; number < PROCESSES; number++)
        free(processes[number].soft);
    memset(processes, 0, sizeof processes);
}

/* Takes a word of the command line; answers whether it is one. */
static int take_option(const char *word)
{
    for (unsigned n = 0; n < sizeof arithmetics / sizeof *arithmetics; n++)
        if (!strcmp(word, arithmetics[n].name))
            return counting = &arithmetics[n], 1;
    for (unsigned n = 1; n < MISTAKES; n++)
        if (!strcmp(word, mistakes[n]))
            return planted = n, 1;
    positive_is_one |= !strcmp(word, "positive-1");
    soft_answered |= !strcmp(word, "soft");
    stops_early |= !strcmp(word, "hard-decisions");
    return !strcmp(word, "positive-1") || !strcmp(word, "soft") || !strcmp(word, "hard-decisions");
}

int main(int count, char **words)
{
    struct arrival it;
    int known = count > 1 && read_table(words[1]);
    for (int n = 2; n < count && known; n++)
        known = take_option(words[n]);
    if (!known) {
        fprintf(stderr, "%s: a table that `linksim check` accepts is wanted, then an arithmetic, `soft` or a mistake\n", words[0]);
        return 2;
    }
    for (enum read found; (found = read_arrival(&it)) != ENDED;) {
        if (found == RESET)
            reset();
        else
            receive(&it), free(it.llr);
    }
    return 0;
}
