/* A beginning for a receiver that is to be judged: reads a transmission a line of plain words, answers a line each.
 *
 *   cc -O2 -o template examples/receiver/template.c
 *   tools/conform receiver run --plain suite.jsonl -- ./template
 *
 * Put your receiver into `receive`. As it stands it hands up nothing. */
#define _POSIX_C_SOURCE 200809L
#include "arrival.h"

/* What a receiver decides. `a` has room for all bits of the block, one an octet. `passed` has room for a digit a code block,
 * and is answered if it is not empty. */
struct decision {
    int delivered;
    unsigned char *a;
    char passed[512];
};

/* Forgets all that was received. */
static void reset(void)
{
}

/* Takes a transmission into the soft buffer of its process, and decides on the block. */
static void receive(const struct arrival *arrival, struct decision *decision)
{
    (void)arrival;
    decision->delivered = 0;
}

int main(void)
{
    struct arrival it;
    for (enum read found; (found = read_arrival(&it)) != ENDED;) {
        if (found == RESET) {
            reset();
            continue;
        }
        struct decision decision = {.a = calloc(it.a + 1, 1)};
        receive(&it, &decision);
        printf("id %s tx %u delivered ", it.id, it.tx);
        if (decision.delivered)
            write_digits(decision.a, it.a);
        else
            putchar('-');
        if (decision.passed[0])
            printf(" passed %s", decision.passed);
        putchar('\n');
        fflush(stdout);
        free(decision.a);
        free(it.llr);
    }
    return 0;
}
