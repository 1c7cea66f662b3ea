/* A beginning for an encoder that is to be judged: reads a case a line of plain words, answers a line each.
 *
 *   cc -O2 -o template examples/conform/template.c
 *   tools/conform run --plain suite.jsonl -- ./template
 *
 * It answers the first step alone, the block with its CRC. Write more names after it, each with one value. They are
 * the plan's graph c l kdash kb z set k n, Ncb, k0, E, bits, d, e, f, sent. Code blocks are told apart by commas. What
 * is left out is counted as not answered. */
#define _POSIX_C_SOURCE 200809L
#include "plain.h"

/* Writes the parity bits of a list after it (TS 38.212, 5.1), and answers their number. */
static unsigned with_crc(unsigned char *bits, unsigned count)
{
    unsigned length = count > 3824 ? 24 : 16, polynomial = count > 3824 ? 0x864CFB : 0x1021, rest = 0;
    for (unsigned i = 0; i < count; i++) {
        unsigned out = rest >> (length - 1) ^ bits[i];
        rest = (rest << 1 & ((1u << length) - 1)) ^ (out ? polynomial : 0);
    }
    for (unsigned i = 0; i < length; i++)
        bits[count + i] = rest >> (length - 1 - i) & 1;
    return length;
}

int main(void)
{
    struct sent_case it;
    while (read_case(&it)) {
        it.bits = realloc(it.bits, it.a + 24);
        unsigned b = it.a + with_crc(it.bits, it.a);
        printf("id %s attached ", it.id);
        write_bits(it.bits, b);
        putchar('\n');
        fflush(stdout);
        free(it.bits);
    }
    return 0;
}
