/* The encoder of encoder.h with one mistake: the longer code blocks come first. */
#define _POSIX_C_SOURCE 200809L
#define PLANTED_LENGTHS

/* Whether the j-th scheduled code block of `count` is a longer one, if `longer` of them are. */
static int is_longer(unsigned j, unsigned count, unsigned longer)
{
    (void)count;
    return j < longer;
}

#include "encoder.h"
