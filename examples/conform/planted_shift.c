/* The encoder of encoder.h with one mistake: a value is reduced by one subtraction in place of the remainder. */
#define _POSIX_C_SOURCE 200809L
#define PLANTED_SHIFT

/* P of an entry. */
static unsigned shift_of(unsigned value, unsigned z)
{
    if (value >= z)
        value -= z;
    return value < z ? value : 0;
}

#include "encoder.h"
