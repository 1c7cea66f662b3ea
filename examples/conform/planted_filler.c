/* The encoder of encoder.h with one mistake: fillers are zeros, and are sent. */
#define _POSIX_C_SOURCE 200809L
#define PLANTED_FILLER

/* What stands in d at the place of a filler. */
static unsigned char filler_in_d(void)
{
    return 0;
}

#include "encoder.h"
