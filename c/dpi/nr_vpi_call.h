/* The arguments of a call from a simulator by VPI, read as numbers, handles and texts, and written. Only nr_vpi.c includes this. */
#ifndef NR_VPI_CALL_H
#define NR_VPI_CALL_H

#include "nr_packed.h"

#include <vpi_user.h>

#include <stdlib.h>
#include <string.h>

enum { MOST_ARGUMENTS = 9, TEXT_BITS = 8 * 192 };

/* A call as it runs: the arguments, and the first fault of reading them. */
typedef struct Call {
    vpiHandle self, arguments[MOST_ARGUMENTS];
    uint32_t status;
} Call;

/* The words of an argument, 0 if it has fewer. */
static void words(Call *call, int place, uint32_t *to, int count) {
    s_vpi_value value;
    value.format = vpiVectorVal;
    vpi_get_value(call->arguments[place], &value);
    int bits = vpi_get(vpiSize, call->arguments[place]), has = (bits + 31) / 32;
    for (int i = 0; i < count; i++) {
        to[i] = i < has ? (uint32_t)value.value.vector[i].aval : 0;
        if (i < has && value.value.vector[i].bval) call->status = NR_GOLDEN_UNKNOWN;
    }
}

static uint32_t number(Call *call, int place) {
    uint32_t found;
    words(call, place, &found, 1);
    return found;
}

static void *handle(Call *call, int place) {
    uint32_t halves[2];
    words(call, place, halves, 2);
    return (void *)(uintptr_t)((uint64_t)halves[1] << 32 | halves[0]);
}

/* A text, to be freed: the simulator keeps its own only until it is asked for the next one. */
static char *text(Call *call, int place) {
    s_vpi_value value;
    value.format = vpiStringVal;
    vpi_get_value(call->arguments[place], &value);
    char *copy = value.value.str ? strdup(value.value.str) : NULL;
    if (!copy && call->status == NR_OK) call->status = NR_ERR_MEMORY;
    return copy;
}

/* Writes words to a variable, or to the call itself; 0 if it has more. */
static void put(vpiHandle variable, const uint32_t *from, int count) {
    s_vpi_value value;
    int has = (vpi_get(vpiSize, variable) + 31) / 32;
    value.format = vpiVectorVal;
    value.value.vector = (p_vpi_vecval)calloc((size_t)has + 1, sizeof *value.value.vector);
    for (int i = 0; value.value.vector && i < count && i < has; i++) value.value.vector[i].aval = (PLI_INT32)from[i];
    if (value.value.vector) vpi_put_value(variable, &value, NULL, vpiNoDelay);
    free(value.value.vector);
}

static void put_handle(Call *call, int place, void *it) {
    uint64_t address = (uint64_t)(uintptr_t)it;
    const uint32_t halves[2] = {(uint32_t)address, (uint32_t)(address >> 32)};
    put(call->arguments[place], halves, 2);
}

/* The place of a beat that these arguments name. */
static NrPlace place_from(Call *call, int stage, int beat) {
    NrPlace place = {NR_STAGE_SENT, 0, number(call, beat), number(call, beat + 1), number(call, beat + 2)};
    if (stage) place.stage = number(call, stage);
    if (stage) place.r = number(call, stage + 1);
    return place;
}

#endif
