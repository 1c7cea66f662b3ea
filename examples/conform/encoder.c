/* The whole encoder of encoder.h with nothing wrong.
 *
 *   cc -O2 -o encoder examples/conform/encoder.c
 *   tools/conform run --plain suite.jsonl -- ./encoder table.csv */
#define _POSIX_C_SOURCE 200809L
#include "encoder.h"
