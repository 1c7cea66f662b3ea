/* Refuses the growth of memory of this number, from 1, and those after it; 0 refuses none. Linked with --wrap, for the shim and the
   library alone: the simulator's own objects ask the C++ library. */
#include <stddef.h>

#ifdef __cplusplus
extern "C" {
#endif

void *__real_malloc(size_t octets);
void *__real_calloc(size_t count, size_t octets);
void *__real_realloc(void *room, size_t octets);
void refuse_growth(unsigned number);

static unsigned left;

void refuse_growth(unsigned number) { left = number; }

static int refused(void) {
    if (left > 1) left--;
    else if (left == 1) return 1;
    return 0;
}

void *__wrap_malloc(size_t octets) { return refused() ? NULL : __real_malloc(octets); }
void *__wrap_calloc(size_t count, size_t octets) { return refused() ? NULL : __real_calloc(count, octets); }
void *__wrap_realloc(void *room, size_t octets) { return refused() ? NULL : __real_realloc(room, octets); }

#ifdef __cplusplus
}
#endif
