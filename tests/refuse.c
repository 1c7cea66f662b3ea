/* Loaded before the C library (LD_PRELOAD): counts a program's growths of memory, from 1 on, and refuses those from
   REFUSE_FIRST to REFUSE_LAST. A growth is a call of malloc, calloc or realloc. At the end the count goes to the file
   COUNT_FILE, in decimal digits. */
#define _GNU_SOURCE
#include <dlfcn.h>
#include <errno.h>
#include <fcntl.h>
#include <stdlib.h>
#include <unistd.h>

static unsigned long met, first, last;
static int counts;
static void *(*real_malloc)(size_t);
static void *(*real_calloc)(size_t, size_t);
static void *(*real_realloc)(void *, size_t);

static void find(void) {
    real_malloc = dlsym(RTLD_NEXT, "malloc");
    real_calloc = dlsym(RTLD_NEXT, "calloc");
    real_realloc = dlsym(RTLD_NEXT, "realloc");
}

static int refused(void) {
    if (!counts) return 0;
    met += 1;
    if (met < first || met > last) return 0;
    errno = ENOMEM;
    return 1;
}

__attribute__((constructor)) static void start(void) {
    if (!real_malloc) find();
    first = strtoul(getenv("REFUSE_FIRST"), 0, 10);
    last = strtoul(getenv("REFUSE_LAST"), 0, 10);
    counts = 1;
}

__attribute__((destructor)) static void end(void) {
    char digits[24];
    size_t at = sizeof digits;
    unsigned long left = met;
    counts = 0;
    do digits[--at] = '0' + left % 10; while (left /= 10);
    int file = open(getenv("COUNT_FILE"), O_WRONLY | O_CREAT | O_TRUNC, 0600);
    if (file < 0 || write(file, digits + at, sizeof digits - at) < 0) _exit(99);
    close(file);
}

void *malloc(size_t size) {
    if (!real_malloc) find();
    return refused() ? NULL : real_malloc(size);
}

void *calloc(size_t count, size_t size) {
    if (!real_calloc) return NULL; /* dlsym asks for some, and can do without */
    return refused() ? NULL : real_calloc(count, size);
}

void *realloc(void *old, size_t size) {
    if (!real_realloc) find();
    return refused() ? NULL : real_realloc(old, size);
}
