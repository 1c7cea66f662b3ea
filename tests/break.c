/* Loaded before the C library (LD_PRELOAD): breaks a program's reads and writes. All numbers stand in the
   environment, and one that is missing is 0.

       FAIL_READ=N      the Nth read fails, of whatever file
       FAIL_OUTPUT=N    the Nth write to standard output fails
       FAIL_ERROR=N     the Nth write to standard error fails
       STEP=N           a read or a write takes N octets at most (0: as many as it is asked for)
       INTERRUPTIONS=N  each read and each write is interrupted N times by a signal before it is done
       COUNT_FILE=PATH  where the number of reads goes at the end, in decimal digits */
#define _GNU_SOURCE
#include <dlfcn.h>
#include <errno.h>
#include <fcntl.h>
#include <stdlib.h>
#include <unistd.h>

static unsigned long fail_read, fail_output, fail_error, step, interruptions;
static unsigned long reads, outputs, errors, hindered;
static ssize_t (*real_read)(int, void *, size_t);
static ssize_t (*real_write)(int, const void *, size_t);

static unsigned long number(const char *name) {
    const char *digits = getenv(name);
    return digits ? strtoul(digits, 0, 10) : 0;
}

__attribute__((constructor)) static void start(void) {
    real_read = dlsym(RTLD_NEXT, "read");
    real_write = dlsym(RTLD_NEXT, "write");
    fail_read = number("FAIL_READ");
    fail_output = number("FAIL_OUTPUT");
    fail_error = number("FAIL_ERROR");
    step = number("STEP");
    interruptions = number("INTERRUPTIONS");
}

__attribute__((destructor)) static void end(void) {
    char digits[24];
    size_t at = sizeof digits;
    unsigned long left = reads;
    const char *path = getenv("COUNT_FILE");
    if (!path) return;
    do digits[--at] = '0' + left % 10; while (left /= 10);
    int file = open(path, O_WRONLY | O_CREAT | O_TRUNC, 0600);
    if (file < 0 || real_write(file, digits + at, sizeof digits - at) < 0) _exit(99);
    close(file);
}

/* Whether this call is to be interrupted, once more. */
static int is_interrupted(void) {
    if (hindered == interruptions) {
        hindered = 0;
        return 0;
    }
    hindered += 1;
    errno = EINTR;
    return 1;
}

/* Whether this call of its kind, the one after so many, is to fail. */
static int fails(unsigned long *met, unsigned long broken) {
    *met += 1;
    if (*met != broken) return 0;
    errno = EIO;
    return 1;
}

static size_t at_most(size_t size) { return step && size > step ? step : size; }

ssize_t read(int file, void *into, size_t size) {
    if (is_interrupted() || fails(&reads, fail_read)) return -1;
    return real_read(file, into, at_most(size));
}

ssize_t write(int file, const void *from, size_t size) {
    if (is_interrupted()) return -1;
    if (file == STDOUT_FILENO && fails(&outputs, fail_output)) return -1;
    if (file == STDERR_FILENO && fails(&errors, fail_error)) return -1;
    return real_write(file, from, at_most(size));
}
