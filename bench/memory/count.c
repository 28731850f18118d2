// Counts the calls for memory of a program, loaded before the C library, and of them those between one reading of the
// clock and the next, for every other pair of readings: what a program measures is never to take memory. The counts
// are written at the end, a line each, to the file that COUNTS names.
#define _GNU_SOURCE
#include <stddef.h>
#include <stdio.h>
#include <stdlib.h>
#include <sys/syscall.h>
#include <time.h>
#include <unistd.h>

extern void *__libc_malloc(size_t size);
extern void *__libc_calloc(size_t count, size_t size);
extern void *__libc_realloc(void *old, size_t size);

static long calls, calls_before, readings, measured;

void *malloc(size_t size) { calls++; return __libc_malloc(size); }

void *calloc(size_t count, size_t size) { calls++; return __libc_calloc(count, size); }

void *realloc(void *old, size_t size) { calls++; return __libc_realloc(old, size); }

int clock_gettime(clockid_t clock, struct timespec *now) {
    if (readings++ % 2 == 1) measured += calls - calls_before;
    calls_before = calls;
    return (int)syscall(SYS_clock_gettime, clock, now);
}

__attribute__((destructor)) static void tell(void) {
    const char *name = getenv("COUNTS");
    FILE *file = name == NULL ? NULL : fopen(name, "w");
    if (file == NULL) return;
    long all = calls, spans = readings / 2;
    fprintf(file, "%ld calls\n%ld spans\n%ld measured\n", all, spans, measured);
    fclose(file);
}
