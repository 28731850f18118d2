// Refuses calls for memory, loaded before the C library: the one whose number, from 1, stands in REFUSE, and with
// REFUSE_LATER set all later ones too.
#include <errno.h>
#include <stddef.h>
#include <stdlib.h>

extern void *__libc_malloc(size_t size);
extern void *__libc_realloc(void *old, size_t size);

static int refused(void) {
    static long calls;
    const char *number = getenv("REFUSE");
    calls++;
    if (number == NULL || calls < atol(number)) return 0;
    if (calls > atol(number) && getenv("REFUSE_LATER") == NULL) return 0;
    errno = ENOMEM;
    return 1;
}

void *malloc(size_t size) { return refused() ? NULL : __libc_malloc(size); }

void *realloc(void *old, size_t size) { return refused() ? NULL : __libc_realloc(old, size); }
