/* Functions of the C library that give memory, of which one call is refused: the one whose number the variable REFUSED has, counted from 1.
   If that is 0 none is, and at the end the last line of standard error is the number of calls. bench/allocations.py builds them as a library
   that is loaded before the C library. */
#include <errno.h>
#include <stdio.h>
#include <stdlib.h>
#include <string.h>

extern void *__libc_malloc(size_t size);
extern void *__libc_calloc(size_t number, size_t size);
extern void *__libc_realloc(void *old, size_t size);
extern void *__libc_memalign(size_t alignment, size_t size);

static long calls;

static int is_refused(void) {
    const char *number = getenv("REFUSED");
    calls += 1;
    if (number == NULL || calls != atol(number)) {
        return 0;
    }
    errno = ENOMEM;
    return 1;
}

void *malloc(size_t size) { return is_refused() ? NULL : __libc_malloc(size); }

void *calloc(size_t number, size_t size) { return is_refused() ? NULL : __libc_calloc(number, size); }

void *realloc(void *old, size_t size) { return is_refused() ? NULL : __libc_realloc(old, size); }

void *aligned_alloc(size_t alignment, size_t size) { return is_refused() ? NULL : __libc_memalign(alignment, size); }

int posix_memalign(void **memory, size_t alignment, size_t size) {
    if (is_refused()) {
        return ENOMEM;
    }
    *memory = __libc_memalign(alignment, size);
    return *memory == NULL ? ENOMEM : 0;
}

__attribute__((destructor)) static void tell(void) {
    const char *number = getenv("REFUSED");
    if (number != NULL && strcmp(number, "0") == 0) {
        fprintf(stderr, "%ld\n", calls);
    }
}
