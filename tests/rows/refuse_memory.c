// Preloaded before the C library, it refuses the memory that is asked for the REFUSE_AT-th time, counted from 1.
#include <errno.h>
#include <stddef.h>
#include <stdlib.h>

extern void *__libc_malloc(size_t size);
extern void *__libc_realloc(void *at, size_t size);
extern void *__libc_memalign(size_t align, size_t size);

static int is_refused(void) {
    static long left = -1;
    if (left < 0) {
        const char *word = getenv("REFUSE_AT");
        left = word ? atol(word) : 0;
    }
    return left > 0 && --left == 0;
}

void *malloc(size_t size) {
    return is_refused() ? NULL : __libc_malloc(size);
}

void *realloc(void *at, size_t size) {
    return is_refused() ? NULL : __libc_realloc(at, size);
}

int posix_memalign(void **at, size_t align, size_t size) {
    *at = is_refused() ? NULL : __libc_memalign(align, size);
    return *at ? 0 : ENOMEM;
}

void *aligned_alloc(size_t align, size_t size) {
    return is_refused() ? NULL : __libc_memalign(align, size);
}
