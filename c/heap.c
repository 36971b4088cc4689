/* The three calls for memory over malloc, realloc and free: for machines that the kit has no such object for. */
#include "memory.h"

void *malloc(size_t size);
void *realloc(void *at, size_t size);
void free(void *at);

static struct granted granted(void *at) {
    return (struct granted){at != NULL, at};
}

/* malloc's blocks are aligned as any may be. */
struct granted rattle_alloc(size_t size, size_t align) {
    (void)align;
    return granted(malloc(size ? size : 1));
}

struct granted rattle_realloc(void *at, size_t kept, size_t size, size_t align) {
    (void)kept;
    (void)align;
    return granted(realloc(at, size ? size : 1));
}

void rattle_dealloc(void *at) {
    free(at);
}
