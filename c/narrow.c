/* On a machine of 32 bits the proved calls count memory by 64 bits all the same. What such a machine can't address, nor count the
 * distances of, is refused, and not cut to its lower half. */
#include "pool.h"

/* A block, and whether there is one, as two numbers of 64 bits. */
struct wide_granted {
    uint64_t is_granted, at;
};
void rattle_alloc_narrow(void *out, uint64_t size, uint64_t align);
void rattle_realloc_narrow(void *out, void *at, uint64_t kept, uint64_t size, uint64_t align);

static void tell(struct wide_granted *out, struct granted block) {
    out->is_granted = block.is_granted;
    out->at = (uintptr_t)block.at;
}

void rattle_alloc_narrow(void *out, uint64_t size, uint64_t align) {
    struct granted none = {0, NULL};
    tell(out, size > PTRDIFF_MAX ? none : j39_alloc((size_t)size, (size_t)align));
}

void rattle_realloc_narrow(void *out, void *at, uint64_t kept, uint64_t size, uint64_t align) {
    struct granted none = {0, NULL};
    tell(out, size > PTRDIFF_MAX ? none : j39_realloc(at, (size_t)kept, (size_t)size, (size_t)align));
}
