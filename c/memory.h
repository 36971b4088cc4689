/* The three calls that the library takes memory by. The archives have them over malloc, realloc and free (heap.c); those of your
 * own, linked before, stand in their place. */
#ifndef J1939_MEMORY_H
#define J1939_MEMORY_H

#include <stddef.h>
#include <stdint.h>

/* A block, and whether there is one. */
struct granted {
    uint8_t is_granted;
    void *at;
};

/* size may be 0; align is 1, 2, 4, 8 or 16. */
struct granted rattle_alloc(size_t size, size_t align);
/* The first kept bytes are those of the block before. Where it isn't granted, that one stays. */
struct granted rattle_realloc(void *at, size_t kept, size_t size, size_t align);
void rattle_dealloc(void *at);

#endif
