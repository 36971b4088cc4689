/* Memory that a program gives to one handle, by a call .._at. */
#ifndef J1939_POOL_H
#define J1939_POOL_H

#include "memory.h"

/* A pool in this memory, whatever its size: one that is too small grants nothing. */
struct pool *j39_pool_in(void *memory, size_t size);
/* From here on the proved calls of this thread take memory of the pool; of NULL, by the three calls of memory.h. */
void j39_pool_enter(struct pool *pool);

/* What the proved calls take memory by. */
struct granted j39_alloc(size_t size, size_t align);
struct granted j39_realloc(void *at, size_t kept, size_t size, size_t align);
void j39_dealloc(void *at);

#endif
