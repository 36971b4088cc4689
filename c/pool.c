/* A pool has its blocks one behind the other, each of whole words behind one that keeps its size. The block that was given back last is
 * granted again where it is large enough: a listener's and an assembler's, which come and go, are of one size. */
#include "pool.h"

void *memcpy(void *to, const void *from, size_t n);

/* A board has no threads of the compiler's. */
#ifdef __linux__
#define OF_THREAD _Thread_local
#else
#define OF_THREAD
#endif

/* A word, and what a pool takes of its memory for itself. */
enum { WORD = 8, HEAD = 24 };

struct pool {
    uint8_t *rest, *end; /* what was never taken */
    uint8_t *unused;     /* the block that was given back last; it begins with the one before */
};

static struct pool without_room;
static OF_THREAD struct pool *entered;

struct pool *j39_pool_in(void *memory, size_t size) {
    size_t skipped = (WORD - (uintptr_t)memory % WORD) % WORD;
    if (size < skipped + HEAD) return &without_room;
    uint8_t *at = (uint8_t *)memory + skipped;
    struct pool *pool = (struct pool *)(void *)at;
    *pool = (struct pool){at + HEAD, at + (size - skipped), NULL};
    return pool;
}

void j39_pool_enter(struct pool *pool) {
    entered = pool;
}

static uint64_t size_of(const uint8_t *block) {
    uint64_t size;
    memcpy(&size, block - WORD, sizeof size);
    return size;
}

/* The block that was given back last, where it has so many bytes. */
static uint8_t *again(struct pool *pool, uint64_t size) {
    uint8_t *block = pool->unused;
    if (!block || size_of(block) < size) return NULL;
    memcpy(&pool->unused, block, sizeof pool->unused);
    return block;
}

static uint8_t *take(struct pool *pool, size_t size) {
    size_t left = (size_t)(pool->end - pool->rest);
    uint64_t whole = size ? ((uint64_t)size + WORD - 1) / WORD * WORD : WORD;
    uint8_t *block = again(pool, whole);
    if (block || size > left || whole + WORD > left) return block;
    memcpy(pool->rest, &whole, sizeof whole);
    block = pool->rest + WORD;
    pool->rest = block + whole;
    return block;
}

struct granted j39_alloc(size_t size, size_t align) {
    if (!entered) return rattle_alloc(size, align);
    uint8_t *block = align > WORD ? NULL : take(entered, size);
    return (struct granted){block != NULL, block};
}

struct granted j39_realloc(void *at, size_t kept, size_t size, size_t align) {
    if (!entered) return rattle_realloc(at, kept, size, align);
    struct granted moved = j39_alloc(size, align);
    if (moved.is_granted) {
        memcpy(moved.at, at, kept);
        j39_dealloc(at);
    }
    return moved;
}

void j39_dealloc(void *at) {
    if (!entered) {
        rattle_dealloc(at);
        return;
    }
    memcpy(at, &entered->unused, sizeof entered->unused);
    entered->unused = at;
}
