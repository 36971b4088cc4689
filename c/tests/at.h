/* Compiled in before a test (-include), it opens each handle in memory of the test's own. The library may take no other. */
#include "../j1939.h"
#include "../memory.h"
#include "expect.h"

static void no_heap(void) {
    EXPECT(!"other memory is taken or given back");
}

struct granted rattle_alloc(size_t size, size_t align) {
    (void)size, (void)align;
    no_heap();
    return (struct granted){0, NULL};
}

struct granted rattle_realloc(void *at, size_t kept, size_t size, size_t align) {
    (void)at, (void)kept;
    return rattle_alloc(size, align);
}

void rattle_dealloc(void *at) {
    (void)at;
    no_heap();
}

/* Memory of a size that begins at an odd address. */
static inline void *odd(size_t size) {
    uint8_t *memory = malloc(size + 1);
    EXPECT(memory);
    return memory + 1;
}

#define IN_MEMORY(size, at) (memory_size = (size), memory_at = odd(memory_size), at)
size_t memory_size;
void *memory_at;
#define j1939_listener_new(listener) \
    IN_MEMORY(j1939_listener_size(271), j1939_listener_at(listener, memory_at, memory_size))
#define j1939_receiver_new(receiver, own) \
    IN_MEMORY(j1939_receiver_size(), j1939_receiver_at(receiver, memory_at, memory_size, own))
#define j1939_sender_new(sender, source, destination, pgn, payload, bytes) \
    IN_MEMORY(j1939_sender_size(bytes), j1939_sender_at(sender, memory_at, memory_size, source, destination, pgn, payload, bytes))
#define j1939_controller_new(controller, setup) \
    IN_MEMORY(j1939_controller_size(setup), j1939_controller_at(controller, memory_at, memory_size, setup))
