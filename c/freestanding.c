/* A node and a listener with no C library and no heap: the listener lies in memory of the program's, and memcpy and its like are
 * written out. It runs on x86-64 Linux; all that is the system's stands at the end. Build:
 *   cc -std=c11 -O2 -ffreestanding -fno-builtin -fno-stack-protector -nostdlib -static freestanding.c libj1939.a */
#include "j1939.h"
#include "memory.h"

void *memcpy(void *to, const void *from, size_t n);
void *memmove(void *to, const void *from, size_t n);
void *memset(void *to, int c, size_t n);
int run(void);

/* There is no other memory. */
struct granted rattle_alloc(size_t size, size_t align) {
    (void)size, (void)align;
    return (struct granted){0, NULL};
}

struct granted rattle_realloc(void *at, size_t kept, size_t size, size_t align) {
    (void)at, (void)kept;
    return rattle_alloc(size, align);
}

void rattle_dealloc(void *at) {
    (void)at;
}

void *memcpy(void *to, const void *from, size_t n) {
    for (size_t i = 0; i < n; i++) ((uint8_t *)to)[i] = ((const uint8_t *)from)[i];
    return to;
}

void *memmove(void *to, const void *from, size_t n) {
    if ((uintptr_t)to <= (uintptr_t)from) return memcpy(to, from, n);
    while (n--) ((uint8_t *)to)[n] = ((const uint8_t *)from)[n];
    return to;
}

void *memset(void *to, int c, size_t n) {
    for (size_t i = 0; i < n; i++) ((uint8_t *)to)[i] = (uint8_t)c;
    return to;
}

/* A node gets its address, loses it to a smaller NAME, and moves on. */
static int contest(void) {
    static j1939_node node;
    j1939_frame out, theirs = {.micros = 900000, .id = 0x18EEFF80, .len = 8};
    uint8_t address;
    if (j1939_node_init(&node, 0x8000000001400002, 0x80) != 0) return 1;
    if (j1939_node_start(&node, 500000, &out) != 1 || out.id != 0x18EEFF80) return 2;
    if (j1939_node_tick(&node, 750000) != 0 || j1939_node_status(&node, &address) != J1939_HOLDING) return 3;
    if (j1939_node_on(&node, &theirs, &out) != 1 || out.id != 0x18EEFF81) return 4;
    if (j1939_node_status(&node, &address) != J1939_CLAIMING || address != 0x81) return 5;
    return 0;
}

/* A listener hears a broadcast, with room for one at once. */
static int hear(void) {
    static uint8_t memory[J1939_LISTENER_SIZE(1)];
    static j1939_message message;
    static const uint8_t vin[17] = "1FUJA6CV12LK12345";
    j1939_listener listener = J1939_EMPTY;
    j1939_frame frame;
    int32_t heard = 0;
    if (j1939_listener_at(&listener, memory, sizeof memory) != 0) return 6;
    for (uint16_t k = 0; j1939_cut_frame(0, 65260, vin, sizeof vin, k, 50000u * k, &frame) == 1; k++)
        heard += j1939_listener_feed(&listener, &frame, &message);
    if (heard != 1 || message.len != sizeof vin || message.data[16] != '5') return 7;
    return j1939_listener_close(&listener) == 0 ? 0 : 8;
}

int run(void) {
    int failed = contest();
    return failed ? failed : hear();
}

/* ---- the system's: where a program begins, with a word of the thread's own below fs, and how it ends */

__asm__(".local own\n.comm own, 24, 16\n.globl _start\n_start: and $-16, %rsp\n"
        " mov $158, %eax\n mov $0x1002, %edi\n lea own+16(%rip), %rsi\n mov %rsi, (%rsi)\n syscall\n"
        " call run\n mov %eax, %edi\n mov $60, %eax\n syscall\n");
