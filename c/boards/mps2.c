/* What c/ecu.c wants of a board, for qemu's mps2-an386, a Cortex-M4 without an operating system:
 *
 *   arm-none-eabi-gcc -mcpu=cortex-m4 -mthumb -O2 -nostartfiles -T cortex_m.ld -Wl,--gc-sections -I.. ../ecu.c mps2.c cortex_m.c \
 *     ../../prebuilt/libj1939-cortex-m4.a -o ecu
 *   qemu-system-arm -M mps2-an386 -display none -monitor none -serial stdio -semihosting-config enable=on,target=native -kernel ecu
 *
 * In the place of a CAN controller stands the board's serial line. A frame that is sent is a line as candump -L writes it; one that
 * comes is a line as 18EAFF80#ECFE00; the line BACK says that the bus was away. */
#include "ecu.h"
#include "memory.h"

#include <stdio.h>
#include <string.h>

/* ---- the clock: the processor's own, at 25 MHz */

static volatile uint32_t *const systick = (volatile uint32_t *)0xE000E010;
static uint64_t cycles;
static uint32_t last_count;

/* Microseconds since the beginning. It is asked more often than the 24 bits of the count run down (670 ms). */
uint64_t clock_micros(void) {
    uint32_t count = systick[2];
    cycles += (last_count - count) & 0xFFFFFF;
    last_count = count;
    return cycles / 25;
}

static void clock_start(void) {
    systick[1] = 0xFFFFFF;
    systick[2] = 0;
    systick[0] = 5;
    last_count = systick[2];
}

/* ---- the serial line in the place of a CAN controller */

static volatile uint32_t *const uart = (volatile uint32_t *)0x40004000;
enum { DATA = 0, STATE = 1, CONTROL = 2, DIVIDER = 4, SEND_FULL = 1, RECEIVE_FULL = 2 };

static void put_text(const char *text) {
    for (; *text; text++) {
        while (uart[STATE] & SEND_FULL) {}
        uart[DATA] = (uint8_t)*text;
    }
}

/* Whether one more frame can go out now; a driver with a queue says when it is full. */
int can_has_room(void) {
    return !(uart[STATE] & SEND_FULL);
}

void can_put(const j1939_frame *frame) {
    char line[64];
    int at = snprintf(line, sizeof line, "(%010lu.%06lu) can0 %08lX#", (unsigned long)(frame->micros / 1000000),
                      (unsigned long)(frame->micros % 1000000), (unsigned long)frame->id);
    for (int i = 0; i < frame->len; i++) at += snprintf(line + at, sizeof line - (size_t)at, "%02X", frame->data[i]);
    snprintf(line + at, sizeof line - (size_t)at, "\n");
    put_text(line);
}

static int is_back;

int can_is_back(void) {
    int was_away = is_back;
    is_back = 0;
    return was_away;
}

/* The next frame that came: 1, or 0 where there is none. An interrupt may put frames into a queue, from which this takes them; it
 * calls nothing of the library. */
int can_take(j1939_frame *frame) {
    static char line[32];
    static unsigned length;
    unsigned long id;
    int used = 0;
    unsigned byte;
    while (uart[STATE] & RECEIVE_FULL) {
        char letter = (char)uart[DATA];
        if (letter != '\n') {
            if (length < sizeof line - 1) line[length++] = letter;
            continue;
        }
        line[length] = 0;
        length = 0;
        if (strcmp(line, "BACK") == 0) is_back = 1;
        if (sscanf(line, "%8lX#%n", &id, &used) < 1 || !used) continue;
        *frame = (j1939_frame){.micros = clock_micros(), .id = (uint32_t)id};
        for (const char *at = line + used; frame->len < 8 && sscanf(at, "%2X", &byte) == 1; at += 2) frame->data[frame->len++] = (uint8_t)byte;
        return 1;
    }
    return 0;
}

/* ---- no memory but that of the controller's own */

struct granted rattle_alloc(size_t size, size_t align) {
    (void)size, (void)align;
    return (struct granted){0, NULL};
}

struct granted rattle_realloc(void *at, size_t kept, size_t size, size_t align) {
    (void)at, (void)kept;
    return rattle_alloc(size, align);
}

void rattle_dealloc(void *at) {
    (void)at;
}

/* ---- the start, behind that of cortex_m.c */

int main(void) {
    uart[DIVIDER] = 16;
    uart[CONTROL] = 3;
    clock_start();
    return ecu_run();
}
