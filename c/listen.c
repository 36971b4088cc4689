/* Reads a log as candump -L writes it on standard input, and prints what ./j1939 report prints: the values that the
 * controllers of the first frame's bus reported. */
#include "j1939.h"

#include <inttypes.h>
#include <stdio.h>
#include <string.h>

enum { BUS = 17 };

/* The number of these hex digits; -1 where there is another character. */
static int64_t hex(const char *digits, size_t count) {
    int64_t number = 0;
    for (size_t i = 0; i < count; i++) {
        const char *all = "0123456789ABCDEFabcdef";
        const char *at = digits[i] ? strchr(all, digits[i]) : NULL;
        if (!at) return -1;
        int64_t digit = at - all;
        number = number * 16 + (digit < 16 ? digit : digit - 6);
    }
    return number;
}

/* Reads an identifier of eight digits, '#' and up to eight bytes. */
static int read_frame(const char *text, j1939_frame *frame) {
    size_t size = strlen(text);
    if (size < 9 || size > 25 || text[8] != '#' || size % 2 == 0) return 0;
    int64_t id = hex(text, 8);
    if (id < 0 || id >= 1 << 29) return 0;
    frame->id = (uint32_t)id;
    frame->len = (uint8_t)((size - 9) / 2);
    for (size_t i = 0; i < frame->len; i++) {
        int64_t byte = hex(text + 9 + 2 * i, 2);
        if (byte < 0) return 0;
        frame->data[i] = (uint8_t)byte;
    }
    return 1;
}

/* Reads a line: a stamp, a bus, and a frame. */
static int read_line(const char *line, char bus[BUS], j1939_frame *frame) {
    uint64_t seconds;
    uint32_t micros;
    char text[32], more[2];
    int fields = sscanf(line, " (%10" SCNu64 ".%6" SCNu32 ") %16s %31s %1s", &seconds, &micros, bus, text, more);
    if (fields != 4) return 0;
    frame->micros = seconds * 1000000 + micros;
    return read_frame(text, frame);
}

static void print_lines(const j1939_message *message) {
    static char text[7264];
    int32_t size;
    for (size_t i = 0; (size = j1939_report_line(message, i, text, sizeof text)) > 0; i++) fwrite(text, 1, (size_t)size, stdout);
}

int main(void) {
    static j1939_message message;
    j1939_listener listener = J1939_EMPTY;
    char line[256], bus[BUS], first[BUS] = "";
    j1939_frame frame;
    if (j1939_listener_new(&listener) != 0) return 1;
    while (fgets(line, sizeof line, stdin)) {
        if (!read_line(line, bus, &frame)) continue;
        if (!*first) memcpy(first, bus, sizeof first);
        if (strcmp(bus, first) != 0) continue;
        int32_t heard = j1939_listener_feed(&listener, &frame, &message);
        if (heard < 0) return 1;
        if (heard == 1) print_lines(&message);
    }
    j1939_listener_close(&listener);
    return 0;
}
