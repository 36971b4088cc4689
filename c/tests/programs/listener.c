#include "j1939.h"

static j1939_message message;
static j1939_reading reading;

int main(int count, char **words) {
    j1939_listener listener = J1939_EMPTY;
    j1939_frame frame = {.micros = (uint64_t)count};
    (void)words;
    if (j1939_listener_new(&listener) != 0) return 1;
    j1939_listener_feed(&listener, &frame, &message);
    j1939_read(&message, 0, &reading);
    return j1939_listener_close(&listener);
}
