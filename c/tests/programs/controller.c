#include "j1939.h"

static j1939_message message;

int main(int count, char **words) {
    j1939_controller controller = J1939_EMPTY;
    j1939_frame frame = {.micros = (uint64_t)count};
    uint64_t token, now = (uint64_t)count;
    uint8_t priority;
    (void)words;
    if (j1939_controller_new(&controller, &(j1939_setup){.name = 1, .address = 3, .broadcasts = 1, .sessions = 1, .transfers = 1}) != 0) return 1;
    j1939_controller_hear(&controller, &frame, now);
    j1939_controller_take_received(&controller, &message, &priority);
    j1939_controller_send(&controller, now, 6, 61444, 255, message.data, 8, &token);
    j1939_controller_send(&controller, now, 7, 65260, 255, message.data, 17, &token);
    j1939_controller_send(&controller, now, 7, 65260, 4, message.data, 17, &token);
    j1939_controller_tick(&controller, now);
    return j1939_controller_take_frame(&controller, now, &frame);
}
