/* A controller that sends a text to each of sixteen others and one to all, all at once, on a bus that carries one frame after another,
 * the lowest identifier first. It prints the log, as candump -L does. With a word it also sends one to an address that nobody has. */
#include "../j1939.h"
#include "expect.h"

#include <inttypes.h>
#include <string.h>

enum { PEERS = 16, SENDER = PEERS, NODES = PEERS + 1, OWN = 0x80, ABSENT = 0x70, ALL = 255, VIN = 65260, SIZE = 199 };
static const uint64_t FRAME_TIME = 540, END = 3000000;

static j1939_controller nodes[NODES];
static uint64_t now;
static int announced, ended;

static void opens(int place, uint8_t address) {
    j1939_setup setup = {.name = 0x8000000001400001 + address, .address = address, .broadcasts = 1, .sessions = 1, .window = 16};
    if (place == SENDER) setup.transfers = PEERS + 1;
    EXPECT(j1939_controller_new(&nodes[place], &setup) == 0);
}

/* A text that says to whom it goes. */
static void sends(uint8_t to) {
    char text[SIZE + 1];
    uint64_t token;
    memset(text, 'x', SIZE);
    text[snprintf(text, sizeof text, "to %02X ", (unsigned)to)] = 'x';
    EXPECT(j1939_controller_send(&nodes[SENDER], now, 6, VIN, to, (const uint8_t *)text, SIZE, &token) == 1);
}

/* Who wins the bus: of those with a frame to send the one with the lowest identifier; -1 where nobody has one. */
static int winner(void) {
    j1939_frame frame;
    uint32_t lowest = UINT32_MAX;
    int found = -1;
    for (int i = 0; i < NODES; i++)
        if (j1939_controller_peek_frame(&nodes[i], now, &frame) == 1 && frame.id < lowest) {
            lowest = frame.id;
            found = i;
        }
    return found;
}

/* A frame is carried: all others hear it at its end. */
static void carries(int from) {
    j1939_frame frame;
    EXPECT(j1939_controller_take_frame(&nodes[from], now, &frame) == 1);
    now += FRAME_TIME;
    frame.micros = now;
    printf("(%010" PRIu64 ".%06" PRIu64 ") can0 %08" PRIX32 "#", now / 1000000, now % 1000000, frame.id);
    for (int i = 0; i < frame.len; i++) printf("%02X", frame.data[i]);
    printf("\n");
    announced += from == SENDER && (frame.id >> 16 & 0xFF) == 0xEC && (frame.data[0] == 16 || frame.data[0] == 32);
    for (int i = 0; i < NODES; i++)
        if (i != from) EXPECT(j1939_controller_hear(&nodes[i], &frame, now) == 0);
}

/* None is over before all have begun. */
static void takes_ended(void) {
    j1939_ended it;
    while (j1939_controller_take_ended(&nodes[SENDER], &it) > 0) {
        EXPECT(announced >= PEERS + 1);
        ended += it.ending == J1939_ENDED_DONE;
    }
}

/* What each other has whole is the text for it, and that for all. */
static void takes_received(int place, int *received) {
    static j1939_message message;
    uint8_t priority;
    while (j1939_controller_take_received(&nodes[place], &message, &priority) > 0) {
        unsigned to;
        EXPECT(message.len == SIZE && message.source == OWN && sscanf((const char *)message.data, "to %X", &to) == 1);
        EXPECT(to == (message.is_addressed ? (unsigned)place + 1 : ALL));
        ++*received;
    }
}

static void plays(uint64_t end, int *received) {
    while (now < end) {
        int from = winner();
        if (from >= 0) carries(from);
        else now += 100;
        for (int i = 0; i < NODES; i++) {
            EXPECT(j1939_controller_tick(&nodes[i], now) == 0);
            if (i != SENDER) takes_received(i, received);
        }
        takes_ended();
    }
}

int main(int count, char **words) {
    int received = 0;
    (void)words;
    for (int i = 0; i < PEERS; i++) opens(i, (uint8_t)(i + 1));
    opens(SENDER, OWN);
    plays(500000, &received);
    if (count > 1) sends(ABSENT);
    for (int i = 0; i < PEERS; i++) sends((uint8_t)(i + 1));
    sends(ALL);
    plays(END, &received);
    EXPECT(ended == PEERS + 1 && received == 2 * PEERS);
    for (int i = 0; i < NODES; i++) EXPECT(j1939_controller_close(&nodes[i]) == 0);
    return 0;
}
