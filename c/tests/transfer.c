/* A message of 1785 bytes from one address to another, with frames lost, and a broadcast that a listener hears. */
#include "../j1939.h"
#include "expect.h"

#include <string.h>

static uint8_t payload[J1939_LONGEST];
static j1939_message message;

/* Sends the longest message with one frame in so many lost, and answers how often it was delivered. */
static unsigned transfer(unsigned lose) {
    j1939_sender sender = J1939_EMPTY;
    j1939_receiver receiver = J1939_EMPTY;
    j1939_frame sent, answer;
    unsigned frames = 0, delivered = 0;
    uint8_t reason;
    EXPECT(j1939_sender_new(&sender, 0x10, 0x20, 0xEF00, payload, sizeof payload) == 0);
    EXPECT(j1939_receiver_new(&receiver, 0x20) == 0);
    for (uint64_t now = 0; now < 120000000 && j1939_sender_state(&sender, &reason) < J1939_SEND_DONE; now += 10000) {
        if (j1939_sender_tick(&sender, now, &sent) == 1 && (++frames, !lose || frames % lose)) {
            int32_t heard = j1939_receiver_on(&receiver, &sent, &answer, &message);
            EXPECT(heard >= 0);
            if (heard == 2) {
                delivered++;
                EXPECT(message.len == sizeof payload && !memcmp(message.data, payload, sizeof payload));
                EXPECT(message.source == 0x10 && message.pgn == 0xEF00 && message.micros == now);
            }
            if (heard >= 1 && (++frames, !lose || frames % lose)) EXPECT(j1939_sender_on(&sender, &answer) == 0);
        }
        if (j1939_receiver_tick(&receiver, now, &answer) == 1 && (++frames, !lose || frames % lose))
            EXPECT(j1939_sender_on(&sender, &answer) == 0);
    }
    EXPECT(j1939_sender_close(&sender) == 0 && j1939_receiver_close(&receiver) == 0);
    return delivered;
}

/* A broadcast that is asked when it says: how often a listener hears a message. */
static int32_t polled(j1939_listener *listener) {
    j1939_broadcast broadcast;
    j1939_frame frame;
    int32_t answer, heard = 0;
    uint64_t now = 2000000;
    EXPECT(j1939_broadcast_init(&broadcast) == 0);
    while ((answer = j1939_broadcast_poll(&broadcast, 0x34, 65260, payload, 1785, now, &frame, &now)) != 2)
        if (answer == 1) heard += j1939_listener_feed(listener, &frame, &message);
    EXPECT(now == 2000000 + 255 * 50000);
    return heard;
}

static void broadcast(void) {
    j1939_listener listener = J1939_EMPTY;
    j1939_frame frame;
    int32_t cut, heard = 0;
    EXPECT(j1939_listener_new(&listener) == 0);
    for (uint16_t k = 0; (cut = j1939_cut_frame(0x33, 65260, payload, 30, k, k * 50000u, &frame)) == 1; k++)
        heard += j1939_listener_feed(&listener, &frame, &message);
    EXPECT(cut == 0 && heard == 1 && message.len == 30 && !memcmp(message.data, payload, 30));
    message.len = 0;
    EXPECT(polled(&listener) == 1 && message.len == 1785 && !memcmp(message.data, payload, 1785));
    EXPECT(j1939_listener_close(&listener) == 0);
}

int main(void) {
    for (size_t i = 0; i < sizeof payload; i++) payload[i] = (uint8_t)(i * 7);
    EXPECT(transfer(0) == 1);
    EXPECT(transfer(200) == 1);
    EXPECT(transfer(5) <= 1);
    broadcast();
    return 0;
}
