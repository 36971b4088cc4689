/* An engine's controller. It claims address 0 and keeps it, also where the bus was away for a while.
 *  - It sends its speed (EEC1) each 20 ms, and its fault codes (DM1) each second.
 *  - It answers requests for its VIN, its component identification and its fault codes, once there is room, or as busy after 200 ms;
 *    others to it the library refuses.
 *  - It takes the speed that another asks of it (TSC1), and idles when that one lets go.
 *  - It talks with one partner by proprietary messages, and knows it by its NAME, whatever address that holds: it asks for its speed
 *    each second, and tells it its own where that one asks.
 * ecu.h has what it wants of a board or a system; boards/mps2.c is one. SPDX-License-Identifier: MIT OR Apache-2.0 */
#include "ecu.h"

enum { TSC1 = 0, PROPRIETARY_A = 61184, EEC1 = 61444, DM1 = 65226, COMPONENT = 65259, VIN = 65260 };
enum { ENGINE_SPEED = 190, ALL = 255 };
static const uint64_t NAME = 0x0000000001400001, PARTNER = 0x0000000001400002;
static const uint64_t SPEED_PERIOD = 20000, SECOND = 1000000;

/* In thousandths of rpm, as ENGINE_SPEED has three places. */
static const int64_t IDLE_SPEED = 1500000, HIGHEST_SPEED = 2200000;

static const uint8_t vin[] = "1FUJA6CV12LK12345", component[] = "ACME*E1*0001*1*";
static const uint32_t served[] = {DM1, COMPONENT, VIN}, subscribed[] = {TSC1, PROPRIETARY_A};
static const j1939_setup setup = {.name = NAME,
                                  .address = 0,
                                  .broadcasts = 0,
                                  .is_subscribed = 1,
                                  .sessions = 1,
                                  .transfers = 1,
                                  .window = 16,
                                  .served = served,
                                  .served_count = sizeof served / sizeof served[0],
                                  .subscribed = subscribed,
                                  .subscribed_count = sizeof subscribed / sizeof subscribed[0]};
static j1939_controller engine = J1939_EMPTY;
static j1939_answers answers = J1939_EMPTY;
static uint8_t memory[J1939_CONTROLLER_SIZE(0, 1, 1)], answers_memory[J1939_ANSWERS_SIZE(3)];
static int64_t speed;
static uint32_t partners_rpm;
static uint64_t speed_due, second_due;

/* Hands in a message of up to 8 bytes, in the place of an older one that still waits. Where no address is held yet, or no room is
 * left, it is left out: a newer one comes. */
static void send(uint64_t now, uint8_t priority, uint32_t pgn, uint8_t to, const uint8_t *bytes, size_t size) {
    uint64_t token;
    if (j1939_controller_renew(&engine, priority, pgn, to, bytes, size, &token) == 1) return;
    (void)j1939_controller_send(&engine, now, priority, pgn, to, bytes, size, &token);
}

/* Engine speed, bytes 4 and 5 of EEC1; what isn't measured is FF (J1939-71). */
static void send_speed(uint64_t now) {
    uint32_t raw = 0xFFFF;
    (void)j1939_raw_of(ENGINE_SPEED, speed, &raw);
    uint8_t bytes[8] = {0xFF, 0xFF, 0xFF, (uint8_t)raw, (uint8_t)(raw >> 8), 0xFF, 0xFF, 0xFF};
    send(now, 3, EEC1, ALL, bytes, sizeof bytes);
}

/* No code, or one: engine speed above its range, FMI 0, and the amber lamp (J1939-73, 5.7.1). */
static const uint8_t *faults(void) {
    static const uint8_t none[8] = {0, 0xFF, 0, 0, 0, 0, 0xFF, 0xFF};
    static const uint8_t too_fast[8] = {0x04, 0xFF, ENGINE_SPEED, 0, 0, 1, 0xFF, 0xFF};
    return speed > HIGHEST_SPEED ? too_fast : none;
}

/* A proprietary message of ours: what it is, and a speed in rpm, of which a question has the last that came. */
enum { QUESTION = 1, TOLD = 2 };

static void send_proprietary(uint64_t now, uint8_t to, uint8_t what, uint32_t rpm) {
    const uint8_t bytes[3] = {what, (uint8_t)rpm, (uint8_t)(rpm >> 8)};
    send(now, 6, PROPRIETARY_A, to, bytes, sizeof bytes);
}

static void ask_partner(uint64_t now) {
    uint8_t address;
    if (j1939_controller_address_of(&engine, PARTNER, &address) == 1) send_proprietary(now, address, QUESTION, partners_rpm);
}

static void be_told(uint64_t now, const j1939_message *message) {
    if (!message->is_named || message->name != PARTNER || message->len < 3) return;
    if (message->data[0] == QUESTION) send_proprietary(now, message->source, TOLD, (uint32_t)(speed / 1000));
    if (message->data[0] == TOLD) partners_rpm = message->data[1] + 256u * message->data[2];
}

/* To all where all were asked, else to who asked. */
static void answer(const j1939_request *request) {
    if (request->pgn == VIN) (void)j1939_answers_answer(&answers, request, vin, sizeof vin - 1);
    if (request->pgn == COMPONENT) (void)j1939_answers_answer(&answers, request, component, sizeof component - 1);
    if (request->pgn == DM1) (void)j1939_answers_answer(&answers, request, faults(), 8);
}

/* Override control mode 0 lets go, 1 asks for the speed in bytes 2 and 3, of 0.125 rpm a bit, up to FAFF (J1939-71, TSC1). */
static void be_controlled(const j1939_message *message) {
    if (message->len < 3) return;
    uint32_t raw = message->data[1] + 256u * message->data[2];
    if ((message->data[0] & 3) == 0) speed = IDLE_SPEED;
    if ((message->data[0] & 3) == 1 && raw <= 0xFAFF) speed = 125 * (int64_t)raw;
}

static void hear(uint64_t now) {
    static j1939_message message;
    j1939_frame frame;
    j1939_request request;
    uint8_t priority;
    while (can_take(&frame)) {
        (void)j1939_controller_hear(&engine, &frame, now);
        while (j1939_controller_take_received(&engine, &message, &priority) > 0) {
            if (message.pgn == TSC1) be_controlled(&message);
            if (message.pgn == PROPRIETARY_A) be_told(now, &message);
        }
        while (j1939_answers_take_request(&answers, &engine, now, &request) > 0) answer(&request);
        while (j1939_controller_take_news(&engine) > 0) {}
    }
}

/* Sends what is due, as long as there is room. What became of it is of no interest here. */
static void send_due(uint64_t now) {
    j1939_frame frame;
    j1939_ended ended;
    if (now >= speed_due) {
        send_speed(now);
        speed_due = now + SPEED_PERIOD;
    }
    if (now >= second_due) {
        send(now, 6, DM1, ALL, faults(), 8);
        ask_partner(now);
        second_due = now + SECOND;
    }
    (void)j1939_answers_turn(&answers, &engine, now);
    (void)j1939_controller_tick(&engine, now);
    while (can_has_room() && j1939_controller_take_frame(&engine, now, &frame) > 0) can_put(&frame);
    while (j1939_controller_take_ended(&engine, &ended) > 0) {}
}

int ecu_run(void) {
    speed = IDLE_SPEED;
    if (j1939_controller_at(&engine, memory, sizeof memory, &setup) != 0) return 1;
    if (j1939_answers_at(&answers, answers_memory, sizeof answers_memory, 3) != 0) return 1;
    for (;;) {
        uint64_t now = clock_micros();
        if (can_is_back()) (void)j1939_controller_again(&engine, now);
        hear(now);
        send_due(now);
    }
}
