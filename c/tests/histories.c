/* Histories in which a bus, a driver or a third makes it hard for a controller: frames whose stamps are old, a move and
 * a restart while a transfer rests, broadcasts that lose packets, a flood, a bus that is away, a claim that is missed.
 * In each a third, at 30 (hex), sends frames of all kinds that are no claims and no requests. */
#include "../j1939.h"
#include "expect.h"

#include <inttypes.h>
#include <string.h>

enum { OWN = 0x80, OTHER = 0x90, THIRD = 0x30, GAP = 50000, T3 = 1250000, CLAIM = 250000, DM1 = 0xFECA };

static uint64_t state, now;
static j1939_controller first, second;
static j1939_message message;

/* The next number of a fixed sequence (splitmix64). */
static uint64_t next(void) {
    uint64_t z = state += 0x9E3779B97F4A7C15;
    z = (z ^ z >> 30) * 0xBF58476D1CE4E5B9;
    z = (z ^ z >> 27) * 0x94D049BB133111EB;
    return z ^ z >> 31;
}

static j1939_frame frame_of(unsigned priority, unsigned group, unsigned to, unsigned from, const uint8_t *bytes,
                            uint8_t size) {
    j1939_frame frame = {.micros = now, .id = priority << 26 | group << 16 | to << 8 | from, .len = size};
    memcpy(frame.data, bytes, size);
    return frame;
}

static void opens(j1939_controller *controller, uint64_t name, uint8_t address) {
    static const uint32_t served[] = {65260};
    j1939_setup setup = {.name = name, .address = address, .broadcasts = 2, .sessions = 1, .transfers = 1, .served = served, .served_count = 1};
    EXPECT(j1939_controller_close(controller) == 0);
    EXPECT(j1939_controller_new(controller, &setup) == 0);
}

static void hears(j1939_controller *controller, const j1939_frame *frame) {
    EXPECT(j1939_controller_hear(controller, frame, now) == 0);
}

static void hears_bytes(unsigned group, unsigned to, unsigned from, const uint8_t bytes[8]) {
    j1939_frame frame = frame_of(7, group, to, from, bytes, 8);
    hears(&first, &frame);
}

/* A frame of the third: of a session, an acknowledgment or another, to all or to one of the two. */
static j1939_frame noise(void) {
    static const uint8_t groups[] = {0xEC, 0xEC, 0xEB, 0xE8, 0xEF}, firsts[] = {16, 17, 19, 32, 255},
                         targets[] = {255, OWN, OTHER};
    uint8_t group = groups[next() % 5];
    uint8_t bytes[8] = {group == 0xEC ? firsts[next() % 5] : (uint8_t)next(),
                        (uint8_t)(9 + next() % 20),
                        0,
                        (uint8_t)(2 + next() % 2),
                        255,
                        0,
                        0xEF,
                        0};
    return frame_of((unsigned)(next() % 8), group, targets[next() % 3], THIRD, bytes, 8);
}

static int holds(j1939_controller *controller) {
    uint8_t address;
    return j1939_controller_status(controller, &address) == J1939_HOLDING;
}

/* It claims its address, and holds it. */
static void claims(j1939_controller *controller, uint64_t name, uint8_t address) {
    j1939_frame frame;
    opens(controller, name, address);
    EXPECT(j1939_controller_take_frame(controller, now, &frame) == 1);
    now += CLAIM;
    EXPECT(j1939_controller_tick(controller, now) == 0);
    EXPECT(holds(controller));
}

static uint8_t group_in(const j1939_frame *frame) {
    return (uint8_t)(frame->id >> 16);
}

static uint8_t target_in(const j1939_frame *frame) {
    return (uint8_t)(frame->id >> 8);
}

/* ---- the clock is that of the calls */

static uint64_t claimed, packet;

/* Takes what is due, and notes its claim and the packets of its broadcast, which stand 50 ms apart at least. */
static void takes_due(uint64_t period) {
    j1939_frame frame;
    while (j1939_controller_take_frame(&first, now, &frame) == 1) {
        if (group_in(&frame) == 0xEE) claimed = now;
        if ((group_in(&frame) != 0xEC && group_in(&frame) != 0xEB) || target_in(&frame) != 255) continue;
        if (packet) EXPECT(now - packet >= GAP && now - packet < GAP + period);
        packet = now;
    }
}

/* A driver that wakes once in each period, and hears 400 frames a second whose stamps are 0 to 50 ms old, the third's
 * and a broadcast of another each second. It holds its address 250 ms after its claim, its broadcast's packets are 50
 * ms apart, a transfer to nobody fails 1,250 ms after its request, and each broadcast is received. */
static void wakes_each(uint64_t period) {
    uint64_t begun = 0, failed = 0, token, received = 0, last = 0, claim_end = 0;
    uint8_t priority, bytes[30] = {1};
    claimed = packet = 0;
    now = 1000000;
    opens(&first, 1, OWN);
    for (uint64_t begin = now; now < begin + 31000000; now += period) {
        for (; last + 2500 <= now - begin; last += 2500) {
            uint64_t at = last % 1000000;
            const uint8_t announces[8] = {32, 18, 0, 3, 255, 0xCA, 0xFE, 0}, part[8] = {(uint8_t)(at / GAP)};
            j1939_frame frame = noise();
            if (at == 0) frame = frame_of(7, 0xEC, 255, OTHER, announces, 8);
            if (at == GAP || at == 2 * GAP || at == 3 * GAP) frame = frame_of(7, 0xEB, 255, OTHER, part, 8);
            frame.micros = now - next() % 50000;
            hears(&first, &frame);
            takes_due(period);
            int32_t kind;
            while ((kind = j1939_controller_take_received(&first, &message, &priority)) > 0)
                received += kind == J1939_RECEIVED_BROADCAST && message.source == OTHER;
        }
        j1939_ended ended;
        EXPECT(j1939_controller_tick(&first, now) == 0);
        if (!claim_end && holds(&first)) {
            claim_end = now;
            EXPECT(claimed && now - claimed >= CLAIM && now - claimed < CLAIM + period);
            EXPECT(j1939_controller_send(&first, now, 7, DM1, 255, bytes, sizeof bytes, &token) == 1);
            EXPECT(j1939_controller_send(&first, now, 7, 0xEF00, 0x20, bytes, sizeof bytes, &token) == 1);
            begun = now;
        }
        takes_due(period);
        while (j1939_controller_take_ended(&first, &ended) > 0)
            if (ended.ending == J1939_ENDED_FAILED && ended.detail == 3 && !failed) failed = now;
    }
    EXPECT(failed > begun + T3 && failed <= begun + T3 + period);
    EXPECT(packet && received >= 30);
}

/* ---- what rests survives a move, and a restart is met */

static const char *const texts[] = {"the first message, of 30 bytes.",
                                    "second: do not start the engine, whatever comes"};

/* Two controllers. The first sends both texts to the second; the bus loses its second request to send. It moves to its
 * own address where the first transfer failed, whose clear to send and abort are lost; or restarts right behind its
 * first request. What is received is what was sent, and the second text is accepted 4 s after the first's end at the
 * earliest. */
static void rests(int moves, int is_beside_third) {
    uint64_t token, told = 0, again = 0;
    unsigned requests = 0, clears = 0;
    j1939_frame frame;
    j1939_ended ended;
    uint8_t priority;
    int32_t kind;
    now = 1000000;
    claims(&first, 1, OWN);
    claims(&second, 2, OTHER);
    EXPECT(j1939_controller_send(&first, now, 7, 0xEF00, OTHER, (const uint8_t *)texts[0], 30, &token) == 1);
    for (unsigned turn = 0; turn < 1200; turn++, now += 10000) {
        if (is_beside_third) {
            frame = noise();
            if (frame.data[0] != 16) hears(&first, &frame), hears(&second, &frame);
        }
        EXPECT(j1939_controller_tick(&first, now) == 0 && j1939_controller_tick(&second, now) == 0);
        while (j1939_controller_take_frame(&first, now, &frame) == 1) {
            int is_lost = group_in(&frame) == 0xEC &&
                          ((frame.data[0] == 16 && ++requests == 2) || (moves && frame.data[0] == 255));
            if (!is_lost) hears(&second, &frame);
            if (moves || requests != 1 || again) continue;
            again = now;
            opens(&first, 1, OWN);
            /* Nobody hears the clear to send. */
            EXPECT(j1939_controller_take_frame(&second, now, &frame) == 1);
        }
        while (j1939_controller_take_frame(&second, now, &frame) == 1)
            if (!moves || group_in(&frame) != 0xEC || frame.data[0] != 17 || clears++) hears(&first, &frame);
        while ((kind = j1939_controller_take_received(&second, &message, &priority)) > 0) {
            if (kind != J1939_RECEIVED_TRANSFER || message.source != OWN) continue;
            int is_second = message.len == strlen(texts[1]);
            EXPECT((is_second || message.len == 30) && !memcmp(message.data, texts[is_second], message.len));
        }
        while (j1939_controller_take_received(&first, &message, &priority) > 0)
            continue;
        while (j1939_controller_take_news(&first) > 0)
            continue;
        while (j1939_controller_take_ended(&first, &ended) > 0) {
            if (told) continue;
            told = now;
            if (moves) EXPECT(j1939_controller_move_to(&first, OWN) == 1);
        }
        if (again != 1 && (moves ? told : again) &&
            j1939_controller_send(&first, now, 7, 0xEF00, OTHER, (const uint8_t *)texts[1], strlen(texts[1]),
                                      &token) == 1) {
            EXPECT(!moves || now - told >= 4000000 - 10000);
            again = 1;
        }
    }
    EXPECT(again == 1 && requests > 1);
}

/* ---- broadcasts that lose packets */

/* Of a million DM1 of 15 packets, one each second and each of one byte again and again, a hundredth of the frames is
 * lost: most of those that lost none are received, and none that has bytes of two. */
static void mixes(void) {
    unsigned received = 0;
    uint8_t priority;
    now = 1000000;
    claims(&first, 1, OWN);
    for (unsigned i = 0; i < 1000000; i++, now += 200000)
        for (uint8_t k = 0; k <= 15; k++, now += GAP) {
            uint8_t bytes[8] = {32, 105, 0, 15, 255, 0xCA, 0xFE, 0};
            if (k) memset(bytes, (int)(i % 251), 8), bytes[0] = k;
            if (next() % 100 == 0) continue;
            hears_bytes(k ? 0xEB : 0xEC, 255, OTHER, bytes);
            if (j1939_controller_take_received(&first, &message, &priority) != J1939_RECEIVED_BROADCAST) continue;
            EXPECT(!memcmp(message.data, message.data + 1, message.len - 1u));
            received++;
        }
    EXPECT(received > 850000);
}

/* ---- a flood */

/* Before each frame that is taken strangers ask for its claim, or for a group that isn't served, each another; a
 * message waits always. Of three frames in a row at most two are claims or acknowledgments, and a message and a packet
 * of its broadcast go in time. */
static void floods(int for_claims) {
    uint64_t token, last = 0;
    unsigned answers = 0, messages = 0;
    j1939_frame frame;
    j1939_ended ended;
    uint8_t bytes[30] = {0};
    now = 1000000;
    claims(&first, 1, OWN);
    for (unsigned turn = 0; turn < 20000; turn++, now += 540) {
        const uint8_t group[2][3] = {{0xE5, (uint8_t)(0xF0 + turn % 8), 0}, {0, 0xEE, 0}};
        j1939_frame asks = frame_of(6, 0xEA, for_claims ? 255 : OWN, THIRD + turn % 64, group[for_claims], 3);
        hears(&first, &asks);
        frame = noise();
        hears(&first, &frame);
        j1939_controller_send(&first, now, 3, 61444, 255, bytes, 8, &token);
        if (j1939_controller_send(&first, now, 7, DM1, 255, bytes, sizeof bytes, &token) == 1) last = now;
        EXPECT(j1939_controller_take_frame(&first, now, &frame) == 1);
        answers = group_in(&frame) == 0xEE || group_in(&frame) == 0xE8 ? answers + 1 : 0;
        EXPECT(answers <= 2);
        messages += (frame.id >> 8 & 0xFFFF) == 61444;
        if ((group_in(&frame) == 0xEC || group_in(&frame) == 0xEB) && target_in(&frame) == 255) {
            EXPECT(now - last <= 150000 + 3 * 540);
            last = now;
        }
        while (j1939_controller_take_ended(&first, &ended) > 0)
            continue;
        while (j1939_controller_take_received(&first, &message, bytes) > 0)
            continue;
    }
    EXPECT(messages >= 3000);
}

/* ---- a claim that is missed */

/* Two hold one address, since the first claims of each were lost: till when, if each sends each 500 ms. */
static void shares(void) {
    j1939_controller *nodes[2] = {&first, &second};
    uint64_t token, both = 0;
    uint8_t bytes[8] = {0};
    j1939_frame frame;
    now = 1000000;
    claims(&first, 1, OWN);
    claims(&second, 2, OWN);
    for (unsigned turn = 0; turn < 19000; turn++, now += 1000) {
        for (int i = 0; i < 2; i++) {
            frame = noise();
            hears(nodes[i], &frame);
            EXPECT(j1939_controller_tick(nodes[i], now) == 0);
            if (turn % 500 == 0) j1939_controller_send(nodes[i], now, 3, 61444, 255, bytes, 8, &token);
            while (j1939_controller_take_frame(nodes[i], now, &frame) == 1)
                hears(nodes[!i], &frame);
        }
        both += holds(&first) && holds(&second);
    }
    EXPECT(holds(&first) && !holds(&second) && both <= 1);
}

int main(void) {
    static const uint64_t periods[] = {1000, 10000, 20000, 50000, 80000};
    state = 1939;
    for (unsigned i = 0; i < 5; i++)
        wakes_each(periods[i]);
    for (int i = 0; i < 4; i++)
        rests(i & 1, i >> 1);
    mixes();
    floods(0);
    floods(1);
    shares();
    EXPECT(j1939_controller_close(&first) == 0 && j1939_controller_close(&second) == 0);
    return 0;
}
