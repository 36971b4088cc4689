/* Two to eight controllers, and one more that misbehaves, on a simulated bus that loses frames, doubles them at once and delays
 * them; the first is off the bus at times: that nothing wrong is received and nothing in packets twice, each token is told once
 * and in order, each transfer that is done was received, and all ends in time. Words: how many messages, of a million frames how
 * many are lost and how many doubled, the longest delay in microseconds, 1 if the one that misbehaves plays, a seed; and, where
 * they aren't two for as long as that takes, how many controllers, and for how many seconds. The last line counts the
 * transfers from one to another, and those that failed. */
#include "../j1939.h"
#include "expect.h"

#include <inttypes.h>
#include <string.h>

enum {
    STEP = 5000,
    GAP = 50000,
    T3 = 1250000,
    CLAIM = 250000,
    PAUSE = 1000000,
    QUEUE = 4096,
    BROADCASTS = 0xFF10,
    SINGLES = 0xFF20,
    SERVED = 0xFEEB
};
enum { MOST_NODES = 8, THIRD = MOST_NODES, NODES };

static uint64_t state;
static uint64_t lost, doubled, delay, is_wild;
static uint64_t now;
static int count = 2;

/* The next number of a fixed sequence (splitmix64). */
static uint64_t next(void) {
    uint64_t z = state += 0x9E3779B97F4A7C15;
    z = (z ^ z >> 30) * 0xBF58476D1CE4E5B9;
    z = (z ^ z >> 27) * 0x94D049BB133111EB;
    return z ^ z >> 31;
}

static int in_a_million(uint64_t parts) {
    return next() % 1000000 < parts;
}

/* ---- the bus: from each node to each other a queue, in order */

static struct {
    struct waiting {
        uint64_t due;
        j1939_frame frame;
    } * waiting;
    uint64_t last;
    unsigned begin, end;
} lines[NODES][NODES];

/* So many bytes, each 0. */
static void *room(size_t size) {
    void *at = calloc(1, size);
    EXPECT(at);
    return at;
}

static int is_there(int node) {
    return node < count || node == THIRD;
}

static void lays_lines(void) {
    for (int from = 0; from < NODES; from++)
        for (int to = 0; to < NODES; to++)
            if (is_there(from) && is_there(to)) lines[from][to].waiting = room(QUEUE * sizeof(struct waiting));
}

static void put(int from, int to, const j1939_frame *frame) {
    uint64_t due = now + (delay ? next() % delay : 0);
    if (due < lines[from][to].last) due = lines[from][to].last;
    lines[from][to].last = due;
    for (int copies = in_a_million(lost) ? 0 : 1 + in_a_million(doubled); copies > 0; copies--) {
        unsigned at = lines[from][to].end++ % QUEUE;
        EXPECT(lines[from][to].end - lines[from][to].begin < QUEUE);
        lines[from][to].waiting[at].due = due;
        lines[from][to].waiting[at].frame = *frame;
    }
}

static void put_to_others(int from, const j1939_frame *frame) {
    for (int to = 0; to < count; to++)
        if (to != from) put(from, to, frame);
    if (is_wild && from != THIRD) put(from, THIRD, frame);
}

/* The next frame that comes to this node now. */
static int comes(int to, j1939_frame *frame) {
    for (int from = 0; from < NODES; from++) {
        if (!is_there(from)) continue;
        unsigned at = lines[from][to].begin % QUEUE;
        if (lines[from][to].begin == lines[from][to].end || lines[from][to].waiting[at].due > now) continue;
        *frame = lines[from][to].waiting[at].frame;
        frame->micros = now;
        lines[from][to].begin++;
        return 1;
    }
    return 0;
}

/* ---- what is sent: the bytes of a message follow from its kind, its sender and its number */

/* An abort names a group alone, so each direction has one of its own; and so has what goes to the third, which aborts
 * none of it. */
static uint32_t group_of(int32_t kind, int sender) {
    return kind == J1939_RECEIVED_TRANSFER    ? 0xD000u + ((uint32_t)sender << 8)
           : kind == J1939_RECEIVED_BROADCAST ? BROADCASTS
                                              : SINGLES;
}

enum { MOST = 1 << 22 };
static uint8_t *was_received;
static uint32_t most; /* more than any serial number */

/* The place of a bit for each receiver, sender and serial number. */
static size_t place_of(int receiver, int sender, uint32_t serial) {
    return ((size_t)receiver * (size_t)count + (size_t)sender) * most + serial;
}

static int has_received(int receiver, int sender, uint32_t serial) {
    size_t place = place_of(receiver, sender, serial);
    return was_received[place / 8] >> place % 8 & 1;
}

/* Whether one of them has: who sends may not have heard the claim by which another holds the address now. */
static int is_received(int sender, uint32_t serial) {
    for (int receiver = 0; receiver < count; receiver++)
        if (has_received(receiver, sender, serial)) return 1;
    return 0;
}

static void fill(uint8_t *bytes, size_t size, int kind, int sender, uint32_t serial) {
    uint64_t kept = state;
    state = (uint64_t)serial << 8 | (uint64_t)kind << 4 | (uint64_t)sender;
    bytes[0] = (uint8_t)(kind << 4 | sender);
    for (size_t i = 1; i < 4; i++) bytes[i] = (uint8_t)(serial >> 8 * (i - 1));
    for (size_t i = 4; i < size; i++) bytes[i] = (uint8_t)next();
    state = kept;
}

/* ---- a controller with its program */

/* What was accepted and isn't told. */
typedef struct {
    uint64_t token, accepted;
    uint32_t serial;
    unsigned packets;
    uint8_t to;
    int is_open;
} open_message;

static struct node {
    j1939_controller controller;
    uint64_t name;
    open_message singles[16], broadcast, transfers[MOST_NODES], ask;
    unsigned first_single, last_single;
    uint64_t single_tokens, broadcast_tokens, transfer_tokens;
    uint64_t last_packet, heard[256];
    uint32_t serial;
    uint64_t accepted, well[5], failed;
    uint64_t back; /* when it is on the bus again; 0 where it is */
} nodes[MOST_NODES];

static void opens(struct node *node, uint64_t name, uint8_t address) {
    static const uint32_t served[] = {SERVED};
    j1939_setup setup = {.name = name, .address = address, .delay = (uint8_t)name, .served = served, .served_count = 1};
    setup.broadcasts = setup.sessions = setup.transfers = (uint8_t)(count - 1);
    node->name = name;
    EXPECT(j1939_controller_new(&node->controller, &setup) == 0);
}

/* A frame that it sends comes from the address that it holds, or is a claim; of broadcasts two stand 50 ms apart. */
static void sends(int self, const j1939_frame *frame) {
    struct node *node = &nodes[self];
    uint8_t held, group = (uint8_t)(frame->id >> 16), to = (uint8_t)(frame->id >> 8);
    EXPECT(frame->micros == now);
    if (group != 0xEE)
        EXPECT(j1939_controller_status(&node->controller, &held) == J1939_HOLDING && held == (uint8_t)frame->id);
    if ((group == 0xEC || group == 0xEB) && to == 255) {
        EXPECT(!node->last_packet || now - node->last_packet >= GAP);
        node->last_packet = now;
    }
    put_to_others(self, frame);
}

/* What was received was sent so, and in packets not twice. */
static void receives(int self, int32_t kind, const j1939_message *message) {
    uint8_t bytes[J1939_LONGEST];
    int sender = message->data[0] & 15, sent = message->data[0] >> 4;
    uint32_t serial = (uint32_t)(message->data[1] | message->data[2] << 8 | message->data[3] << 16);
    if (kind == J1939_RECEIVED_FRAME && message->pgn != SINGLES) return;
    if (message->source == 0x30) return;
    EXPECT(message->len >= 4 && sender < count && sender != self && sent == kind && serial < most);
    EXPECT(message->pgn == group_of(kind, sender));
    fill(bytes, message->len, kind, sender, serial);
    EXPECT(!memcmp(bytes, message->data, message->len));
    if (kind == J1939_RECEIVED_FRAME) return;
    EXPECT(!has_received(self, sender, serial));
    size_t place = place_of(self, sender, serial);
    was_received[place / 8] |= (uint8_t)(1 << place % 8);
}

/* What was accepted under this token: of transfers one is open to each. */
static open_message *open_of(open_message *messages, int most, uint64_t token) {
    for (int i = 0; i < most; i++)
        if (messages[i].is_open && messages[i].token == token) return &messages[i];
    EXPECT(!"it was accepted, and isn't told");
    return NULL;
}

/* A transfer is over: if it is done, it was received. */
static void ends_transfer(int self, const j1939_ended *ended) {
    struct node *node = &nodes[self];
    open_message *it = open_of(node->transfers, count, ended->token);
    int is_done = ended->ending == J1939_ENDED_DONE;
    it->is_open = 0;
    if (it->to == 0x30) return;
    EXPECT(!is_done || is_received(self, it->serial));
    node->well[J1939_ENDED_TRANSFER] += (uint64_t)is_done;
    node->failed += !is_done;
}

/* Each token is told once, in order; and what is done was received. */
static void ends(int self, int32_t kind, const j1939_ended *ended) {
    struct node *node = &nodes[self];
    if (kind == J1939_ENDED_TRANSFER) {
        ends_transfer(self, ended);
        return;
    }
    node->well[kind] += ended->ending == J1939_ENDED_DONE || ended->ending == J1939_ENDED_ACKNOWLEDGED;
    switch (kind) {
    case J1939_ENDED_MESSAGE:
        EXPECT(node->first_single < node->last_single && node->singles[node->first_single % 16].token == ended->token);
        node->first_single++;
        break;
    case J1939_ENDED_BROADCAST: open_of(&node->broadcast, 1, ended->token)->is_open = 0; break;
    default: open_of(&node->ask, 1, ended->token)->is_open = 0;
    }
}

static int is_late(const open_message *it, uint64_t limit) {
    return now > it->accepted + limit;
}

/* A request is told in time; where a transfer of whom was asked comes meanwhile, once that is whole or has broken off: its
 * receiver asks three times for what it lacks. */
static int is_told(const struct node *node) {
    uint64_t heard = node->heard[node->ask.to];
    return !is_late(&node->ask, T3 + 2 * STEP) || (heard && now - heard <= 4 * (T3 + STEP) + STEP);
}

/* Without it a transfer would end after so long. */
static uint64_t time_of(const open_message *transfer) {
    return (transfer->packets + 65) * (uint64_t)(T3 + STEP) + STEP;
}

/* All that is open is in time: a message of one frame for a step, a broadcast for as long as its packets take, a
 * transfer till its receiver gave up or cleared nothing new too often. */
static void is_in_time(const struct node *node) {
    if (node->back) return;
    if (node->first_single < node->last_single) EXPECT(!is_late(&node->singles[node->first_single % 16], STEP));
    if (node->broadcast.is_open)
        EXPECT(!is_late(&node->broadcast, (node->broadcast.packets + 1) * (uint64_t)(GAP + STEP)));
    for (int to = 0; to < count; to++)
        if (node->transfers[to].is_open) EXPECT(!is_late(&node->transfers[to], time_of(&node->transfers[to])));
    if (node->ask.is_open) EXPECT(is_told(node));
}

static void sends_single(int self) {
    struct node *node = &nodes[self];
    uint8_t bytes[8];
    size_t size = 4 + next() % 5;
    open_message it = {.accepted = now, .serial = node->serial};
    fill(bytes, size, J1939_RECEIVED_FRAME, self, node->serial);
    if (j1939_controller_send(&node->controller, now, (uint8_t)(next() % 8), SINGLES, 255, bytes, size, &it.token) != 1)
        return;
    EXPECT(it.token == 4 * node->single_tokens++);
    node->singles[node->last_single++ % 16] = it;
    node->accepted++;
    node->serial++;
}

static size_t size_of_message(void) {
    return next() % 16 ? 9 + next() % 200 : 9 + next() % (J1939_LONGEST - 8);
}

static void broadcasts(int self) {
    struct node *node = &nodes[self];
    uint8_t bytes[J1939_LONGEST];
    size_t size = 9 + next() % 60;
    open_message it = {.accepted = now, .serial = node->serial, .packets = (unsigned)(size + 6) / 7};
    fill(bytes, size, J1939_RECEIVED_BROADCAST, self, node->serial);
    if (j1939_controller_send(&node->controller, now, 7, BROADCASTS, 255, bytes, size, &it.token) != 1) return;
    EXPECT(!node->broadcast.is_open && it.token == 4 * node->broadcast_tokens++ + 1);
    node->broadcast = it;
    node->broadcast.is_open = 1;
    node->accepted++;
    node->serial++;
}

/* One of the others. */
static int another(int self) {
    return (self + 1 + (int)(next() % (uint64_t)(count - 1))) % count;
}

/* To another, wherever its NAME is; or, where one misbehaves, at times to that, in its place. */
static void transfers(int self) {
    struct node *node = &nodes[self];
    uint8_t bytes[J1939_LONGEST];
    int to = another(self);
    size_t size = size_of_message();
    open_message it = {.accepted = now, .serial = node->serial, .packets = (unsigned)(size + 6) / 7, .to = 0x30, .is_open = 1};
    if (node->transfers[to].is_open) return;
    if (!(is_wild && next() % 64 == 0) && j1939_controller_address_of(&node->controller, nodes[to].name, &it.to) != 1) return;
    uint32_t group = group_of(J1939_RECEIVED_TRANSFER, it.to == 0x30 ? THIRD : self);
    fill(bytes, size, J1939_RECEIVED_TRANSFER, self, node->serial);
    if (j1939_controller_send(&node->controller, now, 7, group, it.to, bytes, size, &it.token) != 1) return;
    EXPECT(it.token == 4 * node->transfer_tokens++ + 2);
    node->transfers[to] = it;
    node->accepted++;
    node->serial++;
}

/* Another is asked for a group, which it acknowledges. */
static void asks(int self) {
    struct node *node = &nodes[self];
    open_message it = {.accepted = now, .is_open = 1};
    if (j1939_controller_address_of(&node->controller, nodes[another(self)].name, &it.to) != 1) return;
    if (j1939_controller_ask(&node->controller, now, SERVED, it.to, &it.token) != 1) return;
    EXPECT(!node->ask.is_open && it.token == 4 * node->single_tokens++);
    node->ask = it;
    node->singles[node->last_single++ % 16] = it;
    node->accepted++;
}

/* It goes to a free address once all is told and taken. */
static void moves(int self) {
    struct node *node = &nodes[self];
    uint8_t address;
    if (j1939_controller_status(&node->controller, &address) != J1939_CANNOT) return;
    if (j1939_controller_free_address(&node->controller, &address) != 1) return;
    if (j1939_controller_move_to(&node->controller, address) != 1) return;
    EXPECT(node->first_single == node->last_single && !node->broadcast.is_open && !node->ask.is_open);
    for (int to = 0; to < count; to++) EXPECT(!node->transfers[to].is_open);
    node->single_tokens = node->broadcast_tokens = node->transfer_tokens = 0;
}

static void takes_all(int self) {
    struct node *node = &nodes[self];
    static j1939_message message;
    j1939_frame frame;
    j1939_request request;
    j1939_ended ended;
    uint8_t priority;
    int32_t kind;
    EXPECT(j1939_controller_tick(&node->controller, now) == 0);
    while (!node->back && j1939_controller_take_frame(&node->controller, now, &frame) == 1) sends(self, &frame);
    while ((kind = j1939_controller_take_received(&node->controller, &message, &priority)) > 0)
        receives(self, kind, &message);
    while ((kind = j1939_controller_take_ended(&node->controller, &ended)) > 0) ends(self, kind, &ended);
    while (j1939_controller_take_request(&node->controller, &request) == 1)
        if (request.destination != 255) j1939_controller_acknowledge(&node->controller, now, &request, J1939_BUSY);
    while (j1939_controller_take_news(&node->controller) > 0) continue;
    is_in_time(node);
}

/* When a request for a transfer, or a packet of one, came last from each address. */
static void notes(struct node *node, const j1939_frame *frame) {
    uint8_t group = (uint8_t)(frame->id >> 16), to = (uint8_t)(frame->id >> 8);
    if (to != 255 && (group == 0xEB || (group == 0xEC && frame->data[0] == 16))) node->heard[(uint8_t)frame->id] = now;
}

/* What is open counts from when it can go again: its claim takes 250 ms. */
static void counts_anew(open_message *messages, int most) {
    for (int i = 0; i < most; i++) messages[i].accepted = now + CLAIM + STEP;
}

/* Now and then its bus is gone, for up to ten seconds: it hears nothing, and nothing goes. */
static void loses_bus(struct node *node) {
    if (!node->back && next() % 65536 == 0) node->back = now + 1 + next() % 10000000;
    if (!node->back || now < node->back) return;
    node->back = 0;
    EXPECT(j1939_controller_again(&node->controller, now) == 0);
    counts_anew(node->singles, 16);
    counts_anew(&node->broadcast, 1);
    counts_anew(node->transfers, count);
    counts_anew(&node->ask, 1);
}

/* A turn of a controller: what came, what its program hands in, what goes. */
static void turns(int self) {
    struct node *node = &nodes[self];
    j1939_frame frame;
    if (count > 2 && self == 0) loses_bus(node);
    while (comes(self, &frame)) {
        if (node->back) continue;
        notes(node, &frame);
        EXPECT(j1939_controller_hear(&node->controller, &frame, frame.micros) == 0);
        takes_all(self);
    }
    moves(self);
    if (next() % 16 == 0) sends_single(self);
    if (!node->broadcast.is_open && now - node->last_packet > PAUSE && next() % 64 == 0) broadcasts(self);
    if (next() % 8 == 0) transfers(self);
    if (!node->ask.is_open && next() % 1024 == 0) asks(self);
    takes_all(self);
}

/* ---- the third, of the smallest NAME, at 30 (hex) */

static j1939_frame frame_of_third(uint8_t priority, uint8_t group, uint8_t to) {
    j1939_frame frame = {
        .micros = now, .id = (uint32_t)priority << 26 | (uint32_t)group << 16 | (uint32_t)to << 8 | 0x30, .len = 8};
    for (int i = 0; i < 8; i++) frame.data[i] = (uint8_t)next();
    return frame;
}

static void claims(uint8_t address) {
    static const uint8_t name[8] = {1};
    j1939_frame frame = frame_of_third(6, 0xEE, 255);
    frame.id = (frame.id & ~0xFFu) | address;
    memcpy(frame.data, name, 8);
    put_to_others(THIRD, &frame);
}

/* It holds for ever what each address announced to it last. */
static void holds(void) {
    static j1939_frame announced[256];
    j1939_frame frame;
    while (comes(THIRD, &frame))
        if ((uint16_t)(frame.id >> 8) == 0xEC30 && frame.data[0] == 16) announced[(uint8_t)frame.id] = frame;
    for (int i = 0; i < 256 && now % 500000 == 0; i++) {
        if (!announced[i].len) continue;
        frame = frame_of_third(7, 0xEC, (uint8_t)announced[i].id);
        const uint8_t hold[8] = {17, 0, 1, 255, 255, announced[i].data[5], announced[i].data[6], announced[i].data[7]};
        memcpy(frame.data, hold, 8);
        put_to_others(THIRD, &frame);
    }
}

/* A frame of the protocol, a request, an acknowledgment or another, to one of them or to all. */
static void disturbs(void) {
    static const uint8_t groups[] = {0xEC, 0xEC, 0xEB, 0xEA, 0xEA, 0xE8, 0xEF}, firsts[] = {16, 17, 19, 32, 255};
    uint8_t to = 255, group = groups[next() % sizeof groups];
    int which = (int)(next() % (unsigned)(count + 1));
    if (which < count && j1939_controller_status(&nodes[which].controller, &to) == J1939_CANNOT) to = 255;
    j1939_frame frame = frame_of_third((uint8_t)(next() % 8), group, to);
    const uint8_t signal[8] = {firsts[next() % 5],
                               (uint8_t)(9 + next() % 20),
                               0,
                               (uint8_t)(2 + next() % 2),
                               255,
                               0,
                               (uint8_t)(0xD0 + next() % (unsigned)count),
                               0};
    if (group == 0xEC) memcpy(frame.data, signal, 8);
    if (group == 0xEB) frame.data[0] = (uint8_t)(1 + next() % 4);
    put_to_others(THIRD, &frame);
}

/* It takes the address of one of them at times, and its own again. */
static void misbehaves(void) {
    uint8_t address;
    holds();
    for (unsigned n = (unsigned)(next() % 4); n > 0; n--) disturbs();
    if (next() % 8192 == 0) {
        if (j1939_controller_status(&nodes[next() % (unsigned)count].controller, &address) == J1939_HOLDING) claims(address);
    } else if (next() % 512 == 0) {
        claims(0x30);
    }
}

/* Till so many messages were accepted, or this moment. */
static void plays(uint64_t messages, uint64_t end) {
    uint64_t accepted = 0;
    while (accepted < messages && now < end) {
        accepted = 0;
        for (int i = 0; i < count; i++) {
            turns(i);
            accepted += nodes[i].accepted;
        }
        if (is_wild) misbehaves();
        now += STEP;
    }
}

int main(int words, char **word) {
    EXPECT(words == 7 || words == 9);
    uint64_t numbers[9] = {[7] = 2, [8] = 1000000000};
    for (int i = 1; i < words; i++) numbers[i] = strtoull(word[i], NULL, 10);
    lost = numbers[2], doubled = numbers[3], delay = numbers[4], is_wild = numbers[5], state = numbers[6];
    count = (int)numbers[7];
    EXPECT(2 <= count && count <= MOST_NODES);
    most = numbers[1] < MOST ? (uint32_t)numbers[1] + MOST_NODES : MOST;
    was_received = room(place_of(count, 0, 0) / 8 + 1);
    lays_lines();
    for (int i = 0; i < count; i++) opens(&nodes[i], 0x8000000001400001 + (uint64_t)i, (uint8_t)(0x80 + 0x10 * i));
    plays(numbers[1], numbers[8] * 1000000);
    uint64_t told[5] = {0}, failed = 0;
    for (int i = 0; i < count; i++) {
        for (int kind = 1; kind < 5; kind++) told[kind] += nodes[i].well[kind];
        failed += nodes[i].failed;
        EXPECT(j1939_controller_close(&nodes[i].controller) == 0);
    }
    free(was_received);
    for (int i = 0; i < NODES * NODES; i++) free(lines[i / NODES][i % NODES].waiting);
    printf("%" PRIu64 " seconds, frames taken %" PRIu64 ", broadcasts %" PRIu64 ", requests answered %" PRIu64 "\n",
           now / 1000000, told[J1939_ENDED_MESSAGE], told[J1939_ENDED_BROADCAST], told[J1939_ENDED_REQUEST]);
    printf("transfers %" PRIu64 " failed %" PRIu64 "\n", told[J1939_ENDED_TRANSFER] + failed, failed);
    return 0;
}
