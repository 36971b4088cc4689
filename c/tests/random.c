/* Many random calls on all parts, with numbers in range and out of it, and memory refused at times: that none of them
 * faults, answers what the header doesn't say, or loses memory. It prints a sum over all that they answer and write, the
 * same on each machine: no two numbers are drawn in one expression. It has calls for memory of its own. Words: how many calls
 * (ten million). */
#include "../j1939.h"
#include "../memory.h"
#include "expect.h"

#include <string.h>

static uint64_t state = 0x9E3779B97F4A7C15;

/* The next number of a fixed sequence (splitmix64). */
static uint64_t next(void) {
    uint64_t z = state += 0x9E3779B97F4A7C15;
    z = (z ^ z >> 30) * 0xBF58476D1CE4E5B9;
    z = (z ^ z >> 27) * 0x94D049BB133111EB;
    return z ^ z >> 31;
}

static uint64_t sum = 0xCBF29CE484222325;

/* Adds a number to the sum (FNV-1a). */
static void mix(uint64_t number) {
    for (int k = 0; k < 64; k += 8) sum = (sum ^ (number >> k & 255)) * 0x100000001B3;
}

static int refuses;

/* Every fourth block is refused. */
static struct granted granted(void *at, size_t size) {
    if (refuses && next() % 4 == 0) return (struct granted){0, NULL};
    at = realloc(at, size ? size : 1);
    return (struct granted){at != NULL, at};
}

struct granted rattle_alloc(size_t size, size_t align) {
    (void)align;
    return granted(NULL, size);
}

struct granted rattle_realloc(void *at, size_t kept, size_t size, size_t align) {
    (void)kept;
    (void)align;
    return granted(at, size);
}

void rattle_dealloc(void *at) {
    free(at);
}

enum { PARTS = 4 };
static j1939_listener listeners[PARTS];
static j1939_assembler assemblers[PARTS];
static j1939_receiver receivers[PARTS];
static j1939_sender senders[PARTS];
static j1939_controller controllers[PARTS];
static j1939_answers answers[PARTS];
static j1939_outbox outboxes[PARTS];
static j1939_node nodes[PARTS];
static j1939_claims claims[PARTS];
static j1939_broadcast broadcasts[PARTS];
static j1939_frame frame, out;
static j1939_message message;
static uint64_t now;

/* A frame of the transport protocol, a claim, or of any other group; at times out of range. */
static void make_frame(void) {
    static const uint32_t groups[] = {0xEC, 0xEB, 0xEB, 0xEE, 0xEA, 0xF0};
    static const uint8_t firsts[] = {0x20, 0x10, 0x11, 0x13, 0xFF, 1};
    static const uint8_t addresses[] = {0, 1, 2, 254, 255};
    frame.micros = now += next() % 100000;
    frame.id = 6u << 26 | groups[next() % 6] << 16;
    frame.id |= (uint32_t)addresses[next() % 5] << 8;
    frame.id |= addresses[next() % 4];
    frame.len = 8;
    for (int i = 0; i < 8; i++) frame.data[i] = (uint8_t)next();
    uint8_t size = (uint8_t)(9 + next() % 20);
    if (frame.id >> 16 & 1) {
        frame.data[0] = (uint8_t)(1 + next() % 4);
    } else if (next() % 8) {
        const uint8_t announcement[8] = {firsts[next() % 6], size, 0, (uint8_t)((size + 6) / 7), 0xFF, 0xEC, 0xFE, 0};
        memcpy(frame.data, announcement, 8);
    }
    if (next() % 64 == 0) frame.len = (uint8_t)(next() % 12);
    if (next() % 256 == 0) frame.id = (uint32_t)next();
    if (next() % 4096 == 0) frame.micros = next();
}

/* Whether an answer is one that the header has: at least this one, at most that one. */
static int32_t answered(int32_t answer, int32_t least, int32_t most) {
    EXPECT(answer >= least && answer <= most);
    mix((uint64_t)(int64_t)answer);
    return answer;
}

/* What was written out, where the answer says that it was. */
static void mix_frame(const j1939_frame *written) {
    mix(written->micros), mix(written->id), mix(written->len);
    for (int i = 0; i < written->len; i++) mix(written->data[i]);
}

static void mix_message(void) {
    mix(message.micros), mix(message.is_named ? message.name : 0), mix(message.pgn), mix(message.source);
    mix(message.is_addressed ? message.destination : 256), mix(message.len);
    for (int i = 0; i < message.len; i++) mix(message.data[i]);
}

static void sends(int32_t answer, int32_t least, int32_t most) {
    if (answered(answer, least, most) >= 1) mix_frame(&out);
}

static void hears(int32_t answer, int32_t least) {
    if (answered(answer, least, 1) == 1) mix_message();
}

static void call_handles(size_t i, uint8_t address) {
    uint8_t payload[40], reason = 0, to;
    uint64_t name = 0;
    switch (next() % 18) {
    case 16: answered(j1939_assembler_new(&assemblers[i]), J1939_IN_USE, 0); break;
    case 17:
        hears(j1939_assembler_feed(&assemblers[i], &frame, &message), J1939_NO_MEMORY);
        if (next() % 64 == 0) answered(j1939_assembler_forget(&assemblers[i], address), J1939_NO_PART, 0);
        if (next() % 1024 == 0) answered(j1939_assembler_close(&assemblers[i]), 0, 0);
        break;
    case 0: answered(j1939_listener_new(&listeners[i]), J1939_IN_USE, 0); break;
    case 1: answered(j1939_receiver_new(&receivers[i], address), J1939_IN_USE, 0); break;
    case 2:
        memset(payload, address, sizeof payload);
        to = (uint8_t)(next() % 3);
        answered(j1939_sender_new(&senders[i], address, to, 65260, payload, next() % sizeof payload), J1939_IN_USE, 0);
        break;
    case 3:
        if (next() % 64 == 0) answered(j1939_listener_close(&listeners[i]), 0, 0);
        if (next() % 64 == 0) answered(j1939_receiver_close(&receivers[i]), 0, 0);
        if (next() % 64 == 0) answered(j1939_sender_close(&senders[i]), 0, 0);
        break;
    case 4: case 5: case 6: case 7:
        hears(j1939_listener_feed(&listeners[i], &frame, &message), J1939_NO_MEMORY);
        break;
    case 8: case 9: {
        int32_t answer = j1939_receiver_on(&receivers[i], &frame, &out, &message);
        sends(answer, J1939_NO_PART, 2);
        if (answer == 2) mix_message();
        break;
    }
    case 10: sends(j1939_receiver_tick(&receivers[i], now, &out), J1939_NO_PART, 1); break;
    case 11: sends(j1939_sender_tick(&senders[i], now, &out), J1939_NO_PART, 1); break;
    case 12: answered(j1939_sender_on(&senders[i], next() % 2 ? &frame : &out), J1939_NO_PART, 0); break;
    case 13: answered(j1939_sender_state(&senders[i], &reason), J1939_NO_PART, J1939_SEND_FAILED), mix(reason); break;
    case 14: answered(j1939_listener_holder(&listeners[i], address, &name), J1939_NO_PART, 1), mix(name); break;
    default: /* a handle of another kind */
        answered(j1939_listener_feed((j1939_listener *)&receivers[i], &frame, &message), J1939_NO_PART, J1939_BAD_VALUE);
    }
}

/* Hands the frame that a controller sent to the others. */
static void tell_others(const j1939_controller *controller) {
    for (size_t i = 0; i < PARTS; i++) {
        if (&controllers[i] != controller) answered(j1939_controller_hear(&controllers[i], &out, out.micros), J1939_NO_PART, 0);
    }
}

/* Takes all that a controller hands out. */
static void empty_controller(j1939_controller *controller) {
    static j1939_frame seen;
    j1939_request request;
    j1939_ended ended;
    uint8_t priority = 0;
    int32_t answer;
    while ((answer = j1939_controller_peek_frame(controller, now, &seen)) > 0) {
        EXPECT(j1939_controller_take_frame(controller, now, &out) == 1 && out.id == seen.id && out.len == seen.len);
        mix_frame(&out);
        tell_others(controller);
    }
    answered(answer, J1939_NO_PART, 0);
    while ((answer = j1939_controller_take_received(controller, &message, &priority)) > 0) {
        EXPECT(answer <= J1939_RECEIVED_BROADCAST && message.len <= J1939_LONGEST && priority < 8);
        EXPECT((answer == J1939_RECEIVED_FRAME) == (message.len < 9));
        mix((uint64_t)answer), mix(priority), mix_message();
    }
    answered(answer, J1939_NO_PART, 0);
    while ((answer = j1939_controller_take_request(controller, &request)) > 0) {
        EXPECT(answer == 1 && (request.pgn == 65260 || request.pgn == 61444));
        mix(request.pgn), mix(request.source), mix(request.destination);
        answered(j1939_controller_acknowledge(controller, now, &request, (uint8_t)(next() % 5)), J1939_FULL, 0);
    }
    answered(answer, J1939_NO_PART, 0);
    while ((answer = j1939_controller_take_ended(controller, &ended)) > 0) {
        EXPECT(answer <= J1939_ENDED_REQUEST && ended.ending >= J1939_ENDED_DONE);
        EXPECT(ended.ending <= J1939_ENDED_TIMED_OUT);
        mix((uint64_t)answer), mix(ended.token), mix(ended.ending), mix(ended.detail);
    }
    answered(answer, J1939_NO_PART, 0);
    while ((answer = j1939_controller_take_news(controller)) > 0) answered(answer, J1939_NEWS_LOST, J1939_NEWS_DOUBLED + 255);
    answered(answer, J1939_NO_PART, 0);
}

/* What it is asked of itself. */
static void ask_controller(j1939_controller *controller, uint8_t address) {
    uint64_t number = 0;
    uint8_t own = 0;
    answered(j1939_controller_status(controller, &own), J1939_NO_PART, J1939_CANNOT), mix(own);
    answered(j1939_controller_next_due(controller, &number), J1939_NO_PART, 1), mix(number);
    answered(j1939_controller_next_tick(controller, &number), J1939_NO_PART, 1), mix(number);
    answered(j1939_controller_missed(controller, &number), J1939_NO_PART, 0), mix(number);
    answered(j1939_controller_holder(controller, address, &number), J1939_NO_PART, 1), mix(number);
    answered(j1939_controller_address_of(controller, next() % 4, &own), J1939_NO_PART, 1), mix(own);
    answered(j1939_controller_free_address(controller, &own), J1939_NO_PART, 1), mix(own);
    sends(j1939_controller_claims_request(controller, now, address, &out), J1939_NO_PART, 1);
}

/* Whether it tells a token, or why there is none. */
static void told(int32_t answer, const uint64_t *token) {
    EXPECT(answer == 1 || answer == J1939_BAD_VALUE || answer == J1939_NO_PART || answer == J1939_NO_ADDRESS
           || answer == J1939_FULL);
    answered(answer, J1939_FULL, 1);
    if (answer == 1) mix(*token);
}

static void call_controller(j1939_controller *controller, uint8_t address) {
    static uint8_t payload[1800];
    static const uint32_t served[] = {65260, 61444, 1u << 18}, wanted[] = {65260, 61444, 61440};
    uint64_t token = 0, name = next() % 4;
    size_t size = (size_t)(next() % 64 ? 9 + next() % 20 : next() % sizeof payload);
    uint8_t priority = (uint8_t)(next() % 9), delay = (uint8_t)next();
    uint32_t pgn = next() % 2 ? 65260 : 65262;
    j1939_setup setup = {.name = name, .address = address, .delay = delay, .broadcasts = 1, .sessions = 2, .transfers = 1, .window = (uint8_t)(delay % 4), .served = served, .served_count = 2,
                         .subscribed = wanted, .subscribed_count = 3};
    payload[next() % sizeof payload] = (uint8_t)size;
    switch (next() % 15) {
    case 0:
        setup.served_count = 2 + !(next() % 8);
        answered(j1939_controller_new(controller, &setup), J1939_IN_USE, 0);
        break;
    case 1:
        if (next() % 256 == 0) answered(j1939_controller_close(controller), 0, 0);
        break;
    case 2: answered(j1939_controller_tick(controller, now), J1939_NO_PART, 0); break;
    case 3: ask_controller(controller, address); break;
    case 4: told(j1939_controller_ask(controller, now, pgn, address, &token), &token); break;
    case 5: answered(j1939_controller_move_to(controller, address), J1939_NO_PART, 1); break;
    case 6: told(j1939_controller_send(controller, now, priority, 61444, 255, payload, size % 10, &token), &token); break;
    case 7: told(j1939_controller_send(controller, now, 7, 65260, 255, payload, size, &token), &token); break;
    case 8: told(j1939_controller_send(controller, now, 7, 65260, address, payload, size, &token), &token); break;
    case 9: empty_controller(controller); break;
    case 10:
        if (next() % 16 == 0) answered(j1939_controller_again(controller, now), J1939_NO_PART, 0);
        break;
    case 11:
        answered(j1939_controller_renew(controller, priority, 61444, 255, payload, size % 10, &token), J1939_NO_PART, 1);
        mix(token);
        answered(j1939_controller_withdraw(controller, next() % 64), J1939_NO_PART, 1);
        break;
    case 12:
        setup.is_subscribed = 1;
        answered(j1939_controller_new(controller, &setup), J1939_IN_USE, 0);
        break;
    default: answered(j1939_controller_hear(controller, &frame, frame.micros), J1939_NO_PART, 0);
    }
}

/* Answers with a controller, or with a handle of another kind. */
static void call_answers(j1939_answers *kept, j1939_controller *controller) {
    static uint8_t payload[1800];
    j1939_request request = {.pgn = 65260, .source = (uint8_t)(next() % 3), .destination = 255};
    size_t size = (size_t)(next() % 64 ? next() % 30 : next() % sizeof payload);
    uint64_t time = 0;
    payload[next() % sizeof payload] = (uint8_t)size;
    switch (next() % 8) {
    case 0: answered(j1939_answers_new(kept, (uint8_t)(next() % 4)), J1939_IN_USE, 0); break;
    case 1:
        if (next() % 256 == 0) answered(j1939_answers_close(kept), 0, 0);
        break;
    case 2: answered(j1939_answers_due_in(kept, &time), J1939_NO_PART, 1), mix(time); break;
    case 3: case 4:
        if (answered(j1939_answers_take_request(kept, controller, now, &request), J1939_NO_PART, 1) == 1)
            mix(request.pgn), mix(request.source), mix(request.destination);
        if (next() % 2) answered(j1939_answers_answer(kept, &request, payload, size), J1939_NO_PART, 1);
        break;
    case 5: answered(j1939_answers_turn(kept, (j1939_controller *)&receivers[0], now), J1939_NO_PART, J1939_BAD_VALUE); break;
    default: answered(j1939_answers_turn(kept, controller, now), J1939_NO_PART, 0);
    }
}

/* An outbox with a controller, or with a handle of another kind. */
static void call_outbox(j1939_outbox *outbox, j1939_controller *controller) {
    static uint8_t payload[1800];
    static const uint32_t groups[] = {61184, 61444, 65260, 60928};
    j1939_settled settled = {0};
    size_t size = (size_t)(next() % 64 ? next() % 30 : next() % sizeof payload);
    uint64_t name = next() % 4, number = 0;
    uint8_t priority = (uint8_t)(next() % 9);
    payload[next() % sizeof payload] = (uint8_t)size;
    switch (next() % 8) {
    case 0: answered(j1939_outbox_new(outbox, (uint8_t)(next() % 4)), J1939_IN_USE, 0); break;
    case 1:
        if (next() % 256 == 0) answered(j1939_outbox_close(outbox), 0, 0);
        break;
    case 2: answered(j1939_outbox_due_in(outbox, &number), J1939_NO_PART, 1), mix(number); break;
    case 3: told(j1939_outbox_send(outbox, now, name, priority, groups[next() % 4], payload, size, &number), &number); break;
    case 4: told(j1939_outbox_ask(outbox, now, name, 65260, &number), &number); break;
    case 5:
        answered(j1939_outbox_take_settled(outbox, &settled), J1939_NO_PART, J1939_SETTLED_GONE);
        mix(settled.number), mix(settled.token), mix((uint64_t)(int64_t)settled.refusal);
        break;
    case 6: answered(j1939_outbox_take_frame(outbox, (j1939_controller *)&receivers[0], now, &out), J1939_NO_PART, J1939_BAD_VALUE); break;
    default:
        if (answered(j1939_outbox_take_frame(outbox, controller, now, &out), J1939_NO_PART, 1) == 1) mix_frame(&out), tell_others(controller);
    }
}

/* A message of a group of the table, or of any length, and what is read in it. */
static void read_message(void) {
    static const uint32_t groups[] = {61443, 61444, 65226, 65253, 65260, 65262, 65265};
    static char text[7200];
    j1939_reading reading;
    message.pgn = groups[next() % 7];
    message.len = (uint16_t)(next() % 16 ? 8 : next() % 1786);
    for (int i = 0; i < message.len; i++) message.data[i] = (uint8_t)next();
    size_t index = (size_t)(next() % 8);
    if (answered(j1939_read(&message, index, &reading), J1939_END, 0) == 0) {
        mix((uint64_t)reading.number), mix(reading.spn), mix(reading.kind), mix(reading.places);
        mix((uint8_t)reading.unit[0]);
    }
    int32_t length = answered(j1939_read_text(&message, index, text, (size_t)(next() % sizeof text)), J1939_END, 7142);
    for (int32_t i = 0; i < length; i++) mix((uint8_t)text[i]);
}

static void call_plain(size_t i, uint8_t address) {
    j1939_id_fields fields;
    j1939_name_fields parts;
    uint8_t changed[2] = {0, 0}, own = 0;
    uint64_t name = next(), due = 0;
    uint32_t raw = 0, spn = (uint32_t)(next() % 300);
    switch (next() % 13) {
    case 12:
        sends(j1939_broadcast_poll(&broadcasts[i], address, 65260, message.data, (size_t)(name % 1786), now, &out, &due),
              J1939_BAD_VALUE, 2);
        mix(due);
        break;
    case 0: answered(j1939_node_init(&nodes[i], spn % 2 ? spn % 8 : name, address), J1939_BAD_VALUE, 0); break;
    case 1: sends(j1939_node_start(&nodes[i], now, &out), J1939_BAD_VALUE, 1); break;
    case 2: answered(j1939_node_tick(&nodes[i], now), J1939_BAD_VALUE, 0); break;
    case 3: sends(j1939_node_on(&nodes[i], &frame, &out), J1939_BAD_VALUE, 1); break;
    case 4:
        sends(j1939_node_commanded(&nodes[i], spn % 2 ? spn % 8 : name, address, now, &out), J1939_BAD_VALUE, 1);
        break;
    case 5: answered(j1939_node_status(&nodes[i], &own), 0, J1939_CANNOT), mix(own); break;
    case 6:
        answered(j1939_claims_note(&claims[i], &frame, changed), J1939_BAD_VALUE, 2);
        mix(changed[0]), mix(changed[1]);
        break;
    case 7: answered(j1939_claims_holder(&claims[i], address, &due), 0, 1), mix(due); break;
    case 8: read_message(); break;
    case 9:
        if (j1939_id_split((uint32_t)name, &fields) == 0) {
            EXPECT(j1939_id_compose(&fields, &raw) == 0 && raw == (uint32_t)name);
            mix(fields.pgn), mix(fields.priority), mix(fields.source), mix(fields.destination);
        }
        break;
    case 10:
        EXPECT(j1939_name_split(state, &parts) == 0);
        EXPECT(j1939_name_compose(&parts, &name) == 0 && name == state);
        mix(parts.identity), mix(parts.manufacturer), mix(parts.function), mix(parts.ecu_instance);
        break;
    default:
        if (name % 2) name %= 20000000;
        answered(j1939_raw_of(spn, (int64_t)name, &raw), 0, 1), mix(raw);
    }
}

int main(int argc, char **argv) {
    long calls = argc > 1 ? atol(argv[1]) : 10000000;
    refuses = 1;
    for (long n = 0; n < calls; n++) {
        size_t i = next() % PARTS;
        uint8_t address = next() % 8 ? (uint8_t)(next() % 3) : (uint8_t)next();
        if (next() % 2) make_frame();
        if (now > 9000000000000000u) now = 0;
        switch (next() % 8) {
        case 0: call_plain(i, address); break;
        case 1: case 2: call_controller(&controllers[i], address); break;
        case 3: call_answers(&answers[i], &controllers[i]); break;
        case 4: call_outbox(&outboxes[i], &controllers[i]); break;
        default: call_handles(i, address);
        }
    }
    refuses = 0;
    for (size_t i = 0; i < PARTS; i++) {
        EXPECT(j1939_listener_close(&listeners[i]) == 0 && j1939_receiver_close(&receivers[i]) == 0);
        EXPECT(j1939_assembler_close(&assemblers[i]) == 0 && j1939_answers_close(&answers[i]) == 0);
        EXPECT(j1939_outbox_close(&outboxes[i]) == 0);
        EXPECT(j1939_sender_close(&senders[i]) == 0 && j1939_controller_close(&controllers[i]) == 0);
    }
    printf("%08lx%08lx\n", (unsigned long)(sum >> 32), (unsigned long)(sum & 0xFFFFFFFF));
    return 0;
}
