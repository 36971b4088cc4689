/* Handles in memory of the program's own: how much each setup wants, and what is refused. No heap is there. */
#include "at.h"
#include "../pool.h"
#undef j1939_listener_new

#include <string.h>

/* The byte before and behind what is handed over stays. */
enum { LARGEST = 1000000, MARK = 0xA5 };
static uint8_t around[LARGEST];

static j1939_setup setup = {.name = 1, .address = 3};
static size_t bytes;
static uint8_t boxes;
static j1939_listener listener = J1939_EMPTY;
static j1939_assembler assembler = J1939_EMPTY;
static j1939_message message;
static const uint8_t payload[J1939_LONGEST];

static int32_t open_listener(void *memory, size_t size) {
    return j1939_listener_at(&listener, memory, size);
}

static int32_t open_assembler(void *memory, size_t size) {
    return j1939_assembler_at(&assembler, memory, size);
}

static int32_t open_receiver(void *memory, size_t size) {
    j1939_receiver receiver = J1939_EMPTY;
    int32_t answer = j1939_receiver_at(&receiver, memory, size, 3);
    EXPECT(answer ? !receiver.handle.part && !receiver.handle.memory : j1939_receiver_busy(&receiver) == 0);
    EXPECT(j1939_receiver_close(&receiver) == 0 && !receiver.handle.memory);
    return answer;
}

static int32_t open_sender(void *memory, size_t size) {
    j1939_sender sender = J1939_EMPTY;
    j1939_frame frame;
    int32_t answer = j1939_sender_at(&sender, memory, size, 1, 3, 65260, payload, bytes);
    EXPECT(answer ? !sender.handle.part && !sender.handle.memory : j1939_sender_tick(&sender, 1, &frame) == 1);
    EXPECT(j1939_sender_close(&sender) == 0 && !sender.handle.memory);
    return answer;
}

static int32_t open_controller(void *memory, size_t size) {
    j1939_controller controller = J1939_EMPTY;
    j1939_frame frame;
    int32_t answer = j1939_controller_at(&controller, memory, size, &setup);
    EXPECT(answer ? !controller.handle.part && !controller.handle.memory : j1939_controller_take_frame(&controller, 1, &frame) == 1);
    EXPECT(j1939_controller_close(&controller) == 0 && !controller.handle.memory);
    return answer;
}

static int32_t open_answers(void *memory, size_t size) {
    j1939_answers answers = J1939_EMPTY;
    uint64_t time;
    int32_t answer = j1939_answers_at(&answers, memory, size, boxes);
    EXPECT(answer ? !answers.handle.part && !answers.handle.memory : j1939_answers_due_in(&answers, &time) == 0);
    EXPECT(j1939_answers_close(&answers) == 0 && !answers.handle.memory);
    return answer;
}

static int32_t open_outbox(void *memory, size_t size) {
    j1939_outbox outbox = J1939_EMPTY;
    uint64_t time;
    int32_t answer = j1939_outbox_at(&outbox, memory, size, boxes);
    EXPECT(answer ? !outbox.handle.part && !outbox.handle.memory : j1939_outbox_due_in(&outbox, &time) == 0);
    EXPECT(j1939_outbox_close(&outbox) == 0 && !outbox.handle.memory);
    return answer;
}

/* It is opened in so many bytes, behind so many of a word. */
static int is_enough(int32_t (*open)(void *, size_t), size_t skipped, size_t size) {
    uint8_t *memory = around + 8 + skipped;
    memory[-1] = memory[size] = MARK;
    int32_t answer = open(memory, size);
    EXPECT(answer == 0 || answer == J1939_NO_MEMORY);
    EXPECT(memory[-1] == MARK && memory[size] == MARK);
    return answer == 0;
}

/* What .._size says is enough, wherever it begins; at most a hundredth and 64 bytes of it are not wanted. */
static void wants(int32_t (*open)(void *, size_t), size_t told) {
    EXPECT(told + 16 < LARGEST);
    for (size_t skipped = 0; skipped < 8; skipped++) {
        EXPECT(is_enough(open, skipped, told));
        EXPECT(!is_enough(open, skipped, told - told / 100 - 64));
    }
}

/* Of each size below the least that is enough it is refused. */
static void refuses(int32_t (*open)(void *, size_t), size_t told) {
    size_t size = 0;
    while (!is_enough(open, 3, size)) size++;
    EXPECT(size <= told);
}

static int32_t open_and_close(void *memory, size_t size) {
    int32_t answer = open_listener(memory, size);
    EXPECT(answer ? !listener.handle.memory : listener.handle.memory != 0);
    EXPECT(j1939_listener_close(&listener) == 0 && !listener.handle.memory);
    return answer;
}

static int32_t assemble_and_close(void *memory, size_t size) {
    int32_t answer = open_assembler(memory, size);
    EXPECT(j1939_assembler_close(&assembler) == 0 && !assembler.handle.memory);
    return answer;
}

static void sizes(void) {
    wants(open_and_close, j1939_listener_size(0)), refuses(open_and_close, j1939_listener_size(0));
    wants(assemble_and_close, j1939_assembler_size(0)), refuses(assemble_and_close, j1939_assembler_size(0));
    wants(open_receiver, j1939_receiver_size()), refuses(open_receiver, j1939_receiver_size());
    for (bytes = 9; bytes <= J1939_LONGEST; bytes++) wants(open_sender, j1939_sender_size(bytes));
    bytes = 20, refuses(open_sender, j1939_sender_size(20));
    for (int many = 0; many < 256; many++) {
        boxes = (uint8_t)many;
        setup.broadcasts = boxes, setup.sessions = setup.transfers = 0;
        wants(open_controller, j1939_controller_size(&setup));
        setup.broadcasts = 0, setup.sessions = boxes;
        wants(open_controller, j1939_controller_size(&setup));
        setup.sessions = 0, setup.transfers = boxes;
        wants(open_controller, j1939_controller_size(&setup));
        wants(open_answers, j1939_answers_size(boxes));
        wants(open_outbox, j1939_outbox_size(boxes));
    }
    boxes = 2, refuses(open_answers, j1939_answers_size(2)), refuses(open_outbox, j1939_outbox_size(2));
    setup.broadcasts = 2, setup.sessions = 2, setup.transfers = 2, refuses(open_controller, j1939_controller_size(&setup));
    EXPECT(j1939_listener_size(2) == J1939_LISTENER_SIZE(2) && j1939_listener_size(1000) == J1939_LISTENER_SIZE(271));
    EXPECT(j1939_controller_size(NULL) == 0);
}

/* With no boxes it sends single frames alone, in 6 kB: a broadcast in packets is refused. */
static void sends_frames(void) {
    j1939_controller controller = J1939_EMPTY;
    j1939_frame frame;
    uint64_t token;
    setup.broadcasts = setup.sessions = setup.transfers = 0;
    EXPECT(j1939_controller_size(&setup) <= 6000);
    EXPECT(j1939_controller_at(&controller, around, 6000, &setup) == 0);
    EXPECT(j1939_controller_take_frame(&controller, 1, &frame) == 1 && j1939_controller_tick(&controller, 250001) == 0);
    EXPECT(j1939_controller_send(&controller, 250001, 6, 65260, 255, payload, 9, &token) == J1939_FULL);
    EXPECT(j1939_controller_send(&controller, 250001, 6, 65260, 255, payload, 8, &token) == 1);
    EXPECT(j1939_controller_take_frame(&controller, 250001, &frame) == 1 && frame.len == 8);
    EXPECT(j1939_controller_close(&controller) == 0);
}

/* Announces a message of a source to all, or a packet of it; whether it is put together by an assembler too. */
static int32_t feed(uint8_t source, uint16_t k) {
    j1939_frame frame;
    EXPECT(j1939_cut_frame(source, 65260, payload, 20, k, 1, &frame) == 1);
    int32_t heard = j1939_listener_feed(&listener, &frame, &message);
    EXPECT(j1939_assembler_feed(&assembler, &frame, &message) == heard);
    return heard;
}

/* As many messages are open at once as there is room for; what ends makes room, by its last packet or by a claim. */
static void messages_of(uint8_t room) {
    EXPECT(open_listener(around + 1, j1939_listener_size(room)) == 0);
    size_t size = j1939_assembler_size(room);
    EXPECT(open_assembler(around + LARGEST - size, size) == 0);
    EXPECT(open_listener(around, LARGEST) == J1939_IN_USE);
    for (int round = 0; round < 100; round++) {
        uint8_t first = (uint8_t)(round % 7), claimed = (uint8_t)(first + (round + 1) % (room ? room : 1));
        for (uint8_t i = 0; i < room; i++) EXPECT(feed((uint8_t)(first + i), 0) == 0);
        EXPECT(feed((uint8_t)(first + room), 0) == J1939_NO_MEMORY);
        if (!room) continue;
        j1939_frame claim = {.micros = 1, .id = 0x18EEFF00u + claimed, .len = 8, .data = {(uint8_t)(100 - round)}};
        EXPECT(j1939_listener_feed(&listener, &claim, &message) == 0 && j1939_assembler_forget(&assembler, claimed) == 0);
        EXPECT(feed((uint8_t)(first + room), 0) == 0);
        for (uint8_t k = 1; k <= 3; k++)
            for (uint8_t i = 0; i <= room; i++) EXPECT(feed((uint8_t)(first + i), k) == (k == 3 && first + i != claimed));
    }
    EXPECT(j1939_listener_close(&listener) == 0 && j1939_assembler_close(&assembler) == 0);
}

/* A block is granted again where it is large enough; what isn't there is refused. */
static void blocks(void) {
    j39_pool_enter(j39_pool_in(around + 1, 200));
    uint8_t *small = j39_alloc(8, 8).at;
    j39_dealloc(small);
    uint8_t *large = j39_alloc(33, 8).at;
    EXPECT(large && large != small && j39_alloc(0, 1).at == small);
    memset(large, MARK, 33);
    uint8_t *larger = j39_realloc(large, 33, 64, 8).at;
    EXPECT(larger && larger != large && larger[32] == MARK && j39_alloc(40, 8).at == large);
    EXPECT(!j39_alloc(64, 8).is_granted && !j39_alloc(8, 16).is_granted && !j39_alloc(SIZE_MAX, 1).is_granted);
    j39_pool_enter(NULL);
}

int main(void) {
    j1939_listener none = J1939_EMPTY;
    EXPECT(j1939_listener_at(NULL, around, LARGEST) == J1939_NULL && j1939_listener_at(&none, NULL, LARGEST) == J1939_NULL);
    EXPECT(j1939_assembler_at(&assembler, NULL, 0) == J1939_NULL && !assembler.handle.memory);
    blocks();
    sizes();
    sends_frames();
    for (uint8_t room = 0; room < 6; room++) messages_of(room);
    messages_of(64);
    return 0;
}
