/* What the calls answer to what is out of range, out of order, NULL or out of memory. Linked with --wrap=malloc. */
#include "../j1939.h"
#include "expect.h"

#include <string.h>

static long allowed = -1; /* how many times malloc grants; below 0: always */
void *__real_malloc(size_t size);
void *__wrap_malloc(size_t size);
void *__wrap_malloc(size_t size) {
    if (allowed == 0) return NULL;
    if (allowed > 0) allowed--;
    return __real_malloc(size);
}

static const uint64_t LATE = 10000000000000000u;
static j1939_message message;
static j1939_frame out;
static const uint8_t payload[1786];
static j1939_peers peers;
static j1939_peer peer;

static void null_pointers(void) {
    static j1939_broadcast broadcast;
    static j1939_node node;
    static j1939_claims claims;
    j1939_listener listener = J1939_EMPTY;
    j1939_assembler assembler = J1939_EMPTY;
    j1939_receiver receiver = J1939_EMPTY;
    j1939_sender sender = J1939_EMPTY;
    j1939_controller controller = J1939_EMPTY;
    j1939_answers kept = J1939_EMPTY;
    j1939_outbox outbox = J1939_EMPTY;
    j1939_settled settled;
    j1939_setup setup = {.name = 1}, serving = {.served_count = 1}, wanting = {.is_subscribed = 1, .subscribed_count = 1};
    j1939_request request;
    j1939_frame frame = {0};
    uint8_t byte = 0, changed[2];
    uint64_t name;
    char text[8];
    EXPECT(j1939_id_split(0, NULL) == J1939_NULL);
    EXPECT(j1939_id_compose(NULL, NULL) == J1939_NULL);
    EXPECT(j1939_name_split(0, NULL) == J1939_NULL);
    EXPECT(j1939_name_compose(NULL, &name) == J1939_NULL);
    EXPECT(j1939_read(NULL, 0, NULL) == J1939_NULL);
    EXPECT(j1939_read_text(NULL, 0, text, sizeof text) == J1939_NULL);
    EXPECT(j1939_read_text(&message, 0, NULL, 0) == J1939_NULL);
    EXPECT(j1939_raw_of(190, 0, NULL) == J1939_NULL);
    EXPECT(j1939_fault_at(NULL, 0, NULL) == J1939_NULL);
    EXPECT(j1939_fault_at(&message, 0, NULL) == J1939_NULL);
    EXPECT(j1939_lamps_of(&message, NULL) == J1939_NULL);
    EXPECT(j1939_parameter_name(190, NULL, 0) == J1939_NULL);
    EXPECT(j1939_group_name(61444, NULL, 0) == J1939_NULL);
    EXPECT(j1939_function_name(0, NULL, 0) == J1939_NULL);
    EXPECT(j1939_maker_name(10, NULL, 0) == J1939_NULL);
    EXPECT(j1939_failure_name(10, NULL, 0) == J1939_NULL);
    EXPECT(j1939_report_line(NULL, 0, text, 8) == J1939_NULL && j1939_report_line(&message, 0, NULL, 8) == J1939_NULL);
    EXPECT(j1939_faults_message(NULL, NULL, 0, &byte, 1) == J1939_NULL);
    EXPECT(j1939_listener_feed_as(&listener, 1, NULL, &message) == J1939_NULL);
    EXPECT(j1939_cut_frame(0, 0, NULL, 9, 0, 0, &out) == J1939_NULL);
    EXPECT(j1939_broadcast_init(NULL) == J1939_NULL);
    EXPECT(j1939_broadcast_poll(&broadcast, 0, 0, payload, 9, 0, &out, NULL) == J1939_NULL);
    EXPECT(j1939_claims_init(NULL) == J1939_NULL);
    EXPECT(j1939_claims_note(&claims, NULL, changed) == J1939_NULL);
    EXPECT(j1939_claims_holder(&claims, 0, NULL) == J1939_NULL);
    EXPECT(j1939_peers_init(NULL) == J1939_NULL);
    EXPECT(j1939_peers_hear(&peers, NULL, 0) == J1939_NULL);
    EXPECT(j1939_peers_take(&peers, &controller, NULL) == J1939_NULL);
    EXPECT(j1939_peers_heard_since(&peers, NULL, 1, 0) == J1939_NULL);
    EXPECT(j1939_node_init(NULL, 0, 0) == J1939_NULL);
    EXPECT(j1939_node_start(&node, 0, NULL) == J1939_NULL);
    EXPECT(j1939_node_tick(NULL, 0) == J1939_NULL);
    EXPECT(j1939_node_on(&node, NULL, &out) == J1939_NULL);
    EXPECT(j1939_node_commanded(&node, 0, 0, 0, NULL) == J1939_NULL);
    EXPECT(j1939_node_status(&node, NULL) == J1939_NULL);
    EXPECT(j1939_listener_new(NULL) == J1939_NULL);
    EXPECT(j1939_listener_feed(&listener, &frame, NULL) == J1939_NULL);
    EXPECT(j1939_listener_holder(NULL, 0, &name) == J1939_NULL);
    EXPECT(j1939_listener_close(NULL) == J1939_NULL);
    EXPECT(j1939_assembler_new(NULL) == J1939_NULL);
    EXPECT(j1939_assembler_feed(&assembler, NULL, &message) == J1939_NULL);
    EXPECT(j1939_assembler_forget(NULL, 0) == J1939_NULL);
    EXPECT(j1939_assembler_close(NULL) == J1939_NULL);
    EXPECT(j1939_receiver_new(NULL, 0) == J1939_NULL);
    EXPECT(j1939_receiver_on(&receiver, &frame, &out, NULL) == J1939_NULL);
    EXPECT(j1939_receiver_tick(&receiver, 0, NULL) == J1939_NULL);
    EXPECT(j1939_receiver_busy(NULL) == J1939_NULL);
    EXPECT(j1939_receiver_close(NULL) == J1939_NULL);
    EXPECT(j1939_sender_new(&sender, 0, 0, 0, NULL, 9) == J1939_NULL);
    EXPECT(j1939_sender_tick(&sender, 0, NULL) == J1939_NULL);
    EXPECT(j1939_sender_on(&sender, NULL) == J1939_NULL);
    EXPECT(j1939_sender_state(NULL, &byte) == J1939_NULL);
    EXPECT(j1939_sender_close(NULL) == J1939_NULL);
    EXPECT(j1939_controller_new(NULL, &setup) == J1939_NULL);
    EXPECT(j1939_controller_new(&controller, NULL) == J1939_NULL);
    EXPECT(j1939_controller_new(&controller, &serving) == J1939_NULL);
    EXPECT(j1939_controller_new(&controller, &wanting) == J1939_NULL);
    EXPECT(j1939_controller_hear(&controller, NULL, 0) == J1939_NULL);
    EXPECT(j1939_controller_tick(NULL, 0) == J1939_NULL);
    EXPECT(j1939_controller_again(NULL, 0) == J1939_NULL);
    EXPECT(j1939_controller_renew(&controller, 6, 65262, 255, NULL, 8, &name) == J1939_NULL);
    EXPECT(j1939_controller_withdraw(NULL, 0) == J1939_NULL);
    EXPECT(j1939_controller_next_tick(&controller, NULL) == J1939_NULL);
    EXPECT(j1939_controller_take_frame(&controller, 0, NULL) == J1939_NULL);
    EXPECT(j1939_controller_peek_frame(NULL, 0, &out) == J1939_NULL);
    EXPECT(j1939_controller_claims_request(&controller, 0, 255, NULL) == J1939_NULL);
    EXPECT(j1939_controller_next_due(&controller, NULL) == J1939_NULL);
    EXPECT(j1939_controller_status(&controller, NULL) == J1939_NULL);
    EXPECT(j1939_controller_holder(&controller, 0, NULL) == J1939_NULL);
    EXPECT(j1939_controller_address_of(NULL, 0, &byte) == J1939_NULL);
    EXPECT(j1939_controller_send(&controller, 0, 6, 0, 255, NULL, 0, &name) == J1939_NULL);
    EXPECT(j1939_controller_send(&controller, 0, 6, 0, 255, payload, 0, NULL) == J1939_NULL);
    EXPECT(j1939_controller_send(&controller, 0, 7, 0, 255, NULL, 9, &name) == J1939_NULL);
    EXPECT(j1939_controller_send(&controller, 0, 7, 0, 0, payload, 9, NULL) == J1939_NULL);
    EXPECT(j1939_controller_ask(&controller, 0, 0, 0, NULL) == J1939_NULL);
    EXPECT(j1939_controller_take_ended(&controller, NULL) == J1939_NULL);
    EXPECT(j1939_controller_take_received(&controller, &message, NULL) == J1939_NULL);
    EXPECT(j1939_controller_take_received(&controller, NULL, &byte) == J1939_NULL);
    EXPECT(j1939_controller_missed(NULL, &name) == J1939_NULL);
    EXPECT(j1939_controller_take_request(NULL, &request) == J1939_NULL);
    EXPECT(j1939_controller_acknowledge(&controller, 0, NULL, J1939_ACK) == J1939_NULL);
    EXPECT(j1939_controller_take_news(NULL) == J1939_NULL);
    EXPECT(j1939_controller_free_address(&controller, NULL) == J1939_NULL);
    EXPECT(j1939_controller_move_to(NULL, 0) == J1939_NULL);
    EXPECT(j1939_controller_close(NULL) == J1939_NULL);
    EXPECT(j1939_answers_new(NULL, 1) == J1939_NULL);
    EXPECT(j1939_answers_at(&kept, NULL, 0, 1) == J1939_NULL);
    EXPECT(j1939_answers_take_request(&kept, NULL, 0, &request) == J1939_NULL);
    EXPECT(j1939_answers_take_request(&kept, &controller, 0, NULL) == J1939_NULL);
    EXPECT(j1939_answers_answer(&kept, NULL, payload, 1) == J1939_NULL);
    EXPECT(j1939_answers_answer(&kept, &request, NULL, 0) == J1939_NULL);
    EXPECT(j1939_answers_turn(NULL, &controller, 0) == J1939_NULL);
    EXPECT(j1939_answers_due_in(&kept, NULL) == J1939_NULL);
    EXPECT(j1939_answers_close(NULL) == J1939_NULL);
    EXPECT(j1939_outbox_new(NULL, 1) == J1939_NULL);
    EXPECT(j1939_outbox_at(&outbox, NULL, 0, 1) == J1939_NULL);
    EXPECT(j1939_outbox_send(&outbox, 0, 1, 6, 61184, NULL, 0, &name) == J1939_NULL);
    EXPECT(j1939_outbox_send(&outbox, 0, 1, 6, 61184, payload, 1, NULL) == J1939_NULL);
    EXPECT(j1939_outbox_ask(&outbox, 0, 1, 65260, NULL) == J1939_NULL);
    EXPECT(j1939_outbox_take_frame(&outbox, NULL, 0, &out) == J1939_NULL);
    EXPECT(j1939_outbox_take_frame(&outbox, &controller, 0, NULL) == J1939_NULL);
    EXPECT(j1939_outbox_take_settled(NULL, &settled) == J1939_NULL);
    EXPECT(j1939_outbox_take_settled(&outbox, NULL) == J1939_NULL);
    EXPECT(j1939_outbox_due_in(&outbox, NULL) == J1939_NULL);
    EXPECT(j1939_outbox_close(NULL) == J1939_NULL);
}

static void fields(void) {
    j1939_id_fields id = {0};
    j1939_name_fields parts;
    uint32_t raw = 7;
    uint64_t name = 7;
    EXPECT(j1939_id_split(0x0CF00400, &id) == 0);
    EXPECT(id.priority == 3 && id.pgn == 61444 && id.source == 0 && id.destination == 255);
    EXPECT(j1939_id_compose(&id, &raw) == 0 && raw == 0x0CF00400);
    EXPECT(j1939_id_split(0x18EA0BF9, &id) == 0 && id.pgn == 0xEA00 && id.destination == 0x0B && id.source == 0xF9);
    EXPECT(j1939_id_split(1u << 29, &id) == J1939_BAD_VALUE && id.pgn == 0xEA00);
    id.pgn = 0xEA01;
    EXPECT(j1939_id_compose(&id, &raw) == J1939_BAD_VALUE && raw == 0x0CF00400);
    id.pgn = 1u << 18;
    EXPECT(j1939_id_compose(&id, &raw) == J1939_BAD_VALUE);
    id.pgn = 0xEA00, id.priority = 8;
    EXPECT(j1939_id_compose(&id, &raw) == J1939_BAD_VALUE);
    EXPECT(j1939_name_split(0x8000000001401234, &parts) == 0);
    EXPECT(parts.arbitrary == 1 && parts.manufacturer == 10 && parts.identity == 0x1234);
    EXPECT(j1939_name_compose(&parts, &name) == 0 && name == 0x8000000001401234);
    parts.manufacturer = 2048;
    EXPECT(j1939_name_compose(&parts, &name) == J1939_BAD_VALUE && name == 0x8000000001401234);
}

static void nodes(void) {
    static j1939_node node, before;
    uint8_t address;
    j1939_frame frame = {.micros = 1, .id = 0x18EEFF80, .len = 8};
    EXPECT(j1939_node_init(&node, 1, 254) == J1939_BAD_VALUE);
    EXPECT(j1939_node_init(&node, 1, 128) == 0);
    EXPECT(j1939_node_status(&node, &address) == J1939_IDLE && address == 254);
    EXPECT(j1939_node_start(&node, LATE, &out) == J1939_BAD_VALUE);
    EXPECT(j1939_node_start(&node, 1000000, &out) == 1 && out.id == 0x18EEFF80 && out.len == 8 && out.data[0] == 1);
    EXPECT(j1939_node_start(&node, 1000000, &out) == 0);
    EXPECT(j1939_node_tick(&node, 1249999) == 0);
    EXPECT(j1939_node_tick(&node, 3) == 0); /* a time that goes back counts as none */
    EXPECT(j1939_node_status(&node, &address) == J1939_CLAIMING && address == 128);
    EXPECT(j1939_node_tick(&node, 1250000) == 0);
    EXPECT(j1939_node_tick(&node, LATE) == J1939_BAD_VALUE);
    EXPECT(j1939_node_status(&node, &address) == J1939_HOLDING && address == 128);
    EXPECT(j1939_node_commanded(&node, 1, 7, 2000000, &out) == 1 && out.id == 0x18EEFF07);
    EXPECT(j1939_node_commanded(&node, 2, 9, 2000000, &out) == 0);
    EXPECT(j1939_node_commanded(&node, 1, 9, LATE, &out) == J1939_BAD_VALUE);
    before = node;
    frame.len = 9;
    EXPECT(j1939_node_on(&node, &frame, &out) == J1939_BAD_VALUE);
    frame.len = 8, frame.id = 1u << 29;
    EXPECT(j1939_node_on(&node, &frame, &out) == J1939_BAD_VALUE);
    frame.id = 0x18EEFF07, frame.micros = LATE;
    EXPECT(j1939_node_on(&node, &frame, &out) == J1939_BAD_VALUE);
    EXPECT(memcmp(&node, &before, sizeof node) == 0);
    frame.micros = 3000000; /* NAME 0 wins; NAME 1 can claim no other; the frame that is read is written */
    EXPECT(j1939_node_on(&node, &frame, &frame) == 1 && frame.id == 0x18EEFFFE);
    EXPECT(j1939_node_status(&node, &address) == J1939_CANNOT && address == 254);
    memset(&node, 0xA5, sizeof node); /* any pattern of bits is a node */
    EXPECT(j1939_node_status(&node, &address) == J1939_CANNOT && address == 254);
}

static void claims(void) {
    static j1939_claims table;
    uint8_t changed[2] = {9, 9};
    uint64_t name = 5;
    j1939_frame frame = {.micros = 1, .id = 0x18EEFF80, .len = 8, .data = {1}};
    EXPECT(j1939_claims_init(&table) == 0);
    EXPECT(j1939_claims_holder(&table, 0x80, &name) == 0 && name == 5);
    EXPECT(j1939_claims_note(&table, &frame, changed) == 1 && changed[0] == 0x80);
    EXPECT(j1939_claims_holder(&table, 0x80, &name) == 1 && name == 1);
    frame.id = 0x18EEFF81;
    EXPECT(j1939_claims_note(&table, &frame, changed) == 2 && changed[0] == 0x80 && changed[1] == 0x81);
    EXPECT(j1939_claims_note(&table, &frame, changed) == 0);
    EXPECT(j1939_claims_holder(&table, 255, &name) == 0);
    frame.len = 9;
    EXPECT(j1939_claims_note(&table, &frame, changed) == J1939_BAD_VALUE);
}

static const j1939_frame bam = {
    .micros = 5, .id = 0x1CECFF80, .len = 8, .data = {0x20, 20, 0, 3, 0xFF, 0xEC, 0xFE, 0}};

static j1939_frame packet(uint8_t k) {
    j1939_frame frame = {
        .micros = 5 + 50000u * k, .id = 0x1CEBFF80, .len = 8, .data = {k, 'A', 'B', 'C', 'D', 'E', 'F', 'G'}};
    return frame;
}

/* Groups of one's own, heard in one frame where the caller says so. */
static void own_groups(void) {
    j1939_listener listener = J1939_EMPTY;
    const j1939_frame claim = {.micros = 1, .id = 0x18EEFF80, .len = 8, .data = {1}};
    EXPECT(j1939_listener_feed_as(&listener, 1, &claim, &message) == J1939_NO_PART);
    EXPECT(j1939_listener_new(&listener) == 0);
    j1939_frame own = {.micros = 6, .id = 0x18FF1203, .len = 2, .data = {7, 8}}; /* proprietary B, which no table has */
    EXPECT(j1939_listener_feed(&listener, &own, &message) == 0 && j1939_listener_feed_as(&listener, 0, &own, &message) == 0);
    EXPECT(j1939_listener_feed_as(&listener, 1, &own, &message) == 1 && message.pgn == 0xFF12 && message.len == 2);
    EXPECT(j1939_listener_feed_as(&listener, 255, &own, &message) == 1 && message.data[1] == 8 && !message.is_named);
    own.id = 0x0CF00403, own.len = 8; /* a group of the built-in table, though it says that it isn't heard */
    EXPECT(j1939_listener_feed_as(&listener, 0, &own, &message) == 0 && j1939_listener_feed(&listener, &own, &message) == 1);
    EXPECT(j1939_listener_feed_as(&listener, 1, &claim, &message) == 0); /* a claim */
    own.id = 0x18EAFF03, own.len = 3; /* a request */
    EXPECT(j1939_listener_feed_as(&listener, 1, &own, &message) == 1 && message.is_addressed && message.destination == 255);
    own.len = 9;
    EXPECT(j1939_listener_feed_as(&listener, 1, &own, &message) == J1939_BAD_VALUE);
    own.len = 8, own.id = bam.id | 1; /* another source's */
    memcpy(own.data, bam.data, 8);
    allowed = 0;
    EXPECT(j1939_listener_feed_as(&listener, 1, &own, &message) == J1939_NO_MEMORY);
    allowed = -1;
    EXPECT(j1939_listener_close(&listener) == 0);
}

static void listeners(void) {
    j1939_listener listener = J1939_EMPTY;
    j1939_receiver foreign = J1939_EMPTY;
    j1939_frame frame = {.micros = 1, .id = 0x18EEFF80, .len = 8, .data = {1, 1, 1, 1, 1, 1, 1, 1}};
    uint64_t name = 0;
    EXPECT(j1939_listener_feed(&listener, &frame, &message) == J1939_NO_PART);
    EXPECT(j1939_listener_holder(&listener, 0, &name) == J1939_NO_PART);
    for (long granted = 0; granted < 2; granted++) {
        allowed = granted;
        EXPECT(j1939_listener_new(&listener) == J1939_NO_MEMORY && !listener.handle.part);
    }
    allowed = -1;
    EXPECT(j1939_receiver_new(&foreign, 3) == 0);
    EXPECT(j1939_listener_feed((j1939_listener *)&foreign, &frame, &message) == J1939_NO_PART);
    EXPECT(j1939_listener_new((j1939_listener *)&foreign) == J1939_IN_USE);
    EXPECT(j1939_listener_new(&listener) == 0);
    EXPECT(j1939_listener_new(&listener) == J1939_IN_USE);
    EXPECT(j1939_listener_feed(&listener, &frame, &message) == 0);
    EXPECT(j1939_listener_holder(&listener, 0x80, &name) == 1 && name == 0x0101010101010101);
    EXPECT(j1939_listener_holder(&listener, 255, &name) == 0);
    allowed = 0; /* at an announcement, after which the frame may be fed again */
    EXPECT(j1939_listener_feed(&listener, &bam, &message) == J1939_NO_MEMORY);
    allowed = -1;
    j1939_frame to_all = bam; /* a group of PF 239 is sent where its packets are, here to all */
    to_all.data[5] = 0x00, to_all.data[6] = 0xEF;
    EXPECT(j1939_listener_feed(&listener, &to_all, &message) == 0);
    for (uint8_t k = 1; k <= 3; k++) {
        j1939_frame next = packet(k);
        EXPECT(j1939_listener_feed(&listener, &next, &message) == (k == 3));
    }
    EXPECT(message.pgn == 0xEF00 && message.is_addressed && message.destination == 255);
    EXPECT(j1939_listener_feed(&listener, &bam, &message) == 0);
    for (uint8_t k = 1; k <= 3; k++) {
        j1939_frame next = packet(k);
        EXPECT(j1939_listener_feed(&listener, &next, &message) == (k == 3));
    }
    EXPECT(message.len == 20 && message.pgn == 65260 && message.is_named && message.source == 0x80);
    EXPECT(!message.is_addressed); /* a group of PF 254 has no destination */
    EXPECT(j1939_listener_feed(&listener, &bam, &message) == 0);
    EXPECT(j1939_listener_close(&listener) == 0); /* with a message open */
    EXPECT(j1939_listener_close(&listener) == 0);
    EXPECT(j1939_listener_feed(&listener, &bam, &message) == J1939_NO_PART);
    EXPECT(j1939_receiver_close(&foreign) == 0);
}

static void assemblers(void) {
    j1939_assembler assembler = J1939_EMPTY;
    j1939_listener foreign = J1939_EMPTY;
    j1939_frame late = {.micros = LATE};
    EXPECT(j1939_assembler_feed(&assembler, &bam, &message) == J1939_NO_PART);
    EXPECT(j1939_assembler_forget(&assembler, 0x80) == J1939_NO_PART);
    for (long granted = 0; granted < 2; granted++) {
        allowed = granted;
        EXPECT(j1939_assembler_new(&assembler) == J1939_NO_MEMORY && !assembler.handle.part);
    }
    allowed = -1;
    EXPECT(j1939_assembler_new(&assembler) == 0);
    EXPECT(j1939_assembler_new(&assembler) == J1939_IN_USE);
    EXPECT(j1939_assembler_feed(&assembler, &late, &message) == J1939_BAD_VALUE);
    allowed = 0; /* at an announcement, after which the frame may be fed again */
    EXPECT(j1939_assembler_feed(&assembler, &bam, &message) == J1939_NO_MEMORY);
    allowed = -1;
    EXPECT(j1939_assembler_feed(&assembler, &bam, &message) == 0);
    EXPECT(j1939_assembler_forget(&assembler, 0x80) == 0);
    for (int again = 0; again < 2; again++) {
        for (uint8_t k = 1; k <= 3; k++) { /* first of the message that was forgotten, and then of a new one */
            j1939_frame next = packet(k);
            EXPECT(j1939_assembler_feed(&assembler, &next, &message) == (again && k == 3));
        }
        EXPECT(j1939_assembler_feed(&assembler, &bam, &message) == 0);
    }
    EXPECT(message.len == 20 && message.pgn == 65260 && !message.is_named && message.source == 0x80);
    EXPECT(j1939_listener_new(&foreign) == 0);
    EXPECT(j1939_assembler_feed((j1939_assembler *)&foreign, &bam, &message) == J1939_NO_PART);
    EXPECT(j1939_assembler_forget((j1939_assembler *)&foreign, 0) == J1939_NO_PART);
    EXPECT(j1939_assembler_close(&assembler) == 0 && j1939_listener_close(&foreign) == 0); /* with a message open */
    EXPECT(j1939_assembler_close(&assembler) == 0);
}

/* The lines of EEC1 as j1939 report prints them. */
static void report_lines(void) {
    static const char of_name[] = "(0000000012.000034) 0B 8000000001400001 61444 190 1500.000 rpm\n";
    static const char of_none[] = "(0000000012.000034) 0B ---------------- 61444 190 1500.000 rpm\n";
    char text[80];
    message.micros = 12000034, message.source = 0x0B, message.is_named = 1, message.name = 0x8000000001400001;
    EXPECT(j1939_report_line(&message, 0, text, sizeof text) == sizeof of_name - 1);
    EXPECT(memcmp(text, of_name, sizeof of_name - 1) == 0);
    message.is_named = 0;
    EXPECT(j1939_report_line(&message, 0, text, sizeof of_none - 1) == sizeof of_none - 1);
    EXPECT(memcmp(text, of_none, sizeof of_none - 1) == 0);
    EXPECT(j1939_report_line(&message, 0, text, sizeof of_none - 2) == J1939_NO_ROOM);
    EXPECT(j1939_report_line(&message, 100, text, sizeof text) == J1939_END);
    allowed = 0;
    EXPECT(j1939_report_line(&message, 0, text, sizeof text) == J1939_NO_MEMORY);
    allowed = -1;
    message.micros = LATE;
    EXPECT(j1939_report_line(&message, 0, text, sizeof text) == J1939_BAD_VALUE);
    message.micros = 0, message.pgn = 1u << 18;
    EXPECT(j1939_report_line(&message, 0, text, sizeof text) == J1939_BAD_VALUE);
    message.pgn = 61444;
}

/* A table of two groups of one's own, the second of them EEC1's: a number of two bytes, each worth 0.5 with an offset of -10, and a
 * text. */
static const char own_rows[] = "# mine\r\n"
                               "65280 MINE 520200 1-2 0.5 -10.0 degC coolant of mine\n"
                               "\n"
                               "61444 EEC1 520201 4-5 1 0 a.long.unit speed of mine\n"
                               "65280 MINE 520202 *1 - - - words of mine";

static void own_table(void) {
    static const char line[] = "(0000000000.000000) 0B ---------------- 65280 520200 118.5 degC\n";
    static j1939_message mine = {.pgn = 65280, .len = 8, .source = 0x0B, .data = {0x01, 0x01, 'A', 'B', '*', 0, 0, 0}};
    j1939_table table = {NULL, 0};
    j1939_wrong wrong = {7, 7};
    j1939_reading reading = {.spn = 5};
    char text[80];
    EXPECT(j1939_read_by(&table, &mine, 0, &reading) == J1939_NULL);
    EXPECT(j1939_table_init(NULL, own_rows, 1, &wrong) == J1939_NULL && j1939_table_init(&table, NULL, 1, &wrong) == J1939_NULL);
    EXPECT(j1939_table_init(&table, "65280 MINE 520200 1-2 half 0 - name", 35, &wrong) == J1939_BAD_VALUE);
    EXPECT(wrong.line == 1 && wrong.column == 5 && !table.text);
    EXPECT(j1939_table_init(&table, "#\n\n61444 EEC1 x", 16, &wrong) == J1939_BAD_VALUE && wrong.line == 3 && wrong.column == 3);
    wrong.line = 7;
    EXPECT(j1939_table_init(&table, own_rows, sizeof own_rows - 1, &wrong) == 0 && wrong.line == 7 && table.text == own_rows);
    /* 257 steps of 0.5 above -10 (J1939-71) */
    EXPECT(j1939_read_by(&table, &mine, 0, &reading) == 0 && reading.spn == 520200 && reading.kind == J1939_NUMBER);
    EXPECT(reading.number == 1185 && reading.places == 1 && strcmp(reading.unit, "degC") == 0);
    EXPECT(j1939_report_line_by(&table, &mine, 0, text, sizeof text) == sizeof line - 1 && memcmp(text, line, sizeof line - 1) == 0);
    EXPECT(j1939_read_text_by(&table, &mine, 0, text, sizeof text) == 10 && memcmp(text, "118.5 degC", 10) == 0);
    EXPECT(j1939_read_by(&table, &mine, 1, &reading) == 0 && reading.spn == 520202 && reading.kind == J1939_TEXT);
    EXPECT(j1939_read_by(&table, &mine, 2, &reading) == J1939_END && j1939_read_text_by(&table, &mine, 2, text, 80) == J1939_END);
    allowed = 0;
    EXPECT(j1939_read_text_by(&table, &mine, 0, text, sizeof text) == J1939_NO_MEMORY && j1939_read_by(&table, &mine, 0, &reading) == 0);
    allowed = -1;
    mine.pgn = 61444;
    EXPECT(j1939_read_by(&table, &mine, 0, &reading) == J1939_NO_ROOM && reading.spn == 520200);
    EXPECT(j1939_read_text_by(&table, &mine, 0, text, sizeof text) > 0);
    mine.pgn = 65262;
    EXPECT(j1939_read_by(&table, &mine, 0, &reading) == J1939_END);
    mine.len = 1786;
    EXPECT(j1939_read_by(&table, &mine, 0, &reading) == J1939_BAD_VALUE);
    EXPECT(j1939_report_line_by(&table, &mine, 0, text, 80) == J1939_BAD_VALUE);
}

static void readings(void) {
    j1939_reading reading;
    char text[64];
    uint32_t raw = 5;
    EXPECT(j1939_read(&message, 0, &reading) == 0 && reading.spn == 237 && reading.kind == J1939_TEXT);
    int32_t size = j1939_read_text(&message, 0, text, sizeof text);
    EXPECT(size == 22 && text[0] == '"' && text[21] == '"');
    EXPECT(j1939_read_text(&message, 0, text, (size_t)size - 1) == J1939_NO_ROOM);
    EXPECT(j1939_read_text(&message, 0, text, 0) == J1939_NO_ROOM);
    EXPECT(j1939_read_text(&message, 1, text, sizeof text) == J1939_END);
    EXPECT(j1939_read(&message, 1, &reading) == J1939_END);
    allowed = 0;
    EXPECT(j1939_read_text(&message, 0, text, sizeof text) == J1939_NO_MEMORY);
    allowed = -1;
    message.len = 1786;
    EXPECT(j1939_read(&message, 0, &reading) == J1939_BAD_VALUE);
    EXPECT(j1939_read_text(&message, 0, text, sizeof text) == J1939_BAD_VALUE);
    message.len = 8, message.pgn = 1u << 18;
    EXPECT(j1939_read(&message, 0, &reading) == J1939_BAD_VALUE);
    message.pgn = 61444;
    const uint8_t engine[8] = {0xFF, 0xFF, 0xFF, 0xE0, 0x2E, 0xFF, 0xFF, 0xFF};
    memcpy(message.data, engine, 8);
    EXPECT(j1939_read(&message, 0, &reading) == 0 && reading.spn == 190 && reading.kind == J1939_NUMBER);
    EXPECT(reading.number == 1500000 && reading.places == 3 && strcmp(reading.unit, "rpm") == 0);
    report_lines();
    own_table();
    EXPECT(j1939_raw_of(190, 1500000, &raw) == 1 && raw == 12000);
    EXPECT(j1939_raw_of(190, 1, &raw) == 0 && raw == 12000);
}

/* A DM1 of two codes, of conversion method 0 and 1: amber is on and flashes fast (J1939-73, 5.7.1). */
static void faults(void) {
    const uint8_t codes[] = {0x04, 0xF7, 110, 0, 0xE0 | 3, 5, 0x12, 0x34, 0x5F, 0xFF};
    j1939_fault fault;
    j1939_lamps lamps;
    message.pgn = 65226, message.len = sizeof codes;
    memcpy(message.data, codes, sizeof codes);
    EXPECT(j1939_fault_at(&message, 0, &fault) == 0 && fault.spn == 7 * 65536 + 110 && fault.fmi == 3 && fault.count == 5);
    EXPECT(fault.conversion == 0 && fault.version_1 == fault.spn && fault.version_2 == fault.spn);
    EXPECT(j1939_fault_at(&message, 1, &fault) == 0 && fault.fmi == 31 && fault.count == 127 && fault.conversion == 1);
    EXPECT(fault.version_1 == 0x12 * 2048 + 0x34 * 8 + 2 && fault.version_2 == 0x34 * 2048 + 0x12 * 8 + 2);
    EXPECT(fault.spn == 2 * 65536 + 0x3412);
    EXPECT(j1939_fault_at(&message, 2, &fault) == J1939_END);
    EXPECT(j1939_lamps_of(&message, &lamps) == 0);
    EXPECT(lamps.amber.state == J1939_LAMP_ON && lamps.amber.flash == J1939_FLASH_FAST);
    EXPECT(lamps.red.state == J1939_LAMP_OFF && lamps.red.flash == J1939_FLASH_STEADY);
    message.len = 1;
    EXPECT(j1939_lamps_of(&message, &lamps) == J1939_END);
    message.len = sizeof codes, message.pgn = 65228;
    EXPECT(j1939_fault_at(&message, 0, &fault) == J1939_END && j1939_lamps_of(&message, &lamps) == J1939_END);
    message.pgn = 1u << 18;
    EXPECT(j1939_fault_at(&message, 0, &fault) == J1939_BAD_VALUE);
    EXPECT(j1939_lamps_of(&message, &lamps) == J1939_BAD_VALUE);
}

/* What is written out is read back; a message that can't be told is refused. */
static void faults_told(void) {
    static j1939_fault many[65], back;
    static uint8_t bytes[300];
    const uint8_t one[8] = {0x04, 0xF7, 110, 0, 0xE0 | 3, 5, 0xFF, 0xFF}, none[8] = {0x04, 0xF7, 0, 0, 0, 0, 0xFF, 0xFF};
    j1939_fault fault = {.spn = 7 * 65536 + 110, .fmi = 3, .count = 5};
    j1939_lamps lamps = {{0, 3}, {0, 3}, {1, 1}, {0, 3}}, told;
    EXPECT(j1939_faults_message(&lamps, &fault, 1, bytes, sizeof bytes) == 8 && memcmp(bytes, one, 8) == 0);
    EXPECT(j1939_faults_message(&lamps, &fault, 0, bytes, 8) == 8 && memcmp(bytes, none, 8) == 0);
    EXPECT(j1939_faults_message(&lamps, &fault, 1, bytes, 7) == J1939_NO_ROOM);
    for (uint8_t i = 0; i < 65; i++) many[i] = (j1939_fault){.spn = 8192u * i + i, .fmi = i % 32, .count = (uint8_t)(127 - i)};
    many[0].spn = 0, many[0].fmi = 31;
    EXPECT(j1939_faults_message(&lamps, many, J1939_MOST_FAULTS, bytes, sizeof bytes) == 2 + 4 * J1939_MOST_FAULTS);
    message.pgn = 65227, message.len = 2 + 4 * J1939_MOST_FAULTS;
    memcpy(message.data, bytes, message.len);
    for (uint8_t i = 0; i < J1939_MOST_FAULTS; i++) {
        EXPECT(j1939_fault_at(&message, i, &back) == 0 && back.spn == many[i].spn && back.fmi == many[i].fmi);
        EXPECT(back.count == many[i].count && back.conversion == 0);
    }
    EXPECT(j1939_fault_at(&message, J1939_MOST_FAULTS, &back) == J1939_END);
    EXPECT(j1939_lamps_of(&message, &told) == 0 && memcmp(&told, &lamps, sizeof told) == 0);
    EXPECT(j1939_faults_message(&lamps, many, 65, bytes, sizeof bytes) == J1939_BAD_VALUE);
    const j1939_fault bad[] = {{.spn = 1u << 19}, {.spn = 1, .fmi = 32}, {.spn = 1, .count = 128}, {0}, {.spn = 1, .conversion = 1}};
    for (size_t i = 0; i < sizeof bad / sizeof *bad; i++)
        EXPECT(j1939_faults_message(&lamps, &bad[i], 1, bytes, sizeof bytes) == J1939_BAD_VALUE);
    lamps.protect.state = 4;
    EXPECT(j1939_faults_message(&lamps, &fault, 1, bytes, sizeof bytes) == J1939_BAD_VALUE);
    lamps.protect.state = 0, lamps.malfunction.flash = 4;
    EXPECT(j1939_faults_message(&lamps, &fault, 1, bytes, sizeof bytes) == J1939_BAD_VALUE);
}

static void names(void) {
    char text[80];
    EXPECT(j1939_failure_name(31, text, 16) == 16 && memcmp(text, "condition exists", 16) == 0);
    EXPECT(j1939_failure_name(31, text, 15) == J1939_NO_ROOM);
    EXPECT(j1939_failure_name(30, text, sizeof text) == 8 && memcmp(text, "reserved", 8) == 0);
    EXPECT(j1939_parameter_name(190, text, sizeof text) == 12 && memcmp(text, "engine speed", 12) == 0);
    EXPECT(j1939_parameter_name(190, text, 11) == J1939_NO_ROOM);
    EXPECT(j1939_parameter_name(0xFFFFFFFF, text, sizeof text) == J1939_END);
    EXPECT(j1939_group_name(61444, text, 4) == 4 && memcmp(text, "EEC1", 4) == 0);
    EXPECT(j1939_function_name(0, text, sizeof text) == 6 && memcmp(text, "engine", 6) == 0);
    EXPECT(j1939_function_name(128, text, sizeof text) == J1939_END);
    EXPECT(j1939_maker_name(10, text, sizeof text) == 7 && memcmp(text, "Cummins", 7) == 0);
    EXPECT(j1939_maker_name(0xFFFF, text, sizeof text) == J1939_END);
}

static void transfers(void) {
    j1939_receiver receiver = J1939_EMPTY;
    j1939_sender sender = J1939_EMPTY;
    j1939_frame frame = {.micros = LATE};
    uint8_t reason = 9;
    EXPECT(j1939_receiver_tick(&receiver, 0, &out) == J1939_NO_PART);
    EXPECT(j1939_receiver_new(&receiver, 254) == J1939_BAD_VALUE);
    for (long granted = 0; granted < 3; granted++) {
        allowed = granted;
        EXPECT(j1939_receiver_new(&receiver, 3) == J1939_NO_MEMORY && !receiver.handle.part);
        allowed = granted;
        EXPECT(j1939_sender_new(&sender, 1, 3, 65260, payload, 20) == J1939_NO_MEMORY && !sender.handle.part);
    }
    allowed = -1;
    EXPECT(j1939_receiver_new(&receiver, 3) == 0);
    EXPECT(j1939_receiver_new(&receiver, 3) == J1939_IN_USE);
    EXPECT(j1939_receiver_on(&receiver, &frame, &out, &message) == J1939_BAD_VALUE);
    EXPECT(j1939_receiver_tick(&receiver, LATE, &out) == J1939_BAD_VALUE);
    EXPECT(j1939_receiver_busy(&receiver) == 0);
    EXPECT(j1939_sender_tick((j1939_sender *)&receiver, 0, &out) == J1939_NO_PART);
    EXPECT(j1939_sender_new(&sender, 1, 3, 65260, payload, 8) == J1939_BAD_VALUE);
    EXPECT(j1939_sender_new(&sender, 1, 3, 65260, payload, 1786) == J1939_BAD_VALUE);
    EXPECT(j1939_sender_new(&sender, 254, 3, 65260, payload, 20) == J1939_BAD_VALUE);
    EXPECT(j1939_sender_new(&sender, 1, 254, 65260, payload, 20) == J1939_BAD_VALUE);
    EXPECT(j1939_sender_new(&sender, 1, 3, 1u << 18, payload, 20) == J1939_BAD_VALUE);
    EXPECT(j1939_sender_new(&sender, 1, 3, 65260, payload, 20) == 0);
    EXPECT(j1939_sender_new(&sender, 1, 3, 65260, payload, 20) == J1939_IN_USE);
    EXPECT(j1939_sender_state(&sender, &reason) == J1939_SEND_IDLE && reason == 9);
    EXPECT(j1939_sender_on(&sender, &frame) == J1939_BAD_VALUE);
    EXPECT(j1939_sender_tick(&sender, LATE, &out) == J1939_BAD_VALUE);
    EXPECT(j1939_sender_tick(&sender, 0, &out) == 1 && out.id == 0x1CEC0301 && out.data[0] == 0x10);
    EXPECT(j1939_receiver_on(&receiver, &out, &out, &message) == 1 && out.data[0] == 0x11);
    EXPECT(j1939_receiver_busy(&receiver) == 1);
    EXPECT(j1939_sender_tick(&sender, 1250001, &out) == 1 && out.data[0] == 0xFF);
    EXPECT(j1939_sender_state(&sender, &reason) == J1939_SEND_FAILED && reason == 3);
    EXPECT(j1939_cut_frame(1, 65260, payload, 8, 0, 0, &out) == J1939_BAD_VALUE);
    EXPECT(j1939_cut_frame(254, 65260, payload, 9, 0, 0, &out) == J1939_BAD_VALUE);
    EXPECT(j1939_cut_frame(1, 65260, payload, 9, 0, LATE, &out) == J1939_BAD_VALUE);
    EXPECT(j1939_cut_frame(1, 65260, payload, 9, 2, 7, &out) == 1 && out.micros == 7 && out.data[3] == 0xFF);
    EXPECT(j1939_cut_frame(1, 65260, payload, 9, 3, 7, &out) == 0);
    EXPECT(j1939_sender_close(&sender) == 0 && j1939_receiver_close(&receiver) == 0);
}

/* Nine bytes take an announcement and two packets, 50 ms apart or more. */
static void broadcasts(void) {
    j1939_broadcast broadcast = {.due = LATE, .count = 7};
    uint64_t due = 9;
    EXPECT(j1939_broadcast_init(&broadcast) == 0);
    EXPECT(j1939_broadcast_poll(&broadcast, 1, 65260, payload, 8, 5, &out, &due) == J1939_BAD_VALUE);
    EXPECT(j1939_broadcast_poll(&broadcast, 1, 65260, payload, 1786, 5, &out, &due) == J1939_BAD_VALUE);
    EXPECT(j1939_broadcast_poll(&broadcast, 254, 65260, payload, 9, 5, &out, &due) == J1939_BAD_VALUE);
    EXPECT(j1939_broadcast_poll(&broadcast, 1, 1u << 18, payload, 9, 5, &out, &due) == J1939_BAD_VALUE);
    EXPECT(j1939_broadcast_poll(&broadcast, 1, 65260, payload, 9, LATE, &out, &due) == J1939_BAD_VALUE);
    EXPECT(broadcast.count == 0 && due == 9);
    EXPECT(j1939_broadcast_poll(&broadcast, 1, 65260, payload, 9, 5, &out, &due) == 1);
    EXPECT(out.micros == 5 && out.id == 0x1CECFF01 && out.data[0] == 0x20);
    EXPECT(j1939_broadcast_poll(&broadcast, 1, 65260, payload, 9, 50004, &out, &due) == 0 && due == 50005);
    EXPECT(j1939_broadcast_poll(&broadcast, 1, 65260, payload, 9, 50005, &out, &due) == 1 && out.data[0] == 1);
    EXPECT(j1939_broadcast_poll(&broadcast, 1, 65260, payload, 9, 200000, &out, &due) == 1 && out.data[0] == 2);
    EXPECT(j1939_broadcast_poll(&broadcast, 1, 65260, payload, 9, 200000, &out, &due) == 2);
    broadcast.count = UINT16_MAX;
    EXPECT(j1939_broadcast_poll(&broadcast, 1, 65260, payload, 9, 900000, &out, &due) == 2);
}

/* Each call on a handle that holds no controller. */
static void no_controller(j1939_controller *controller) {
    j1939_request request = {.pgn = 65260, .source = 3, .destination = 0x80};
    j1939_ended ended;
    uint64_t number;
    uint8_t byte;
    EXPECT(j1939_controller_hear(controller, &bam, bam.micros) == J1939_NO_PART);
    EXPECT(j1939_controller_tick(controller, 0) == J1939_NO_PART);
    EXPECT(j1939_controller_again(controller, 0) == J1939_NO_PART);
    EXPECT(j1939_controller_renew(controller, 6, 65262, 255, payload, 8, &number) == J1939_NO_PART);
    EXPECT(j1939_controller_withdraw(controller, 0) == J1939_NO_PART);
    EXPECT(j1939_controller_next_tick(controller, &number) == J1939_NO_PART);
    EXPECT(j1939_controller_take_frame(controller, 0, &out) == J1939_NO_PART);
    EXPECT(j1939_controller_peek_frame(controller, 0, &out) == J1939_NO_PART);
    EXPECT(j1939_controller_claims_request(controller, 0, 255, &out) == J1939_NO_PART);
    EXPECT(j1939_controller_next_due(controller, &number) == J1939_NO_PART);
    EXPECT(j1939_controller_status(controller, &byte) == J1939_NO_PART);
    EXPECT(j1939_controller_holder(controller, 0x80, &number) == J1939_NO_PART);
    EXPECT(j1939_controller_address_of(controller, 1, &byte) == J1939_NO_PART);
    EXPECT(j1939_controller_send(controller, 0, 6, 65262, 255, payload, 8, &number) == J1939_NO_PART);
    EXPECT(j1939_controller_send(controller, 0, 7, 65260, 255, payload, 9, &number) == J1939_NO_PART);
    EXPECT(j1939_controller_send(controller, 0, 7, 65260, 3, payload, 9, &number) == J1939_NO_PART);
    EXPECT(j1939_controller_ask(controller, 0, 65260, 3, &number) == J1939_NO_PART);
    EXPECT(j1939_controller_take_ended(controller, &ended) == J1939_NO_PART);
    EXPECT(j1939_controller_take_received(controller, &message, &byte) == J1939_NO_PART);
    EXPECT(j1939_controller_missed(controller, &number) == J1939_NO_PART);
    EXPECT(j1939_controller_take_request(controller, &request) == J1939_NO_PART);
    EXPECT(j1939_controller_acknowledge(controller, 0, &request, J1939_ACK) == J1939_NO_PART);
    EXPECT(j1939_controller_take_news(controller) == J1939_NO_PART);
    EXPECT(j1939_controller_free_address(controller, &byte) == J1939_NO_PART);
    EXPECT(j1939_controller_move_to(controller, 3) == J1939_NO_PART);
}

/* Numbers out of range, whatever the handle holds. */
static void controller_in_range(j1939_controller *controller) {
    j1939_frame late = {.micros = LATE}, long_one = {.len = 9};
    j1939_request request = {.pgn = 65260, .source = 3, .destination = 0x80};
    j1939_request no_group = {.pgn = 1u << 18, .source = 3, .destination = 0x80};
    uint64_t token = 9;
    EXPECT(j1939_controller_hear(controller, &late, late.micros) == J1939_BAD_VALUE);
    EXPECT(j1939_controller_hear(controller, &long_one, long_one.micros) == J1939_BAD_VALUE);
    EXPECT(j1939_controller_tick(controller, LATE) == J1939_BAD_VALUE);
    EXPECT(j1939_controller_again(controller, LATE) == J1939_BAD_VALUE);
    EXPECT(j1939_controller_renew(controller, 6, 1u << 18, 255, payload, 8, &token) == J1939_BAD_VALUE);
    EXPECT(j1939_controller_take_frame(controller, LATE, &out) == J1939_BAD_VALUE);
    EXPECT(j1939_controller_peek_frame(controller, LATE, &out) == J1939_BAD_VALUE);
    EXPECT(j1939_controller_claims_request(controller, LATE, 255, &out) == J1939_BAD_VALUE);
    EXPECT(j1939_controller_send(controller, LATE, 6, 65262, 255, payload, 8, &token) == J1939_BAD_VALUE);
    EXPECT(j1939_controller_send(controller, 0, 6, 1u << 18, 255, payload, 8, &token) == J1939_BAD_VALUE);
    EXPECT(j1939_controller_send(controller, LATE, 7, 65260, 255, payload, 9, &token) == J1939_BAD_VALUE);
    EXPECT(j1939_controller_send(controller, 0, 7, 1u << 18, 255, payload, 9, &token) == J1939_BAD_VALUE);
    EXPECT(j1939_controller_send(controller, LATE, 7, 65260, 3, payload, 9, &token) == J1939_BAD_VALUE);
    EXPECT(j1939_controller_send(controller, 0, 7, 1u << 18, 3, payload, 9, &token) == J1939_BAD_VALUE);
    EXPECT(j1939_controller_ask(controller, LATE, 65260, 3, &token) == J1939_BAD_VALUE);
    EXPECT(j1939_controller_ask(controller, 0, 1u << 18, 3, &token) == J1939_BAD_VALUE);
    EXPECT(j1939_controller_acknowledge(controller, LATE, &request, J1939_ACK) == J1939_BAD_VALUE);
    EXPECT(j1939_controller_acknowledge(controller, 0, &request, 4) == J1939_BAD_VALUE);
    EXPECT(j1939_controller_acknowledge(controller, 0, &no_group, J1939_ACK) == J1939_BAD_VALUE);
    EXPECT(token == 9);
}

/* The frame that goes out at a moment. */
static uint32_t taken(j1939_controller *controller, uint64_t now) {
    j1939_frame seen;
    int32_t peeked = j1939_controller_peek_frame(controller, now, &seen);
    EXPECT(j1939_controller_take_frame(controller, now, &out) == peeked);
    if (!peeked) return 0;
    EXPECT(peeked == 1 && out.micros == now && seen.id == out.id && seen.len == out.len);
    EXPECT(memcmp(seen.data, out.data, out.len) == 0);
    return out.id;
}

/* It claims address 80 at one second, and holds it 250 ms later. */
static void claim_of(j1939_controller *controller) {
    uint64_t due = 9, token = 9;
    uint8_t own = 9;
    EXPECT(j1939_controller_status(controller, &own) == J1939_IDLE && own == 254);
    EXPECT(j1939_controller_next_due(controller, &due) == 1 && due == 0);
    EXPECT(taken(controller, 1000000) == 0x18EEFF80 && taken(controller, 1000000) == 0);
    EXPECT(j1939_controller_status(controller, &own) == J1939_CLAIMING && own == 0x80);
    EXPECT(j1939_controller_claims_request(controller, 1000000, 255, &out) == 1 && out.id == 0x18EAFFFE);
    EXPECT(out.micros == 1000000 && out.len == 3 && !memcmp(out.data, "\x00\xEE", 3));
    EXPECT(j1939_controller_claims_request(controller, 1000000, 254, &out) == 0);
    EXPECT(j1939_controller_next_due(controller, &due) == 1 && due == 1250000);
    EXPECT(j1939_controller_send(controller, 1249999, 7, 65260, 255, payload, 9, &token) == J1939_NO_ADDRESS);
    EXPECT(j1939_controller_send(controller, 1249999, 7, 65260, 255, payload, 8, &token) == J1939_NO_ADDRESS);
    EXPECT(j1939_controller_holder(controller, 0x80, &token) == 1 && token == 1);
    EXPECT(j1939_controller_holder(controller, 0x81, &token) == 0 && token == 1);
    EXPECT(j1939_controller_address_of(controller, 1, &own) == 1 && own == 0x80);
    EXPECT(j1939_controller_address_of(controller, 2, &own) == 0);
    EXPECT(j1939_controller_tick(controller, 1250000) == 0);
    EXPECT(j1939_controller_status(controller, &own) == J1939_HOLDING && own == 0x80);
    EXPECT(j1939_controller_claims_request(controller, 1250000, 255, &out) == 0);
    EXPECT(j1939_controller_next_due(controller, &due) == 0 && due == 1250000);
    EXPECT(j1939_controller_next_tick(controller, &due) == 0);
}

/* The tokens of what goes in one frame, to all and to an address in packets. */
#define FRAME(k) (4 * (k))
#define BROADCAST(k) (4 * (k) + 1)
#define TRANSFER(k) (4 * (k) + 2)

/* What is sent: sixteen messages of one frame at most, and a broadcast of nine bytes takes three. */
static void messages_of(j1939_controller *controller) {
    j1939_ended ended;
    uint64_t token = 9;
    EXPECT(j1939_controller_send(controller, 1300000, 8, 65262, 255, payload, 8, &token) == J1939_BAD_VALUE);
    EXPECT(j1939_controller_send(controller, 1300000, 6, 60928, 255, payload, 8, &token) == J1939_BAD_VALUE);
    EXPECT(j1939_controller_send(controller, 1300000, 6, 0xEF00, 0x80, payload, 8, &token) == J1939_BAD_VALUE);
    for (uint64_t k = 0; k < 16; k++)
        EXPECT(j1939_controller_send(controller, 1300000, 6, 0xEF00, 3, payload, k % 9, &token) == 1 && token == FRAME(k));
    EXPECT(j1939_controller_send(controller, 1300000, 6, 65262, 255, payload, 8, &token) == J1939_FULL);
    EXPECT(j1939_controller_send(controller, 1300000, 8, 65262, 255, payload, 8, &token) == J1939_BAD_VALUE);
    EXPECT(j1939_controller_ask(controller, 1300000, 65260, 3, &token) == J1939_FULL && token == FRAME(15));
    EXPECT(j1939_controller_take_ended(controller, &ended) == 0);
    for (uint64_t k = 0; k < 16; k++) {
        EXPECT(taken(controller, 1300000) == 0x18EF0380 && out.len == k % 9);
        EXPECT(j1939_controller_take_ended(controller, &ended) == J1939_ENDED_MESSAGE);
        EXPECT(ended.token == FRAME(k) && ended.ending == J1939_ENDED_DONE && ended.detail == 0);
    }
    EXPECT(j1939_controller_send(controller, 1300000, 7, 65260, 255, payload, 1786, &token) == J1939_BAD_VALUE);
    EXPECT(j1939_controller_send(controller, 1300000, 7, 65260, 255, payload, 9, &token) == 1 && token == BROADCAST(0));
    EXPECT(j1939_controller_send(controller, 1300000, 7, 65260, 255, payload, 9, &token) == J1939_FULL);
    for (uint64_t k = 0; k < 3; k++) {
        EXPECT(taken(controller, 1300000 + k * 50000) == (k ? 0x1CEBFF80 : 0x1CECFF80));
        EXPECT(taken(controller, 1349999 + k * 50000) == 0);
    }
    EXPECT(j1939_controller_take_ended(controller, &ended) == J1939_ENDED_BROADCAST);
    EXPECT(ended.token == BROADCAST(0) && ended.ending == J1939_ENDED_DONE && j1939_controller_take_ended(controller, &ended) == 0);
}

/* A transfer to nobody fails for 3, and rests; a request that nobody answers ends, and one is refused. */
static void ends_of(j1939_controller *controller) {
    j1939_frame refusal = {
        .micros = 4500000, .id = 0x18E8FF03, .len = 8, .data = {2, 0xFF, 0xFF, 0xFF, 0x80, 0xEC, 0xFE, 0}};
    j1939_ended ended;
    uint64_t token, due;
    EXPECT(j1939_controller_send(controller, 1500000, 7, 65260, 254, payload, 9, &token) == J1939_BAD_VALUE);
    EXPECT(j1939_controller_send(controller, 1500000, 7, 65260, 3, payload, 9, &token) == 1 && token == TRANSFER(0));
    EXPECT(j1939_controller_send(controller, 1500000, 7, 65260, 4, payload, 9, &token) == J1939_FULL);
    EXPECT(taken(controller, 1500000) == 0x1CEC0380 && out.data[0] == 0x10);
    EXPECT(j1939_controller_next_due(controller, &due) == 1 && due == 2750001);
    EXPECT(taken(controller, 2750001) == 0x1CEC0380 && out.data[0] == 0xFF && out.data[1] == 3);
    EXPECT(j1939_controller_take_ended(controller, &ended) == J1939_ENDED_TRANSFER);
    EXPECT(ended.token == TRANSFER(0) && ended.ending == J1939_ENDED_FAILED && ended.detail == 3);
    EXPECT(j1939_controller_send(controller, 2750001, 7, 65260, 3, payload, 9, &token) == J1939_FULL); /* it rests */
    EXPECT(j1939_controller_ask(controller, 3000000, 65260, 3, &token) == 1 && token == FRAME(16));
    EXPECT(taken(controller, 3000000) == 0x18EA0380 && out.len == 3 && out.data[0] == 0xEC);
    EXPECT(j1939_controller_take_ended(controller, &ended) == J1939_ENDED_MESSAGE && ended.token == FRAME(16));
    EXPECT(j1939_controller_take_ended(controller, &ended) == 0);
    EXPECT(j1939_controller_tick(controller, 4250000) == 0);
    EXPECT(j1939_controller_take_ended(controller, &ended) == J1939_ENDED_REQUEST && ended.token == FRAME(16));
    EXPECT(ended.ending == J1939_ENDED_TIMED_OUT && ended.detail == 0);
    EXPECT(j1939_controller_ask(controller, 4500000, 65260, 3, &token) == 1 && token == FRAME(17));
    EXPECT(taken(controller, 4500000) == 0x18EA0380 && j1939_controller_hear(controller, &refusal, refusal.micros) == 0);
    EXPECT(j1939_controller_take_ended(controller, &ended) == J1939_ENDED_MESSAGE && ended.token == FRAME(17));
    EXPECT(j1939_controller_take_ended(controller, &ended) == J1939_ENDED_REQUEST && ended.token == FRAME(17));
    EXPECT(ended.ending == J1939_ENDED_ACKNOWLEDGED && ended.detail == J1939_DENIED);
}

/* It claims its address anew, and what was accepted waits till then, with the newest value. Another of its NAME is news. */
static void again_of(j1939_controller *controller) {
    static const uint8_t newest[8] = {1, 2, 3, 4, 5, 6, 7, 8};
    j1939_frame twin = {.micros = 5000000, .id = 0x18EEFF33, .len = 8, .data = {1}};
    j1939_ended ended;
    uint64_t token = 9;
    uint8_t own = 9;
    EXPECT(j1939_controller_hear(controller, &twin, twin.micros) == 0);
    EXPECT(j1939_controller_take_news(controller) == J1939_NEWS_DOUBLED + 0x33 && !j1939_controller_take_news(controller));
    EXPECT(j1939_controller_address_of(controller, 1, &own) == 1 && own == 0x80);
    EXPECT(j1939_controller_renew(controller, 6, 65262, 255, payload, 8, &token) == 0 && token == 9);
    EXPECT(j1939_controller_send(controller, 5000000, 6, 65262, 255, payload, 8, &token) == 1 && token == FRAME(18));
    EXPECT(j1939_controller_again(controller, 5000000) == 0 && taken(controller, 5000000) == 0x18EEFF80);
    EXPECT(j1939_controller_renew(controller, 5, 65262, 255, newest, 8, &token) == 0);
    EXPECT(j1939_controller_renew(controller, 6, 65262, 255, newest, 8, &token) == 1 && token == FRAME(18));
    EXPECT(taken(controller, 5249999) == 0 && taken(controller, 5250000) == 0x18FEEE80);
    EXPECT(!memcmp(out.data, newest, 8) && taken(controller, 5250000) == 0);
    EXPECT(j1939_controller_take_ended(controller, &ended) == J1939_ENDED_MESSAGE && ended.token == FRAME(18));
    EXPECT(ended.ending == J1939_ENDED_DONE && j1939_controller_take_ended(controller, &ended) == 0);
    EXPECT(j1939_controller_withdraw(controller, FRAME(18)) == 0 && j1939_controller_withdraw(controller, FRAME(19)) == 0);
    EXPECT(j1939_controller_send(controller, 5250000, 6, 65262, 255, payload, 8, &token) == 1 && token == FRAME(19));
    EXPECT(j1939_controller_withdraw(controller, BROADCAST(19)) == 0 && j1939_controller_withdraw(controller, FRAME(19)) == 1 &&
           j1939_controller_withdraw(controller, FRAME(19)) == 0);
    EXPECT(taken(controller, 5250000) == 0 && j1939_controller_take_ended(controller, &ended) == J1939_ENDED_MESSAGE);
    EXPECT(ended.token == FRAME(19) && ended.ending == J1939_ENDED_WITHDRAWN && j1939_controller_take_ended(controller, &ended) == 0);
}

/* What it hears: requests, and messages of one frame. */
static void hearing_of(j1939_controller *controller) {
    j1939_frame asks = {.micros = 7000000, .id = 0x18EA8081, .len = 3, .data = {0xEC, 0xFE, 0x00}};
    j1939_frame single = {.micros = 7000000, .id = 0x0CF00481, .len = 5, .data = {1, 2, 3, 4, 5}};
    j1939_request request;
    uint64_t count = 9;
    uint8_t priority = 9;
    while (j1939_controller_take_received(controller, &message, &priority)) continue; /* the refusal */
    EXPECT(j1939_controller_hear(controller, &asks, asks.micros) == 0);
    EXPECT(j1939_controller_take_request(controller, &request) == 1);
    EXPECT(request.pgn == 65260 && request.source == 0x81 && request.destination == 0x80 && !request.is_named);
    EXPECT(j1939_controller_take_request(controller, &request) == 0);
    EXPECT(j1939_controller_acknowledge(controller, 7000000, &request, J1939_BUSY) == 0);
    EXPECT(taken(controller, 7000000) == 0x18E8FF80 && out.data[0] == 3 && out.data[4] == 0x81);
    request.destination = 255;
    EXPECT(j1939_controller_acknowledge(controller, 7000000, &request, J1939_BUSY) == J1939_BAD_VALUE);
    asks.data[0] = 0xEB; /* a group that isn't served is refused */
    EXPECT(j1939_controller_hear(controller, &asks, asks.micros) == 0);
    EXPECT(taken(controller, 7000000) == 0x18E8FF80 && out.data[0] == 1 && out.data[5] == 0xEB);
    EXPECT(j1939_controller_take_request(controller, &request) == 0 && taken(controller, 7000000) == 0);
    for (int k = 0; k < 17; k++) EXPECT(j1939_controller_hear(controller, &single, single.micros) == 0);
    EXPECT(j1939_controller_take_news(controller) == J1939_NEWS_MISSED && !j1939_controller_take_news(controller));
    EXPECT(j1939_controller_missed(controller, &count) == 0 && count == 1);
    for (int k = 0; k < 16; k++)
        EXPECT(j1939_controller_take_received(controller, &message, &priority) == J1939_RECEIVED_FRAME);
    EXPECT(message.source == 0x81 && message.pgn == 61444 && message.len == 5 && message.data[4] == 5 && priority == 3);
    EXPECT(!message.is_addressed && !message.is_named && message.micros == 7000000);
    single.id = 0x18EF8081;
    EXPECT(j1939_controller_hear(controller, &single, single.micros) == 0);
    EXPECT(j1939_controller_take_received(controller, &message, &priority) == J1939_RECEIVED_FRAME);
    EXPECT(message.is_addressed && message.destination == 0x80 && priority == 6);
    EXPECT(j1939_controller_take_received(controller, &message, &priority) == 0);
}

/* Messages in packets, to all and to it; while one lies there another is refused. */
static void packets_of(j1939_controller *controller) {
    j1939_frame announcement = bam, next, rts;
    uint64_t due;
    uint8_t priority = 9;
    announcement.id = 0x1CECFF81, announcement.micros = 7000001;
    EXPECT(j1939_controller_hear(controller, &announcement, announcement.micros) == 0);
    for (uint8_t k = 1; k <= 3; k++) {
        next = packet(k);
        next.id = 0x1CEBFF81, next.micros += 7000001;
        EXPECT(j1939_controller_hear(controller, &next, next.micros) == 0);
    }
    EXPECT(j1939_controller_take_received(controller, &message, &priority) == J1939_RECEIVED_BROADCAST);
    EXPECT(message.source == 0x81 && message.pgn == 65260 && message.len == 20 && !message.is_named && priority == 9);
    EXPECT(message.micros == 7150006 && !message.is_addressed);
    EXPECT(j1939_controller_take_received(controller, &message, &priority) == 0);
    rts = announcement, rts.id = 0x1CEC8081, rts.data[0] = 0x10, rts.data[4] = 0xFF, rts.micros = 7300000;
    EXPECT(j1939_controller_hear(controller, &rts, rts.micros) == 0);
    EXPECT(j1939_controller_next_tick(controller, &due) == 1 && due == 8550001);
    EXPECT(taken(controller, 7300000) == 0x1CEC8180 && out.data[0] == 0x11);
    for (uint8_t k = 1; k <= 3; k++) {
        next = packet(k);
        next.id = 0x1CEB8081, next.micros += 7300000;
        EXPECT(j1939_controller_hear(controller, &next, next.micros) == 0);
    }
    EXPECT(taken(controller, 7500000) == 0x1CEC8180 && out.data[0] == 0x13);
    rts.micros = 7500000;
    EXPECT(j1939_controller_hear(controller, &rts, rts.micros) == 0);
    EXPECT(taken(controller, 7500000) == 0x1CEC8180 && out.data[0] == 0xFF && out.data[1] == 2);
    EXPECT(j1939_controller_take_received(controller, &message, &priority) == J1939_RECEIVED_TRANSFER);
    EXPECT(message.len == 20 && message.data[7] == 'A' && message.micros == 7450005 && priority == 9);
    EXPECT(message.is_addressed && message.destination == 0x80);
    EXPECT(j1939_controller_take_received(controller, &message, &priority) == 0);
}

/* Who held the source when a message was heard: nobody, then one, then one of a smaller NAME. */
static void senders_of(j1939_controller *controller) {
    j1939_frame single = {.micros = 7600000, .id = 0x18FEEE82, .len = 8};
    j1939_frame claim = {.micros = 7600000, .id = 0x18EEFF82, .len = 8, .data = {9, 0, 0, 0, 0, 0, 0, 0x80}};
    j1939_frame asks = {.micros = 7600000, .id = 0x18EA8082, .len = 3, .data = {0xEC, 0xFE, 0x00}}, next, rts = bam;
    j1939_request request;
    uint8_t priority;
    EXPECT(j1939_controller_hear(controller, &single, 7600000) == 0);
    EXPECT(j1939_controller_hear(controller, &claim, 7600000) == 0);
    EXPECT(j1939_controller_hear(controller, &asks, 7600000) == 0);
    EXPECT(j1939_controller_take_request(controller, &request) == 1 && request.is_named);
    EXPECT(request.name == 0x8000000000000009 && request.source == 0x82);
    EXPECT(j1939_controller_hear(controller, &single, 7600000) == 0);
    rts.id = 0x1CECFF82;
    EXPECT(j1939_controller_hear(controller, &rts, 7600000) == 0);
    for (uint8_t k = 1; k <= 3; k++) {
        next = packet(k);
        next.id = 0x1CEBFF82;
        EXPECT(j1939_controller_hear(controller, &next, 7600000) == 0);
    }
    rts.id = 0x1CEC8082, rts.data[0] = 0x10, rts.data[4] = 0xFF;
    EXPECT(j1939_controller_hear(controller, &rts, 7600000) == 0);
    EXPECT(taken(controller, 7600000) == 0x1CEC8280 && out.data[0] == 0x11);
    for (uint8_t k = 1; k <= 3; k++) {
        next = packet(k);
        next.id = 0x1CEB8082;
        EXPECT(j1939_controller_hear(controller, &next, 7600000) == 0);
    }
    EXPECT(taken(controller, 7600000) == 0x1CEC8280 && out.data[0] == 0x13);
    claim.data[0] = 8;
    EXPECT(j1939_controller_hear(controller, &claim, 7600000) == 0);
    EXPECT(j1939_controller_hear(controller, &single, 7600000) == 0);
    EXPECT(j1939_controller_take_received(controller, &message, &priority) == J1939_RECEIVED_FRAME && !message.is_named);
    EXPECT(j1939_controller_take_received(controller, &message, &priority) == J1939_RECEIVED_FRAME && message.is_named);
    EXPECT(message.name == 0x8000000000000009);
    EXPECT(j1939_controller_take_received(controller, &message, &priority) == J1939_RECEIVED_FRAME && message.is_named);
    EXPECT(message.name == 0x8000000000000008);
    EXPECT(j1939_controller_take_received(controller, &message, &priority) == J1939_RECEIVED_TRANSFER);
    EXPECT(message.is_named && message.name == 0x8000000000000009 && message.source == 0x82 && message.len == 20);
    EXPECT(j1939_controller_take_received(controller, &message, &priority) == J1939_RECEIVED_BROADCAST);
    EXPECT(message.is_named && message.name == 0x8000000000000009 && message.source == 0x82 && !message.is_addressed);
    EXPECT(j1939_controller_take_received(controller, &message, &priority) == 0);
}

/* Its address is lost to a smaller NAME. */
static void loss_of(j1939_controller *controller) {
    j1939_frame claim = {.micros = 7900000, .id = 0x18EEFF80, .len = 8};
    j1939_frame other = {.micros = 7800000, .id = 0x18FEEE80, .len = 8};
    j1939_ended ended;
    uint64_t token = 9;
    uint8_t own = 9, priority;
    EXPECT(j1939_controller_hear(controller, &other, other.micros) == 0);
    EXPECT(j1939_controller_take_news(controller) == J1939_NEWS_ANOTHER);
    EXPECT(j1939_controller_take_received(controller, &message, &priority) == J1939_RECEIVED_FRAME);
    EXPECT(j1939_controller_send(controller, 7800000, 6, 65262, 255, payload, 8, &token) == 1 && token == FRAME(20));
    EXPECT(j1939_controller_send(controller, 7800000, 7, 65260, 255, payload, 9, &token) == 1 && token == BROADCAST(1));
    EXPECT(j1939_controller_send(controller, 7800000, 7, 65260, 3, payload, 9, &token) == 1 && token == TRANSFER(1));
    EXPECT(j1939_controller_ask(controller, 7800000, 65260, 3, &token) == 1 && token == FRAME(21));
    EXPECT(j1939_controller_hear(controller, &claim, claim.micros) == 0);
    EXPECT(j1939_controller_status(controller, &own) == J1939_CANNOT && own == 254);
    EXPECT(j1939_controller_take_news(controller) == J1939_NEWS_LOST && !j1939_controller_take_news(controller));
    EXPECT(j1939_controller_take_ended(controller, &ended) == J1939_ENDED_MESSAGE && ended.token == FRAME(20));
    EXPECT(ended.ending == J1939_ENDED_WITHDRAWN);
    EXPECT(j1939_controller_take_ended(controller, &ended) == J1939_ENDED_MESSAGE && ended.token == FRAME(21));
    EXPECT(j1939_controller_take_ended(controller, &ended) == J1939_ENDED_BROADCAST && ended.token == BROADCAST(1));
    EXPECT(j1939_controller_take_ended(controller, &ended) == J1939_ENDED_TRANSFER && ended.token == TRANSFER(1));
    EXPECT(ended.ending == J1939_ENDED_WITHDRAWN);
    EXPECT(j1939_controller_take_ended(controller, &ended) == J1939_ENDED_REQUEST && ended.token == FRAME(21));
    EXPECT(ended.ending == J1939_ENDED_WITHDRAWN && j1939_controller_take_ended(controller, &ended) == 0);
    EXPECT(taken(controller, 7905999) == 0); /* 10 times 0.6 ms */
    EXPECT(taken(controller, 7906000) == 0x18EEFFFE && taken(controller, 7906000) == 0);
    EXPECT(j1939_controller_send(controller, 9000000, 6, 65262, 255, payload, 8, &token) == J1939_NO_ADDRESS);
}

/* It goes on at another address: not before all is told and taken. */
static void move_of(j1939_controller *controller) {
    j1939_frame single = {.micros = 9000000, .id = 0x18FEEE81, .len = 8};
    uint64_t token = 9;
    uint8_t own = 9, priority;
    EXPECT(j1939_controller_hear(controller, &single, single.micros) == 0);
    EXPECT(j1939_controller_free_address(controller, &own) == 1 && own == 0x81);
    EXPECT(j1939_controller_move_to(controller, own) == 0);
    EXPECT(j1939_controller_take_received(controller, &message, &priority) == J1939_RECEIVED_FRAME);
    EXPECT(j1939_controller_move_to(controller, 254) == 0 && j1939_controller_move_to(controller, own) == 1);
    EXPECT(j1939_controller_status(controller, &own) == J1939_IDLE && taken(controller, 9000000) == 0x18EEFF81);
    EXPECT(j1939_controller_holder(controller, 0x80, &token) == 1 && token == 0);
    EXPECT(j1939_controller_send(controller, 9250000, 6, 65262, 255, payload, 8, &token) == 1 && token == 0);
    EXPECT(taken(controller, 9250000) == 0x18FEEE81);
}

static void controllers(void) {
    static const uint32_t served[17] = {65260}, no_group[1] = {1u << 18};
    j1939_setup setup = {.name = 1, .address = 254, .delay = 10, .broadcasts = 1, .sessions = 1, .transfers = 1, .served = served, .served_count = 16};
    j1939_controller controller = J1939_EMPTY;
    j1939_listener foreign = J1939_EMPTY;
    EXPECT(j1939_controller_new(&controller, &setup) == J1939_BAD_VALUE);
    setup.address = 0x80, setup.served_count = 17;
    EXPECT(j1939_controller_new(&controller, &setup) == J1939_BAD_VALUE);
    setup.served = no_group, setup.served_count = 1;
    EXPECT(j1939_controller_new(&controller, &setup) == J1939_BAD_VALUE);
    setup.served = served, setup.served_count = 16;
    /* Each of its 16 blocks is refused in turn, one of them its own broadcast's. */
    for (long granted = 0; granted < 16; granted++) {
        allowed = granted;
        EXPECT(j1939_controller_new(&controller, &setup) == J1939_NO_MEMORY && !controller.handle.part);
    }
    allowed = 16;
    EXPECT(j1939_controller_new(&controller, &setup) == 0 && allowed == 0);
    allowed = -1;
    EXPECT(j1939_controller_close(&controller) == 0);
    EXPECT(j1939_listener_new(&foreign) == 0);
    no_controller(&controller);
    no_controller((j1939_controller *)&foreign);
    controller_in_range((j1939_controller *)&foreign);
    setup.address = 254;
    EXPECT(j1939_controller_new((j1939_controller *)&foreign, &setup) == J1939_IN_USE);
    EXPECT(j1939_listener_close(&foreign) == 0);
    setup.address = 0x80;
    EXPECT(j1939_controller_new(&controller, &setup) == 0);
    EXPECT(j1939_controller_new(&controller, &setup) == J1939_IN_USE);
    allowed = 0; /* from here on it takes no memory */
    controller_in_range(&controller);
    claim_of(&controller);
    messages_of(&controller);
    ends_of(&controller);
    again_of(&controller);
    hearing_of(&controller);
    packets_of(&controller);
    senders_of(&controller);
    loss_of(&controller);
    move_of(&controller);
    allowed = -1;
    EXPECT(j1939_controller_close(&controller) == 0 && j1939_controller_close(&controller) == 0);
    controller_in_range(&controller);
    no_controller(&controller);
}

/* What takes a const handle doesn't write it: these lie where nothing can be written. */
static void const_handles(void) {
    static const j1939_listener listener = J1939_EMPTY;
    static const j1939_receiver receiver = J1939_EMPTY;
    static const j1939_sender sender = J1939_EMPTY;
    static const j1939_controller controller = J1939_EMPTY;
    static const j1939_answers kept = J1939_EMPTY;
    static const j1939_outbox outbox = J1939_EMPTY;
    uint64_t number;
    uint8_t byte;
    EXPECT(j1939_listener_holder(&listener, 0, &number) == J1939_NO_PART);
    EXPECT(j1939_receiver_busy(&receiver) == J1939_NO_PART);
    EXPECT(j1939_sender_state(&sender, &byte) == J1939_NO_PART);
    EXPECT(j1939_controller_next_tick(&controller, &number) == J1939_NO_PART);
    EXPECT(j1939_controller_peek_frame(&controller, 0, &out) == J1939_NO_PART);
    EXPECT(j1939_controller_claims_request(&controller, 0, 255, &out) == J1939_NO_PART);
    EXPECT(j1939_controller_next_due(&controller, &number) == J1939_NO_PART);
    EXPECT(j1939_controller_status(&controller, &byte) == J1939_NO_PART);
    EXPECT(j1939_controller_holder(&controller, 0, &number) == J1939_NO_PART);
    EXPECT(j1939_controller_address_of(&controller, 1, &byte) == J1939_NO_PART);
    EXPECT(j1939_controller_free_address(&controller, &byte) == J1939_NO_PART);
    EXPECT(j1939_peers_take(&peers, &controller, &peer) == J1939_NO_PART);
    EXPECT(j1939_peers_heard_since(&peers, &controller, 1, 0) == J1939_NO_PART);
    EXPECT(j1939_controller_missed(&controller, &number) == J1939_NO_PART);
    EXPECT(j1939_answers_due_in(&kept, &number) == J1939_NO_PART);
    EXPECT(j1939_outbox_due_in(&outbox, &number) == J1939_NO_PART);
}

/* What is told next: at this address this NAME was told last, and that one holds it now; 0 for nobody. */
static int is_new(const j1939_controller *controller, uint8_t address, uint64_t was, uint64_t name) {
    return j1939_peers_take(&peers, controller, &peer) == 1 && peer.address == address && peer.was == was &&
           peer.had_one == (was != 0) && peer.name == name && peer.has_one == (name != 0);
}

/* One comes, another takes its address, and it moves; each is told once. Who is silent is known by NAME. */
static void peers_of(void) {
    j1939_setup setup = {.name = 1, .address = 0x80};
    j1939_controller controller = J1939_EMPTY;
    j1939_frame frame = {.id = 0x18EEFF90, .len = 8, .data = {9}}, single = {.id = 0x18FEEE91, .len = 8}, bad = {.len = 9};
    EXPECT(j1939_peers_init(&peers) == 0 && j1939_controller_new(&controller, &setup) == 0);
    EXPECT(j1939_peers_hear(&peers, &bad, 0) == J1939_BAD_VALUE && j1939_peers_hear(&peers, &single, LATE) == J1939_BAD_VALUE);
    EXPECT(j1939_peers_take(&peers, &controller, &peer) == 0 && j1939_peers_heard_since(&peers, &controller, 9, 0) == 0);
    EXPECT(j1939_controller_hear(&controller, &frame, 1000) == 0 && j1939_peers_hear(&peers, &frame, 1000) == 0);
    EXPECT(is_new(&controller, 0x90, 0, 9) && j1939_peers_take(&peers, &controller, &peer) == 0);
    EXPECT(j1939_peers_heard_since(&peers, &controller, 9, 1000) == 1);
    EXPECT(j1939_peers_heard_since(&peers, &controller, 9, 1001) == 0);
    EXPECT(j1939_peers_heard_since(&peers, &controller, 9, LATE) == J1939_BAD_VALUE);
    EXPECT(j1939_peers_heard_since(&peers, &controller, 8, 0) == 0);
    frame.data[0] = 8;
    EXPECT(j1939_controller_hear(&controller, &frame, 2000) == 0);
    frame.data[0] = 9, frame.id = 0x18EEFF91;
    EXPECT(j1939_controller_hear(&controller, &frame, 3000) == 0);
    EXPECT(is_new(&controller, 0x90, 9, 8) && is_new(&controller, 0x91, 0, 9));
    EXPECT(j1939_peers_take(&peers, &controller, &peer) == 0 && j1939_peers_heard_since(&peers, &controller, 9, 0) == 0);
    EXPECT(j1939_peers_hear(&peers, &single, 4000) == 0 && j1939_peers_heard_since(&peers, &controller, 9, 4000) == 1);
    EXPECT(j1939_controller_take_frame(&controller, 5000, &out) == 1 && is_new(&controller, 0x80, 0, 1));
    frame.id = 0x18EEFFFE;
    EXPECT(j1939_controller_hear(&controller, &frame, 6000) == 0);
    EXPECT(is_new(&controller, 0x91, 9, 0) && j1939_peers_take(&peers, &controller, &peer) == 0);
    EXPECT(j1939_controller_close(&controller) == 0);
}

/* Of two groups it subscribes one. */
static void subscribed(void) {
    static const uint32_t wanted[65] = {65262}, no_group[1] = {1u << 18};
    j1939_setup setup = {.name = 1, .address = 0x80, .broadcasts = 1, .is_subscribed = 1, .subscribed = wanted, .subscribed_count = 65};
    j1939_controller controller = J1939_EMPTY;
    j1939_frame heard = {.micros = 1, .id = 0x18FEEF81, .len = 8};
    uint8_t priority;
    EXPECT(j1939_controller_new(&controller, &setup) == J1939_BAD_VALUE);
    setup.subscribed = no_group, setup.subscribed_count = 1;
    EXPECT(j1939_controller_new(&controller, &setup) == J1939_BAD_VALUE);
    setup.subscribed = wanted, setup.subscribed_count = 64;
    EXPECT(j1939_controller_new(&controller, &setup) == 0);
    EXPECT(j1939_controller_new(&controller, &setup) == J1939_IN_USE);
    EXPECT(j1939_controller_hear(&controller, &heard, heard.micros) == 0);
    EXPECT(j1939_controller_take_received(&controller, &message, &priority) == 0);
    heard.id = 0x18FEEE81;
    EXPECT(j1939_controller_hear(&controller, &heard, heard.micros) == 0);
    EXPECT(j1939_controller_take_received(&controller, &message, &priority) == J1939_RECEIVED_FRAME);
    EXPECT(message.pgn == 65262 && j1939_controller_close(&controller) == 0);
}

/* 0B asks an address, or all, for a group. */
static void asks(j1939_controller *controller, uint32_t pgn, uint8_t to, uint64_t now) {
    j1939_frame frame = {.id = 0x18EA000Bu | (uint32_t)to << 8, .len = 3, .data = {(uint8_t)pgn, (uint8_t)(pgn >> 8), 0}};
    EXPECT(j1939_controller_hear(controller, &frame, now) == 0);
}

/* The next frame has this identifier and these bytes. */
static int goes(j1939_controller *controller, uint64_t now, uint32_t id, const uint8_t bytes[8]) {
    return taken(controller, now) == id && out.len == 8 && memcmp(out.data, bytes, 8) == 0;
}

static int has_left(const j1939_answers *kept, uint64_t time) {
    uint64_t left = 0;
    return j1939_answers_due_in(kept, &left) == 1 && left == time;
}

/* Each call with a pair of handles of which one holds another part, or none: what the other holds stays. */
static void no_answers(j1939_answers *kept, j1939_controller *controller) {
    j1939_request request = {.pgn = 7};
    EXPECT(j1939_answers_take_request(kept, controller, 1, &request) == J1939_NO_PART && request.pgn == 7);
    EXPECT(j1939_answers_turn(kept, controller, 1) == J1939_NO_PART);
    EXPECT(j1939_answers_take_request(kept, controller, LATE, &request) == J1939_BAD_VALUE && request.pgn == 7);
    EXPECT(j1939_answers_turn(kept, controller, LATE) == J1939_BAD_VALUE);
}

/* Two requests are taken in their order. The first is answered in packets. So there is no room for the other in 200 ms: it is refused. */
static void answered_and_refused(j1939_answers *kept, j1939_controller *controller) {
    static const uint8_t rts[8] = {0x10, 18, 0, 3, 0xFF, 0xEC, 0xFE, 0}, busy[8] = {3, 0xFF, 0xFF, 0xFF, 0x0B, 0xEB, 0xFE, 0};
    j1939_request first, second = {.pgn = 7};
    uint64_t left = 7;
    EXPECT(j1939_answers_due_in(kept, &left) == 0 && left == 7);
    EXPECT(j1939_answers_take_request(kept, controller, 300000, &second) == 0 && second.pgn == 7);
    asks(controller, 65260, 0x80, 300000), asks(controller, 65259, 0x80, 300000);
    EXPECT(j1939_answers_take_request(kept, controller, 300000, &first) == 1 && first.pgn == 65260);
    EXPECT(first.source == 0x0B && first.destination == 0x80 && !first.is_named);
    EXPECT(j1939_answers_take_request(kept, controller, 300000, &second) == 1 && second.pgn == 65259);
    asks(controller, 65260, 255, 300000);
    EXPECT(j1939_answers_take_request(kept, controller, 300000, &second) == 0 && second.pgn == 65259);
    EXPECT(j1939_answers_answer(kept, &first, payload, 1786) == J1939_BAD_VALUE);
    EXPECT(j1939_answers_answer(kept, &first, payload, 18) == 1 && j1939_answers_answer(kept, &first, payload, 18) == 0);
    EXPECT(j1939_answers_answer(kept, &second, payload, 1785) == 1);
    second.pgn = 1u << 18;
    EXPECT(j1939_answers_answer(kept, &second, payload, 18) == J1939_BAD_VALUE);
    EXPECT(j1939_answers_turn(kept, controller, 300000) == 0 && has_left(kept, 200000));
    EXPECT(goes(controller, 300000, 0x1CEC0B80, rts) && taken(controller, 300000) == 0);
    EXPECT(j1939_answers_turn(kept, controller, 499999) == 0 && has_left(kept, 1) && taken(controller, 499999) == 0);
    EXPECT(j1939_answers_turn(kept, controller, 500000) == 0 && j1939_answers_due_in(kept, &left) == 0);
    EXPECT(goes(controller, 500000, 0x18E8FF80, busy) && taken(controller, 500000) == 0);
}

/* One to all waited for a box, and is answered to all; the next has no answer in 200 ms, and is dropped. */
static void answered_and_dropped(j1939_answers *kept, j1939_controller *controller) {
    static const uint8_t announced[8] = {0x20, 18, 0, 3, 0xFF, 0xEC, 0xFE, 0};
    j1939_request request;
    uint64_t left = 7;
    EXPECT(j1939_answers_take_request(kept, controller, 600000, &request) == 1 && request.destination == 255);
    EXPECT(j1939_answers_answer(kept, &request, payload, 18) == 1 && j1939_answers_turn(kept, controller, 600000) == 0);
    EXPECT(goes(controller, 600000, 0x1CECFF80, announced) && j1939_answers_due_in(kept, &left) == 0);
    asks(controller, 65259, 255, 600000);
    EXPECT(j1939_answers_take_request(kept, controller, 600000, &request) == 1 && has_left(kept, 200000));
    EXPECT(j1939_answers_turn(kept, controller, 799999) == 0 && has_left(kept, 1));
    EXPECT(j1939_answers_turn(kept, controller, 800000) == 0 && j1939_answers_due_in(kept, &left) == 0);
    for (uint64_t now = 800000; now <= 900000; now += 50000) EXPECT(taken(controller, now) == 0x1CEBFF80);
    EXPECT(taken(controller, 999999) == 0);
}

static void kept_answers(void) {
    static const uint32_t served[] = {65260, 65259};
    j1939_setup setup = {.name = 1, .address = 0x80, .transfers = 1, .served = served, .served_count = 2};
    j1939_controller controller = J1939_EMPTY, no_controller = J1939_EMPTY;
    j1939_answers kept = J1939_EMPTY;
    j1939_listener foreign = J1939_EMPTY;
    EXPECT(j1939_controller_new(&controller, &setup) == 0 && j1939_listener_new(&foreign) == 0);
    EXPECT(taken(&controller, 0) == 0x18EEFF80 && j1939_controller_tick(&controller, 250000) == 0);
    no_answers(&kept, &controller), no_answers((j1939_answers *)&foreign, &controller);
    for (long granted = 0; granted < 6; granted++) {
        allowed = granted;
        EXPECT(j1939_answers_new(&kept, 2) == J1939_NO_MEMORY && !kept.handle.part);
    }
    allowed = 6;
    EXPECT(j1939_answers_new(&kept, 2) == 0 && j1939_answers_new(&kept, 2) == J1939_IN_USE);
    no_answers(&kept, &no_controller), no_answers(&kept, (j1939_controller *)&foreign);
    EXPECT(allowed == 0); /* from here on it takes no memory */
    answered_and_refused(&kept, &controller);
    answered_and_dropped(&kept, &controller);
    allowed = -1;
    EXPECT(j1939_answers_close(&kept) == 0 && j1939_answers_close(&kept) == 0);
    EXPECT(j1939_controller_close(&controller) == 0 && j1939_listener_close(&foreign) == 0);
}

/* Each call with a pair of handles of which one holds another part, or none: what the other holds stays. */
static void no_outbox(j1939_outbox *outbox, j1939_controller *controller) {
    out.id = 7;
    EXPECT(j1939_outbox_take_frame(outbox, controller, 1, &out) == J1939_NO_PART && out.id == 7);
    EXPECT(j1939_outbox_take_frame(outbox, controller, LATE, &out) == J1939_BAD_VALUE && out.id == 7);
}

/* Each call with a handle that holds no outbox. */
static void not_an_outbox(j1939_outbox *outbox) {
    j1939_settled settled = {.number = 7};
    uint64_t number = 7;
    EXPECT(j1939_outbox_send(outbox, 1, 9, 8, 61184, payload, 1786, &number) == J1939_NO_PART && number == 7);
    EXPECT(j1939_outbox_send(outbox, LATE, 9, 6, 61184, payload, 3, &number) == J1939_BAD_VALUE && number == 7);
    EXPECT(j1939_outbox_ask(outbox, 1, 9, 65260, &number) == J1939_NO_PART && number == 7);
    EXPECT(j1939_outbox_ask(outbox, 1, 9, 1u << 18, &number) == J1939_BAD_VALUE && number == 7);
    EXPECT(j1939_outbox_take_settled(outbox, &settled) == J1939_NO_PART && settled.number == 7);
    EXPECT(j1939_outbox_due_in(outbox, &number) == J1939_NO_PART && number == 7);
}

static int has_time(const j1939_outbox *outbox, uint64_t time) {
    uint64_t left = 0;
    return j1939_outbox_due_in(outbox, &left) == 1 && left == time;
}

/* The next that is told has this number, and was settled so. */
static int is_settled(j1939_outbox *outbox, int32_t how, uint64_t number, uint64_t token, int32_t refusal) {
    j1939_settled settled = {.number = 7, .token = 7, .refusal = 7};
    return j1939_outbox_take_settled(outbox, &settled) == how && settled.number == number && settled.token == token &&
           settled.refusal == refusal;
}

static int is_ended(j1939_controller *controller, int32_t kind, uint64_t token, uint8_t ending) {
    j1939_ended ended;
    return j1939_controller_take_ended(controller, &ended) == kind && ended.token == token && ended.ending == ending;
}

/* NAME 9, which is arbitrary address capable, claims an address. */
static void comes(j1939_controller *controller, uint8_t address, uint64_t now) {
    j1939_frame claim = {.id = 0x18EEFF00u | address, .len = 8, .data = {9, 0, 0, 0, 0, 0, 0, 0x80}};
    EXPECT(j1939_controller_hear(controller, &claim, now) == 0);
}

static const uint64_t OTHER = 0x8000000000000009u;

/* The frame that goes out of an outbox at a moment. */
static uint32_t given(j1939_outbox *outbox, j1939_controller *controller, uint64_t now) {
    int32_t answer = j1939_outbox_take_frame(outbox, controller, now, &out);
    EXPECT(answer == 0 || (answer == 1 && out.micros == now));
    return answer ? out.id : 0;
}

static int is_given(j1939_outbox *outbox, j1939_controller *controller, uint64_t now, uint32_t id, const uint8_t bytes[8]) {
    return given(outbox, controller, now) == id && out.len == 8 && memcmp(out.data, bytes, 8) == 0;
}

/* A message, and a request, wait for a NAME that comes 1,249,999 us later, and moves between their two frames; what doesn't fit the boxes
 * or a frame's fields is refused. */
static void handed_in(j1939_outbox *outbox, j1939_controller *controller) {
    uint64_t number = 7;
    EXPECT(j1939_outbox_due_in(outbox, &number) == 0 && is_settled(outbox, 0, 7, 7, 7) && number == 7);
    EXPECT(j1939_outbox_send(outbox, 300000, OTHER, 8, 61184, payload, 3, &number) == J1939_BAD_VALUE && number == 7);
    EXPECT(j1939_outbox_send(outbox, 300000, OTHER, 6, 61184, payload, 1786, &number) == J1939_BAD_VALUE);
    EXPECT(j1939_outbox_send(outbox, 300000, OTHER, 6, 1u << 18, payload, 3, &number) == J1939_BAD_VALUE && number == 7);
    EXPECT(j1939_outbox_send(outbox, 300000, OTHER, 5, 61184, payload, 8, &number) == 1 && number == 0);
    EXPECT(j1939_outbox_ask(outbox, 300000, OTHER, 65260, &number) == 1 && number == 1);
    EXPECT(j1939_outbox_ask(outbox, 300000, OTHER, 65259, &number) == J1939_FULL && number == 1);
    EXPECT(given(outbox, controller, 1549999) == 0 && has_time(outbox, 1) && is_settled(outbox, 0, 7, 7, 7));
    comes(controller, 0x0B, 1549999);
    EXPECT(is_given(outbox, controller, 1550000, 0x14EF0B80, payload) && has_time(outbox, 0));
    comes(controller, 0x0C, 1550000);
    EXPECT(given(outbox, controller, 1550000) == 0x18EA0C80 && j1939_outbox_due_in(outbox, &number) == 0);
    EXPECT(out.len == 3 && out.data[0] == 0xEC && out.data[1] == 0xFE && out.data[2] == 0);
    EXPECT(given(outbox, controller, 1550000) == 0);
    EXPECT(j1939_outbox_ask(outbox, 1550000, OTHER, 65259, &number) == J1939_FULL); /* no end was told */
    EXPECT(is_settled(outbox, J1939_SETTLED_HANDED_IN, 0, 0, 0) && is_settled(outbox, J1939_SETTLED_HANDED_IN, 1, 4, 0));
    EXPECT(is_settled(outbox, 0, 7, 7, 7));
    EXPECT(is_ended(controller, J1939_ENDED_MESSAGE, 0, J1939_ENDED_DONE));
    EXPECT(is_ended(controller, J1939_ENDED_MESSAGE, 4, J1939_ENDED_DONE));
}

/* In packets to the address where it is now, under the token of a transfer; there is room for one, and the next stays till it ended. That
 * ends as its NAME moves. */
static void handed_in_later(j1939_outbox *outbox, j1939_controller *controller) {
    static const uint8_t rts[8] = {0x10, 18, 0, 3, 0xFF, 0x00, 0xEF, 0}, abort[8] = {0xFF, 2, 0xFF, 0xFF, 0xFF, 0x00, 0xEF, 0};
    static const uint8_t next[8] = {0x10, 9, 0, 2, 0xFF, 0x00, 0xEF, 0};
    j1939_frame refusal = {.id = 0x1CEC800C, .len = 8};
    uint64_t number;
    EXPECT(j1939_outbox_send(outbox, 1600000, OTHER, 6, 61184, payload, 18, &number) == 1 && number == 2);
    EXPECT(j1939_outbox_send(outbox, 1600000, OTHER, 6, 61184, payload, 9, &number) == 1 && number == 3);
    EXPECT(is_given(outbox, controller, 1600000, 0x1CEC0C80, rts));
    EXPECT(given(outbox, controller, 1600000) == 0 && has_time(outbox, 1250000));
    EXPECT(is_settled(outbox, J1939_SETTLED_HANDED_IN, 2, 2, 0) && is_settled(outbox, 0, 7, 7, 7));
    memcpy(refusal.data, abort, sizeof abort);
    EXPECT(j1939_controller_hear(controller, &refusal, 1600000) == 0);
    EXPECT(given(outbox, controller, 1600000) == 0 && is_settled(outbox, 0, 7, 7, 7));
    EXPECT(is_ended(controller, J1939_ENDED_TRANSFER, 2, J1939_ENDED_FAILED));
    EXPECT(is_given(outbox, controller, 1600000, 0x1CEC0C80, next) && is_settled(outbox, J1939_SETTLED_HANDED_IN, 3, 6, 0));
    comes(controller, 0x0D, 1600000);
    EXPECT(is_ended(controller, J1939_ENDED_TRANSFER, 6, J1939_ENDED_GONE) && given(outbox, controller, 1600000) == 0);
}

/* One for a NAME that never comes is gone after 1,250 ms; what no identifier can be to an address is refused for good. What comes while
 * the address is claimed anew waits, and is refused after 1,250 ms, since NAME 0 wins it. */
static void gone_and_refused(j1939_outbox *outbox, j1939_controller *controller) {
    j1939_frame claim = {.id = 0x18EEFF80, .len = 8};
    uint64_t number;
    EXPECT(j1939_outbox_send(outbox, 1700000, 77, 6, 61184, payload, 3, &number) == 1 && number == 4);
    EXPECT(j1939_outbox_send(outbox, 1700000, OTHER, 6, 60928, payload, 8, &number) == 1 && number == 5);
    EXPECT(given(outbox, controller, 2949999) == 0 && has_time(outbox, 1));
    EXPECT(is_settled(outbox, J1939_SETTLED_REFUSED, 5, 0, J1939_BAD_VALUE) && is_settled(outbox, 0, 7, 7, 7));
    EXPECT(given(outbox, controller, 2950000) == 0 && j1939_outbox_due_in(outbox, &number) == 0);
    EXPECT(is_settled(outbox, J1939_SETTLED_GONE, 4, 0, 0) && is_settled(outbox, 0, 7, 7, 7));
    EXPECT(j1939_outbox_ask(outbox, 3000000, OTHER, 65260, &number) == 1 && number == 6);
    EXPECT(j1939_controller_again(controller, 3000000) == 0 && given(outbox, controller, 3000000) == 0x18EEFF80);
    EXPECT(given(outbox, controller, 3249999) == 0 && has_time(outbox, 1000001));
    EXPECT(j1939_controller_hear(controller, &claim, 3249999) == 0);
    EXPECT(given(outbox, controller, 4249999) == 0x18EEFFFE && has_time(outbox, 1000001));
    EXPECT(given(outbox, controller, 4249999) == 0 && has_time(outbox, 1) && is_settled(outbox, 0, 7, 7, 7));
    EXPECT(given(outbox, controller, 4250000) == 0 && j1939_outbox_due_in(outbox, &number) == 0);
    EXPECT(is_settled(outbox, J1939_SETTLED_REFUSED, 6, 0, J1939_NO_ADDRESS));
}

static void outboxes(void) {
    j1939_setup setup = {.name = 1, .address = 0x80, .transfers = 1};
    j1939_controller controller = J1939_EMPTY, no_controller = J1939_EMPTY;
    j1939_outbox outbox = J1939_EMPTY;
    j1939_listener foreign = J1939_EMPTY;
    EXPECT(j1939_controller_new(&controller, &setup) == 0 && j1939_listener_new(&foreign) == 0);
    EXPECT(taken(&controller, 0) == 0x18EEFF80 && j1939_controller_tick(&controller, 250000) == 0);
    not_an_outbox(&outbox), not_an_outbox((j1939_outbox *)&foreign);
    no_outbox(&outbox, &controller), no_outbox((j1939_outbox *)&foreign, &controller);
    for (long granted = 0; granted < 7; granted++) {
        allowed = granted;
        EXPECT(j1939_outbox_new(&outbox, 2) == J1939_NO_MEMORY && !outbox.handle.part);
    }
    allowed = 7;
    EXPECT(j1939_outbox_new(&outbox, 2) == 0 && j1939_outbox_new(&outbox, 2) == J1939_IN_USE);
    no_outbox(&outbox, &no_controller), no_outbox(&outbox, (j1939_controller *)&foreign);
    EXPECT(allowed == 0); /* from here on it takes no memory */
    handed_in(&outbox, &controller);
    handed_in_later(&outbox, &controller);
    gone_and_refused(&outbox, &controller);
    allowed = -1;
    EXPECT(j1939_outbox_close(&outbox) == 0 && j1939_outbox_close(&outbox) == 0);
    EXPECT(j1939_controller_close(&controller) == 0 && j1939_listener_close(&foreign) == 0);
}

int main(void) {
    null_pointers();
    fields();
    nodes();
    claims();
    own_groups();
    listeners();
    readings();
    faults();
    faults_told();
    names();
    assemblers();
    transfers();
    broadcasts();
    controllers();
    peers_of();
    subscribed();
    kept_answers();
    outboxes();
    const_handles();
    return 0;
}
