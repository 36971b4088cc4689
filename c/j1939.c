/* The calls of j1939.h: each tests its pointers for NULL, and calls the proved one. A frame that is read is copied
 * first, so that it may be the one that is written. */
#include "j1939.h"
#include "pool.h"

/* A compiler that knows this has the usual way without a jump. */
#ifdef __GNUC__
#define LIKELY(condition) __builtin_expect(condition, 1)
#else
#define LIKELY(condition) (condition)
#endif

/* The structs lie as those of the crate j39_c do, on every machine. */
#define LIES(type, size) _Static_assert(sizeof(type) == (size) && _Alignof(type) == 8, #type)
LIES(j1939_frame, 24);
LIES(j1939_message, 1816);
LIES(j1939_reading, 24);
LIES(j1939_broadcast, 16);
LIES(j1939_claims, 2288);
LIES(j1939_peers, 4576);
LIES(j1939_peer, 24);
LIES(j1939_node, 2312);
LIES(j1939_handle, 16);
LIES(j1939_ended, 16);
LIES(j1939_request, 16);
LIES(j1939_settled, 24);
_Static_assert(sizeof(j1939_wrong) == 8 && offsetof(j1939_wrong, column) == 4, "j1939_wrong");
_Static_assert(offsetof(j1939_node, moment) == 16 && offsetof(j1939_node, claims) == 24, "j1939_node");

/* The proved calls, as the crate j39_c exports them: a size has 64 bits on every machine. None of their pointers may be
 * NULL. */
int32_t j39_id_split(uint32_t id, j1939_id_fields *fields);
int32_t j39_id_compose(const j1939_id_fields *fields, uint32_t *id);
void j39_name_split(uint64_t name, j1939_name_fields *fields);
int32_t j39_name_compose(const j1939_name_fields *fields, uint64_t *name);
int32_t j39_reading(const j1939_message *message, j1939_reading *reading, uint64_t index);
int32_t j39_reading_text(const j1939_message *message, uint64_t index, char *text, uint64_t room);
int32_t j39_report_line(const j1939_message *message, uint64_t index, char *text, uint64_t room);
int32_t j39_table_check(const char *table, uint64_t size, j1939_wrong *wrong);
int32_t j39_reading_by(const char *table, uint64_t size, const j1939_message *message, j1939_reading *reading,
                       uint64_t index);
int32_t j39_reading_text_by(const char *table, uint64_t size, const j1939_message *message, uint64_t index, char *text,
                            uint64_t room);
int32_t j39_report_line_by(const char *table, uint64_t size, const j1939_message *message, uint64_t index, char *text,
                           uint64_t room);
int32_t j39_raw_of(uint32_t spn, int64_t value, uint32_t *raw);
int32_t j39_fault(const j1939_message *message, j1939_fault *fault, uint64_t index);
int32_t j39_lamps(const j1939_message *message, j1939_lamps *lamps);
int32_t j39_faults_message(const j1939_lamps *lamps, const j1939_fault *faults, uint64_t count, uint8_t *payload,
                           uint64_t room);
int32_t j39_parameter_name(uint32_t spn, char *text, uint64_t room);
int32_t j39_group_name(uint32_t pgn, char *text, uint64_t room);
int32_t j39_function_name(uint8_t function, char *text, uint64_t room);
int32_t j39_maker_name(uint16_t manufacturer, char *text, uint64_t room);
int32_t j39_failure_name(uint8_t fmi, char *text, uint64_t room);
int32_t j39_cut_frame(uint8_t source, uint32_t pgn, const uint8_t *payload, uint64_t size, uint16_t k, uint64_t micros,
                      j1939_frame *out);
void j39_broadcast_init(j1939_broadcast *broadcast);
int32_t j39_broadcast_poll(j1939_broadcast *broadcast, uint8_t source, uint32_t pgn, const uint8_t *payload,
                           uint64_t size, uint64_t micros, j1939_frame *out, uint64_t *due);
void j39_claims_init(j1939_claims *claims);
int32_t j39_claims_note(j1939_claims *claims, const j1939_frame *frame, uint8_t *changed);
int32_t j39_claims_holder(const j1939_claims *claims, uint8_t address, uint64_t *name);
int32_t j39_node_init(j1939_node *node, uint64_t name, uint8_t preferred);
int32_t j39_node_start(j1939_node *node, uint64_t micros, j1939_frame *out);
int32_t j39_node_tick(j1939_node *node, uint64_t micros);
int32_t j39_node_on(j1939_node *node, const j1939_frame *frame, j1939_frame *out);
int32_t j39_node_commanded(j1939_node *node, uint64_t name, uint8_t address, uint64_t micros, j1939_frame *out);
int32_t j39_node_status(const j1939_node *node, uint8_t *address);
void j39_close(j1939_handle *handle);
int32_t j39_listener_new(j1939_handle *listener);
int32_t j39_listener_feed(j1939_handle *listener, const j1939_frame *frame, j1939_message *out);
int32_t j39_listener_feed_as(j1939_handle *listener, uint8_t is_single, const j1939_frame *frame, j1939_message *out);
int32_t j39_listener_holder(j1939_handle *listener, uint8_t address, uint64_t *name);
int32_t j39_assembler_new(j1939_handle *assembler);
int32_t j39_assembler_feed(j1939_handle *assembler, const j1939_frame *frame, j1939_message *out);
int32_t j39_assembler_forget(j1939_handle *assembler, uint8_t source);
int32_t j39_receiver_new(j1939_handle *receiver, uint8_t own);
int32_t j39_receiver_on(j1939_handle *receiver, const j1939_frame *frame, j1939_frame *out, j1939_message *message);
int32_t j39_receiver_tick(j1939_handle *receiver, uint64_t micros, j1939_frame *out);
int32_t j39_receiver_busy(j1939_handle *receiver);
int32_t j39_sender_new(j1939_handle *sender, uint8_t source, uint8_t destination, uint32_t pgn, const uint8_t *payload,
                       uint64_t size);
int32_t j39_sender_tick(j1939_handle *sender, uint64_t micros, j1939_frame *out);
int32_t j39_sender_on(j1939_handle *sender, const j1939_frame *frame);
int32_t j39_sender_state(j1939_handle *sender, uint8_t *reason);
int32_t j39_controller_new(j1939_handle *controller, const j1939_setup *setup, const uint32_t *served, uint64_t count,
                           const uint32_t *subscribed, uint64_t subscribed_count);
int32_t j39_controller_again(j1939_handle *controller, uint64_t micros);
int32_t j39_controller_renew(j1939_handle *controller, uint8_t priority, uint32_t pgn, uint8_t to,
                             const uint8_t *payload, uint64_t size, uint64_t *token);
int32_t j39_controller_withdraw(j1939_handle *controller, uint64_t token);
int32_t j39_controller_hear(j1939_handle *controller, const j1939_frame *frame, uint64_t micros);
int32_t j39_controller_tick(j1939_handle *controller, uint64_t micros);
int32_t j39_controller_next_tick(j1939_handle *controller, uint64_t *due);
int32_t j39_controller_take_frame(j1939_handle *controller, uint64_t micros, j1939_frame *out);
int32_t j39_controller_peek_frame(j1939_handle *controller, uint64_t micros, j1939_frame *out);
int32_t j39_controller_claims_request(j1939_handle *controller, uint64_t micros, uint8_t to, j1939_frame *out);
int32_t j39_controller_next_due(j1939_handle *controller, uint64_t *due);
int32_t j39_controller_status(j1939_handle *controller, uint8_t *address);
int32_t j39_controller_holder(j1939_handle *controller, uint8_t address, uint64_t *name);
int32_t j39_controller_address_of(j1939_handle *controller, uint64_t name, uint8_t *address);
int32_t j39_controller_free_address(j1939_handle *controller, uint8_t *address);
void j39_peers_init(j1939_peers *peers);
int32_t j39_peers_hear(j1939_peers *peers, const j1939_frame *frame, uint64_t micros);
int32_t j39_peers_take(j1939_peers *peers, j1939_handle *controller, j1939_peer *peer);
int32_t j39_peers_heard_since(const j1939_peers *peers, j1939_handle *controller, uint64_t name, uint64_t micros);
int32_t j39_controller_move_to(j1939_handle *controller, uint8_t address);
int32_t j39_controller_send(j1939_handle *controller, uint64_t micros, uint8_t priority, uint32_t pgn, uint8_t to,
                            const uint8_t *payload, uint64_t size, uint64_t *token);
int32_t j39_controller_ask(j1939_handle *controller, uint64_t micros, uint32_t pgn, uint8_t to, uint64_t *token);
int32_t j39_controller_take_ended(j1939_handle *controller, j1939_ended *ended);
int32_t j39_controller_take_received(j1939_handle *controller, j1939_message *message, uint8_t *priority);
int32_t j39_controller_missed(j1939_handle *controller, uint64_t *count);
int32_t j39_controller_take_request(j1939_handle *controller, j1939_request *request);
int32_t j39_controller_acknowledge(j1939_handle *controller, uint64_t micros, const j1939_request *request,
                                   uint8_t answer);
int32_t j39_controller_take_news(j1939_handle *controller);
int32_t j39_answers_new(j1939_handle *answers, uint8_t boxes);
int32_t j39_answers_take_request(j1939_handle *answers, j1939_handle *controller, uint64_t micros, j1939_request *request);
int32_t j39_answers_answer(j1939_handle *answers, const j1939_request *request, const uint8_t *payload, uint64_t size);
int32_t j39_answers_turn(j1939_handle *answers, j1939_handle *controller, uint64_t micros);
int32_t j39_answers_due_in(j1939_handle *answers, uint64_t *micros);
int32_t j39_outbox_new(j1939_handle *outbox, uint8_t boxes);
int32_t j39_outbox_send(j1939_handle *outbox, uint64_t micros, uint64_t name, uint8_t priority, uint32_t pgn,
                        const uint8_t *payload, uint64_t size, uint64_t *number);
int32_t j39_outbox_ask(j1939_handle *outbox, uint64_t micros, uint64_t name, uint32_t pgn, uint64_t *number);
int32_t j39_outbox_take_frame(j1939_handle *outbox, j1939_handle *controller, uint64_t micros, j1939_frame *out);
int32_t j39_outbox_take_settled(j1939_handle *outbox, j1939_settled *settled);
int32_t j39_outbox_due_in(j1939_handle *outbox, uint64_t *micros);

int32_t j1939_id_split(uint32_t id, j1939_id_fields *fields) {
    return fields ? j39_id_split(id, fields) : J1939_NULL;
}

int32_t j1939_id_compose(const j1939_id_fields *fields, uint32_t *id) {
    return fields && id ? j39_id_compose(fields, id) : J1939_NULL;
}

int32_t j1939_name_split(uint64_t name, j1939_name_fields *fields) {
    if (!fields) return J1939_NULL;
    j39_name_split(name, fields);
    return 0;
}

int32_t j1939_name_compose(const j1939_name_fields *fields, uint64_t *name) {
    return fields && name ? j39_name_compose(fields, name) : J1939_NULL;
}

int32_t j1939_read(const j1939_message *message, size_t index, j1939_reading *reading) {
    return LIKELY(message && reading) ? j39_reading(message, reading, index) : J1939_NULL;
}

int32_t j1939_read_text(const j1939_message *message, size_t index, char *text, size_t room) {
    return message && text ? j39_reading_text(message, index, text, room) : J1939_NULL;
}

int32_t j1939_report_line(const j1939_message *message, size_t index, char *text, size_t room) {
    return message && text ? j39_report_line(message, index, text, room) : J1939_NULL;
}

int32_t j1939_table_init(j1939_table *table, const char *text, size_t size, j1939_wrong *wrong) {
    if (!table || !text || !wrong) return J1939_NULL;
    int32_t answer = j39_table_check(text, size, wrong);
    if (answer == 0) *table = (j1939_table){text, size};
    return answer;
}

int32_t j1939_read_by(const j1939_table *table, const j1939_message *message, size_t index, j1939_reading *reading) {
    if (!table || !table->text || !message || !reading) return J1939_NULL;
    return j39_reading_by(table->text, table->size, message, reading, index);
}

int32_t j1939_read_text_by(const j1939_table *table, const j1939_message *message, size_t index, char *text, size_t room) {
    if (!table || !table->text || !message || !text) return J1939_NULL;
    return j39_reading_text_by(table->text, table->size, message, index, text, room);
}

int32_t j1939_report_line_by(const j1939_table *table, const j1939_message *message, size_t index, char *text,
                             size_t room) {
    if (!table || !table->text || !message || !text) return J1939_NULL;
    return j39_report_line_by(table->text, table->size, message, index, text, room);
}

int32_t j1939_raw_of(uint32_t spn, int64_t value, uint32_t *raw) {
    return raw ? j39_raw_of(spn, value, raw) : J1939_NULL;
}

int32_t j1939_fault_at(const j1939_message *message, size_t index, j1939_fault *fault) {
    return message && fault ? j39_fault(message, fault, index) : J1939_NULL;
}

int32_t j1939_lamps_of(const j1939_message *message, j1939_lamps *lamps) {
    return message && lamps ? j39_lamps(message, lamps) : J1939_NULL;
}

int32_t j1939_faults_message(const j1939_lamps *lamps, const j1939_fault *faults, size_t count, uint8_t *payload,
                             size_t room) {
    return lamps && faults && payload ? j39_faults_message(lamps, faults, count, payload, room) : J1939_NULL;
}

int32_t j1939_parameter_name(uint32_t spn, char *text, size_t room) {
    return text ? j39_parameter_name(spn, text, room) : J1939_NULL;
}

int32_t j1939_group_name(uint32_t pgn, char *text, size_t room) {
    return text ? j39_group_name(pgn, text, room) : J1939_NULL;
}

int32_t j1939_function_name(uint8_t function, char *text, size_t room) {
    return text ? j39_function_name(function, text, room) : J1939_NULL;
}

int32_t j1939_maker_name(uint16_t manufacturer, char *text, size_t room) {
    return text ? j39_maker_name(manufacturer, text, room) : J1939_NULL;
}

int32_t j1939_failure_name(uint8_t fmi, char *text, size_t room) {
    return text ? j39_failure_name(fmi, text, room) : J1939_NULL;
}

int32_t j1939_cut_frame(uint8_t source, uint32_t pgn, const uint8_t *payload, size_t size, uint16_t k, uint64_t micros,
                        j1939_frame *out) {
    return payload && out ? j39_cut_frame(source, pgn, payload, size, k, micros, out) : J1939_NULL;
}

int32_t j1939_broadcast_init(j1939_broadcast *broadcast) {
    if (!broadcast) return J1939_NULL;
    j39_broadcast_init(broadcast);
    return 0;
}

int32_t j1939_broadcast_poll(j1939_broadcast *broadcast, uint8_t source, uint32_t pgn, const uint8_t *payload,
                             size_t size, uint64_t micros, j1939_frame *out, uint64_t *due) {
    return broadcast && payload && out && due
               ? j39_broadcast_poll(broadcast, source, pgn, payload, size, micros, out, due)
               : J1939_NULL;
}

int32_t j1939_claims_init(j1939_claims *claims) {
    if (!claims) return J1939_NULL;
    j39_claims_init(claims);
    return 0;
}

int32_t j1939_claims_note(j1939_claims *claims, const j1939_frame *frame, uint8_t changed[2]) {
    return claims && frame && changed ? j39_claims_note(claims, frame, changed) : J1939_NULL;
}

int32_t j1939_claims_holder(const j1939_claims *claims, uint8_t address, uint64_t *name) {
    return claims && name ? j39_claims_holder(claims, address, name) : J1939_NULL;
}

int32_t j1939_node_init(j1939_node *node, uint64_t name, uint8_t preferred) {
    return node ? j39_node_init(node, name, preferred) : J1939_NULL;
}

int32_t j1939_node_start(j1939_node *node, uint64_t micros, j1939_frame *out) {
    return node && out ? j39_node_start(node, micros, out) : J1939_NULL;
}

int32_t j1939_node_tick(j1939_node *node, uint64_t micros) {
    return node ? j39_node_tick(node, micros) : J1939_NULL;
}

int32_t j1939_node_on(j1939_node *node, const j1939_frame *frame, j1939_frame *out) {
    if (!node || !frame || !out) return J1939_NULL;
    j1939_frame heard = *frame;
    return j39_node_on(node, &heard, out);
}

int32_t j1939_node_commanded(j1939_node *node, uint64_t name, uint8_t address, uint64_t micros, j1939_frame *out) {
    return node && out ? j39_node_commanded(node, name, address, micros, out) : J1939_NULL;
}

int32_t j1939_node_status(const j1939_node *node, uint8_t *address) {
    return node && address ? j39_node_status(node, address) : J1939_NULL;
}

/* A call with a handle. Where that lies in memory of the program's, what it takes and gives back is there. */
#define WITH(handle, call) ((handle)->memory ? (enter(handle), leave(call)) : (call))

static void enter(const j1939_handle *handle) {
    j39_pool_enter((struct pool *)(uintptr_t)handle->memory);
}

static int32_t leave(int32_t answer) {
    j39_pool_enter(NULL);
    return answer;
}

/* An empty handle is opened in this memory: by the call that may stand between the two, and not where it refuses. */
static int begin_at(j1939_handle *handle, void *memory, size_t size) {
    if (handle->part) return 0;
    handle->memory = (uintptr_t)j39_pool_in(memory, size);
    enter(handle);
    return 1;
}

static int32_t end_at(j1939_handle *handle, int32_t answer) {
    if (answer) handle->memory = 0;
    return leave(answer);
}

/* At most so many messages are open at once, or handed out. */
enum { MANY = 271 };

static int32_t close_handle(j1939_handle *handle) {
    int32_t answer = WITH(handle, (j39_close(handle), 0));
    handle->memory = 0;
    return answer;
}

int32_t j1939_listener_new(j1939_listener *listener) {
    return listener ? j39_listener_new(&listener->handle) : J1939_NULL;
}

size_t j1939_listener_size(size_t messages) {
    return J1939_LISTENER_SIZE(messages < MANY ? messages : MANY);
}

int32_t j1939_listener_at(j1939_listener *listener, void *memory, size_t size) {
    if (!listener || !memory) return J1939_NULL;
    if (!begin_at(&listener->handle, memory, size)) return J1939_IN_USE;
    return end_at(&listener->handle, j1939_listener_new(listener));
}

int32_t j1939_listener_feed(j1939_listener *listener, const j1939_frame *frame, j1939_message *out) {
    return listener && frame && out
               ? WITH(&listener->handle, j39_listener_feed(&listener->handle, frame, out))
               : J1939_NULL;
}

int32_t j1939_listener_feed_as(j1939_listener *listener, uint8_t is_single, const j1939_frame *frame,
                               j1939_message *out) {
    return listener && frame && out
               ? WITH(&listener->handle, j39_listener_feed_as(&listener->handle, is_single, frame, out))
               : J1939_NULL;
}

/* Each call with a const handle hands on a copy of it, since the proved one takes the part out, and puts it back. */
int32_t j1939_listener_holder(const j1939_listener *listener, uint8_t address, uint64_t *name) {
    if (!listener || !name) return J1939_NULL;
    j1939_handle held = listener->handle;
    return j39_listener_holder(&held, address, name);
}

int32_t j1939_listener_close(j1939_listener *listener) {
    return listener ? close_handle(&listener->handle) : J1939_NULL;
}

int32_t j1939_assembler_new(j1939_assembler *assembler) {
    return assembler ? j39_assembler_new(&assembler->handle) : J1939_NULL;
}

size_t j1939_assembler_size(size_t messages) {
    return J1939_ASSEMBLER_SIZE(messages < MANY ? messages : MANY);
}

int32_t j1939_assembler_at(j1939_assembler *assembler, void *memory, size_t size) {
    if (!assembler || !memory) return J1939_NULL;
    if (!begin_at(&assembler->handle, memory, size)) return J1939_IN_USE;
    return end_at(&assembler->handle, j1939_assembler_new(assembler));
}

int32_t j1939_assembler_feed(j1939_assembler *assembler, const j1939_frame *frame, j1939_message *out) {
    return assembler && frame && out
               ? WITH(&assembler->handle, j39_assembler_feed(&assembler->handle, frame, out))
               : J1939_NULL;
}

int32_t j1939_assembler_forget(j1939_assembler *assembler, uint8_t source) {
    return assembler ? WITH(&assembler->handle, j39_assembler_forget(&assembler->handle, source)) : J1939_NULL;
}

int32_t j1939_assembler_close(j1939_assembler *assembler) {
    return assembler ? close_handle(&assembler->handle) : J1939_NULL;
}

int32_t j1939_receiver_new(j1939_receiver *receiver, uint8_t own) {
    return receiver ? j39_receiver_new(&receiver->handle, own) : J1939_NULL;
}

size_t j1939_receiver_size(void) {
    return J1939_RECEIVER_SIZE;
}

int32_t j1939_receiver_at(j1939_receiver *receiver, void *memory, size_t size, uint8_t own) {
    if (!receiver || !memory) return J1939_NULL;
    if (!begin_at(&receiver->handle, memory, size)) return J1939_IN_USE;
    return end_at(&receiver->handle, j1939_receiver_new(receiver, own));
}

int32_t j1939_receiver_on(j1939_receiver *receiver, const j1939_frame *frame, j1939_frame *out,
                          j1939_message *message) {
    if (!receiver || !frame || !out || !message) return J1939_NULL;
    j1939_frame heard = *frame;
    return j39_receiver_on(&receiver->handle, &heard, out, message);
}

int32_t j1939_receiver_tick(j1939_receiver *receiver, uint64_t micros, j1939_frame *out) {
    return receiver && out ? j39_receiver_tick(&receiver->handle, micros, out) : J1939_NULL;
}

int32_t j1939_receiver_busy(const j1939_receiver *receiver) {
    if (!receiver) return J1939_NULL;
    j1939_handle held = receiver->handle;
    return j39_receiver_busy(&held);
}

int32_t j1939_receiver_close(j1939_receiver *receiver) {
    return receiver ? close_handle(&receiver->handle) : J1939_NULL;
}

int32_t j1939_sender_new(j1939_sender *sender, uint8_t source, uint8_t destination, uint32_t pgn,
                         const uint8_t *payload, size_t size) {
    return sender && payload ? j39_sender_new(&sender->handle, source, destination, pgn, payload, size) : J1939_NULL;
}

size_t j1939_sender_size(size_t bytes) {
    return J1939_SENDER_SIZE(bytes < J1939_LONGEST ? bytes : J1939_LONGEST);
}

int32_t j1939_sender_at(j1939_sender *sender, void *memory, size_t size, uint8_t source, uint8_t destination,
                        uint32_t pgn, const uint8_t *payload, size_t bytes) {
    if (!sender || !memory) return J1939_NULL;
    if (!begin_at(&sender->handle, memory, size)) return J1939_IN_USE;
    return end_at(&sender->handle, j1939_sender_new(sender, source, destination, pgn, payload, bytes));
}

int32_t j1939_sender_tick(j1939_sender *sender, uint64_t micros, j1939_frame *out) {
    return sender && out ? j39_sender_tick(&sender->handle, micros, out) : J1939_NULL;
}

int32_t j1939_sender_on(j1939_sender *sender, const j1939_frame *frame) {
    return sender && frame ? j39_sender_on(&sender->handle, frame) : J1939_NULL;
}

int32_t j1939_sender_state(const j1939_sender *sender, uint8_t *reason) {
    if (!sender || !reason) return J1939_NULL;
    j1939_handle held = sender->handle;
    return j39_sender_state(&held, reason);
}

int32_t j1939_sender_close(j1939_sender *sender) {
    return sender ? close_handle(&sender->handle) : J1939_NULL;
}

int32_t j1939_controller_new(j1939_controller *controller, const j1939_setup *setup) {
    static const uint32_t none[1] = {0};
    if (!controller || !setup) return J1939_NULL;
    if ((!setup->served && setup->served_count) || (!setup->subscribed && setup->subscribed_count)) return J1939_NULL;
    return j39_controller_new(&controller->handle, setup, setup->served ? setup->served : none, setup->served_count,
                              setup->subscribed ? setup->subscribed : none, setup->subscribed_count);
}

size_t j1939_controller_size(const j1939_setup *setup) {
    return setup ? J1939_CONTROLLER_SIZE(setup->broadcasts, setup->sessions, setup->transfers) : 0;
}

int32_t j1939_controller_at(j1939_controller *controller, void *memory, size_t size, const j1939_setup *setup) {
    if (!controller || !memory) return J1939_NULL;
    if (!begin_at(&controller->handle, memory, size)) return J1939_IN_USE;
    return end_at(&controller->handle, j1939_controller_new(controller, setup));
}

int32_t j1939_controller_hear(j1939_controller *controller, const j1939_frame *frame, uint64_t micros) {
    return controller && frame ? j39_controller_hear(&controller->handle, frame, micros) : J1939_NULL;
}

int32_t j1939_controller_tick(j1939_controller *controller, uint64_t micros) {
    return controller ? j39_controller_tick(&controller->handle, micros) : J1939_NULL;
}

int32_t j1939_controller_again(j1939_controller *controller, uint64_t micros) {
    return controller ? j39_controller_again(&controller->handle, micros) : J1939_NULL;
}

int32_t j1939_controller_next_tick(const j1939_controller *controller, uint64_t *due) {
    if (!controller || !due) return J1939_NULL;
    j1939_handle held = controller->handle;
    return j39_controller_next_tick(&held, due);
}

int32_t j1939_controller_take_frame(j1939_controller *controller, uint64_t micros, j1939_frame *out) {
    return controller && out ? j39_controller_take_frame(&controller->handle, micros, out) : J1939_NULL;
}

int32_t j1939_controller_peek_frame(const j1939_controller *controller, uint64_t micros, j1939_frame *out) {
    if (!controller || !out) return J1939_NULL;
    j1939_handle held = controller->handle;
    return j39_controller_peek_frame(&held, micros, out);
}

int32_t j1939_controller_claims_request(const j1939_controller *controller, uint64_t micros, uint8_t to,
                                        j1939_frame *out) {
    if (!controller || !out) return J1939_NULL;
    j1939_handle held = controller->handle;
    return j39_controller_claims_request(&held, micros, to, out);
}

int32_t j1939_controller_next_due(const j1939_controller *controller, uint64_t *due) {
    if (!controller || !due) return J1939_NULL;
    j1939_handle held = controller->handle;
    return j39_controller_next_due(&held, due);
}

int32_t j1939_controller_status(const j1939_controller *controller, uint8_t *address) {
    if (!controller || !address) return J1939_NULL;
    j1939_handle held = controller->handle;
    return j39_controller_status(&held, address);
}

int32_t j1939_controller_holder(const j1939_controller *controller, uint8_t address, uint64_t *name) {
    if (!controller || !name) return J1939_NULL;
    j1939_handle held = controller->handle;
    return j39_controller_holder(&held, address, name);
}

int32_t j1939_controller_address_of(const j1939_controller *controller, uint64_t name, uint8_t *address) {
    if (!controller || !address) return J1939_NULL;
    j1939_handle held = controller->handle;
    return j39_controller_address_of(&held, name, address);
}

int32_t j1939_controller_free_address(const j1939_controller *controller, uint8_t *address) {
    if (!controller || !address) return J1939_NULL;
    j1939_handle held = controller->handle;
    return j39_controller_free_address(&held, address);
}

int32_t j1939_peers_init(j1939_peers *peers) {
    if (!peers) return J1939_NULL;
    j39_peers_init(peers);
    return 0;
}

int32_t j1939_peers_hear(j1939_peers *peers, const j1939_frame *frame, uint64_t micros) {
    return peers && frame ? j39_peers_hear(peers, frame, micros) : J1939_NULL;
}

int32_t j1939_peers_take(j1939_peers *peers, const j1939_controller *controller, j1939_peer *peer) {
    if (!peers || !controller || !peer) return J1939_NULL;
    j1939_handle held = controller->handle;
    return j39_peers_take(peers, &held, peer);
}

int32_t j1939_peers_heard_since(const j1939_peers *peers, const j1939_controller *controller, uint64_t name,
                                uint64_t micros) {
    if (!peers || !controller) return J1939_NULL;
    j1939_handle held = controller->handle;
    return j39_peers_heard_since(peers, &held, name, micros);
}

int32_t j1939_controller_move_to(j1939_controller *controller, uint8_t address) {
    return controller ? j39_controller_move_to(&controller->handle, address) : J1939_NULL;
}

int32_t j1939_controller_send(j1939_controller *controller, uint64_t micros, uint8_t priority, uint32_t pgn, uint8_t to,
                              const uint8_t *payload, size_t size, uint64_t *token) {
    return controller && payload && token
               ? j39_controller_send(&controller->handle, micros, priority, pgn, to, payload, size, token)
               : J1939_NULL;
}

int32_t j1939_controller_renew(j1939_controller *controller, uint8_t priority, uint32_t pgn, uint8_t to,
                               const uint8_t *payload, size_t size, uint64_t *token) {
    return controller && payload && token
               ? j39_controller_renew(&controller->handle, priority, pgn, to, payload, size, token)
               : J1939_NULL;
}

int32_t j1939_controller_withdraw(j1939_controller *controller, uint64_t token) {
    return controller ? j39_controller_withdraw(&controller->handle, token) : J1939_NULL;
}

int32_t j1939_controller_ask(j1939_controller *controller, uint64_t micros, uint32_t pgn, uint8_t to, uint64_t *token) {
    return controller && token ? j39_controller_ask(&controller->handle, micros, pgn, to, token) : J1939_NULL;
}

int32_t j1939_controller_take_ended(j1939_controller *controller, j1939_ended *ended) {
    return controller && ended ? j39_controller_take_ended(&controller->handle, ended) : J1939_NULL;
}

int32_t j1939_controller_take_received(j1939_controller *controller, j1939_message *message, uint8_t *priority) {
    return controller && message && priority
               ? j39_controller_take_received(&controller->handle, message, priority)
               : J1939_NULL;
}

int32_t j1939_controller_missed(const j1939_controller *controller, uint64_t *count) {
    if (!controller || !count) return J1939_NULL;
    j1939_handle held = controller->handle;
    return j39_controller_missed(&held, count);
}

int32_t j1939_controller_take_request(j1939_controller *controller, j1939_request *request) {
    return controller && request ? j39_controller_take_request(&controller->handle, request) : J1939_NULL;
}

int32_t j1939_controller_acknowledge(j1939_controller *controller, uint64_t micros, const j1939_request *request,
                                     uint8_t answer) {
    return controller && request ? j39_controller_acknowledge(&controller->handle, micros, request, answer)
                                 : J1939_NULL;
}

int32_t j1939_controller_take_news(j1939_controller *controller) {
    return controller ? j39_controller_take_news(&controller->handle) : J1939_NULL;
}

int32_t j1939_controller_close(j1939_controller *controller) {
    return controller ? close_handle(&controller->handle) : J1939_NULL;
}

int32_t j1939_answers_new(j1939_answers *answers, uint8_t boxes) {
    return answers ? j39_answers_new(&answers->handle, boxes) : J1939_NULL;
}

size_t j1939_answers_size(uint8_t boxes) {
    return J1939_ANSWERS_SIZE(boxes);
}

int32_t j1939_answers_at(j1939_answers *answers, void *memory, size_t size, uint8_t boxes) {
    if (!answers || !memory) return J1939_NULL;
    if (!begin_at(&answers->handle, memory, size)) return J1939_IN_USE;
    return end_at(&answers->handle, j1939_answers_new(answers, boxes));
}

int32_t j1939_answers_take_request(j1939_answers *answers, j1939_controller *controller, uint64_t micros,
                                   j1939_request *request) {
    return answers && controller && request
               ? j39_answers_take_request(&answers->handle, &controller->handle, micros, request)
               : J1939_NULL;
}

int32_t j1939_answers_answer(j1939_answers *answers, const j1939_request *request, const uint8_t *payload, size_t size) {
    return answers && request && payload ? j39_answers_answer(&answers->handle, request, payload, size) : J1939_NULL;
}

int32_t j1939_answers_turn(j1939_answers *answers, j1939_controller *controller, uint64_t micros) {
    return answers && controller ? j39_answers_turn(&answers->handle, &controller->handle, micros) : J1939_NULL;
}

int32_t j1939_answers_due_in(const j1939_answers *answers, uint64_t *micros) {
    if (!answers || !micros) return J1939_NULL;
    j1939_handle held = answers->handle;
    return j39_answers_due_in(&held, micros);
}

int32_t j1939_answers_close(j1939_answers *answers) {
    return answers ? close_handle(&answers->handle) : J1939_NULL;
}

int32_t j1939_outbox_new(j1939_outbox *outbox, uint8_t boxes) {
    return outbox ? j39_outbox_new(&outbox->handle, boxes) : J1939_NULL;
}

size_t j1939_outbox_size(uint8_t boxes) {
    return J1939_OUTBOX_SIZE(boxes);
}

int32_t j1939_outbox_at(j1939_outbox *outbox, void *memory, size_t size, uint8_t boxes) {
    if (!outbox || !memory) return J1939_NULL;
    if (!begin_at(&outbox->handle, memory, size)) return J1939_IN_USE;
    return end_at(&outbox->handle, j1939_outbox_new(outbox, boxes));
}

int32_t j1939_outbox_send(j1939_outbox *outbox, uint64_t micros, uint64_t name, uint8_t priority, uint32_t pgn,
                          const uint8_t *payload, size_t size, uint64_t *number) {
    return outbox && payload && number
               ? j39_outbox_send(&outbox->handle, micros, name, priority, pgn, payload, size, number)
               : J1939_NULL;
}

int32_t j1939_outbox_ask(j1939_outbox *outbox, uint64_t micros, uint64_t name, uint32_t pgn, uint64_t *number) {
    return outbox && number ? j39_outbox_ask(&outbox->handle, micros, name, pgn, number) : J1939_NULL;
}

int32_t j1939_outbox_take_frame(j1939_outbox *outbox, j1939_controller *controller, uint64_t micros, j1939_frame *out) {
    return outbox && controller && out ? j39_outbox_take_frame(&outbox->handle, &controller->handle, micros, out) : J1939_NULL;
}

int32_t j1939_outbox_take_settled(j1939_outbox *outbox, j1939_settled *settled) {
    return outbox && settled ? j39_outbox_take_settled(&outbox->handle, settled) : J1939_NULL;
}

int32_t j1939_outbox_due_in(const j1939_outbox *outbox, uint64_t *micros) {
    if (!outbox || !micros) return J1939_NULL;
    j1939_handle held = outbox->handle;
    return j39_outbox_due_in(&held, micros);
}

int32_t j1939_outbox_close(j1939_outbox *outbox) {
    return outbox ? close_handle(&outbox->handle) : J1939_NULL;
}
