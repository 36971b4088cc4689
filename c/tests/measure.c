/* What docs/C.md says of memory and time, docs/PROCESSORS.md of stack and of instructions on a board. Linked with --wrap=malloc. */
#define _XOPEN_SOURCE 700
#include "../j1939.h"
#include "expect.h"

#include <string.h>
#ifdef __linux__
#include <time.h>
#include <ucontext.h>
#endif

static size_t taken;
void *__real_malloc(size_t size);
void *__wrap_malloc(size_t size);
void *__wrap_malloc(size_t size) {
    taken += size;
    return __real_malloc(size);
}

static j1939_listener listener = J1939_EMPTY;
static j1939_assembler assembler = J1939_EMPTY;
static j1939_receiver receiver = J1939_EMPTY;
static j1939_sender sender = J1939_EMPTY;
static j1939_controller controller = J1939_EMPTY;
static j1939_answers answers = J1939_EMPTY;
static j1939_outbox outbox = J1939_EMPTY;
static j1939_node node;
static j1939_frame out;
static const j1939_frame engine = {
    .micros = 1, .id = 0x0CF00400, .len = 8, .data = {0xFF, 0xFF, 0xFF, 0xE0, 0x2E, 0xFF, 0xFF, 0xFF}};
static const j1939_frame other = {.micros = 1, .id = 0x18FF0100, .len = 8};
static const j1939_frame bam = {
    .micros = 1, .id = 0x1CECFF80, .len = 8, .data = {0x20, 20, 0, 3, 0xFF, 0xEC, 0xFE, 0}};
static const j1939_frame claim = {.micros = 1, .id = 0x18EEFF05, .len = 8, .data = {5}};
static j1939_message message;
static j1939_reading reading;
static const uint8_t payload[1785];

static void open_listener(void) { EXPECT(j1939_listener_new(&listener) == 0); }
static void open_assembler(void) { EXPECT(j1939_assembler_new(&assembler) == 0); }
static void open_receiver(void) { EXPECT(j1939_receiver_new(&receiver, 3) == 0); }
static void open_sender(void) { EXPECT(j1939_sender_new(&sender, 1, 3, 65260, payload, sizeof payload) == 0); }
static const j1939_setup setup = {.name = 1, .address = 3, .broadcasts = 1, .sessions = 1, .transfers = 1};
static void open_controller(void) { EXPECT(j1939_controller_new(&controller, &setup) == 0); }
static void hear(void) { EXPECT(j1939_listener_feed(&listener, &engine, &message) == 1); }
static void hear_other(void) { EXPECT(j1939_listener_feed(&listener, &other, &message) == 0); }
static void read_number(void) { EXPECT(j1939_read(&message, 0, &reading) == 0); }
static char text[64];
static void read_text(void) { EXPECT(j1939_read_text(&message, 0, text, sizeof text) > 0); }
static void write_line(void) { EXPECT(j1939_report_line(&message, 0, text, sizeof text) > 0); }
static const j1939_fault fault = {.spn = 110, .fmi = 3};
static const j1939_lamps lamps;
static uint8_t faults[8];
static void write_faults(void) { EXPECT(j1939_faults_message(&lamps, &fault, 1, faults, sizeof faults) == 8); }
static void announce(void) { EXPECT(j1939_listener_feed(&listener, &bam, &message) == 0); }
static void node_tick(void) { EXPECT(j1939_node_tick(&node, 5) == 0); }
static void node_on(void) { EXPECT(j1939_node_on(&node, &claim, &out) == 0); }
static void receiver_tick(void) { EXPECT(j1939_receiver_tick(&receiver, 5, &out) == 0); }
static void sender_tick(void) { EXPECT(j1939_sender_tick(&sender, 5, &out) >= 0); }
static void controller_tick(void) { EXPECT(j1939_controller_tick(&controller, 300000) == 0); }
static void controller_hear(void) { EXPECT(j1939_controller_hear(&controller, &claim, claim.micros) == 0); }
static void controller_hear_other(void) {
    uint8_t priority;
    EXPECT(j1939_controller_hear(&controller, &other, other.micros) == 0);
    EXPECT(j1939_controller_take_received(&controller, &message, &priority) == 1);
}
static void controller_send(void) {
    uint64_t token;
    j1939_ended ended;
    EXPECT(j1939_controller_send(&controller, 300000, 6, 65262, 255, payload, 8, &token) == 1);
    EXPECT(j1939_controller_take_frame(&controller, 300000, &out) == 1);
    EXPECT(j1939_controller_take_ended(&controller, &ended) == J1939_ENDED_MESSAGE);
}
static void controller_frame(void) { EXPECT(j1939_controller_take_frame(&controller, 5, &out) >= 0); }
static uint64_t token;
static void controller_broadcast(void) {
    EXPECT(j1939_controller_send(&controller, 300000, 7, 65260, 255, payload, sizeof payload, &token) == 1);
}
static void controller_transfer(void) {
    EXPECT(j1939_controller_send(&controller, 300000, 7, 61184, 9, payload, sizeof payload, &token) == 1);
}
static const j1939_frame rts = {.micros = 1, .id = 0x1CEC0307, .len = 8, .data = {0x10, 20, 0, 3, 0xFF, 0, 0xEF, 0}};
static void controller_hear_rts(void) { EXPECT(j1939_controller_hear(&controller, &rts, 300000) == 0); }
static void controller_take(void) { EXPECT(j1939_controller_take_frame(&controller, 300000, &out) == 1); }
static void close_listener(void) { EXPECT(j1939_listener_close(&listener) == 0); }
static void close_assembler(void) { EXPECT(j1939_assembler_close(&assembler) == 0); }
static void close_receiver(void) { EXPECT(j1939_receiver_close(&receiver) == 0); }
static void close_sender(void) { EXPECT(j1939_sender_close(&sender) == 0); }
static void close_controller(void) { EXPECT(j1939_controller_close(&controller) == 0); }

#ifdef __linux__
/* A call on a stack of its own, painted before: how many of its bytes it touches. */
enum { STACK = 1 << 16, MANY = 1000000 };
static uint8_t stack[STACK];
static void (*called)(void);

static void enter(void) { called(); }

static size_t stack_of(void (*call)(void)) {
    static ucontext_t here, there;
    size_t clean = 0;
    memset(stack, 0xA5, sizeof stack);
    called = call;
    EXPECT(getcontext(&there) == 0);
    there.uc_stack.ss_sp = stack;
    there.uc_stack.ss_size = sizeof stack;
    there.uc_link = &here;
    makecontext(&there, enter, 0);
    EXPECT(swapcontext(&here, &there) == 0);
    while (clean < STACK && stack[clean] == 0xA5) clean++;
    return STACK - clean;
}

static const char unit[] = "ns";
static double clock_now(void) {
    struct timespec at;
    clock_gettime(CLOCK_MONOTONIC, &at);
    return (double)at.tv_sec * 1e9 + (double)at.tv_nsec;
}
#else
/* On a board without a system it paints what lies below, and counts what comes nearer than SPARED bytes as untouched. */
enum { DEEP = 60000, SPARED = 64, MANY = 1000 };

static __attribute__((noinline)) size_t stack_of(void (*call)(void)) {
    volatile uint8_t *here = (volatile uint8_t *)__builtin_frame_address(0) - SPARED;
    for (size_t i = 1; i < DEEP; i++) here[-(ptrdiff_t)i] = 0xA5;
    call();
    size_t clean = DEEP - 1;
    while (clean > 0 && here[-(ptrdiff_t)clean] == 0xA5) clean--;
    return clean + SPARED;
}

/* Instructions, where qemu counts them (-icount shift=0): one takes a nanosecond. */
static const char unit[] = "instructions";
static double clock_now(void) {
#ifdef __riscv
    uint32_t count;
    __asm__ volatile(".option push\n.option arch, +zicsr\ncsrr %0, minstret\n.option pop" : "=r"(count));
    return count;
#else
    static volatile uint32_t *const systick = (volatile uint32_t *)0xE000E010;
    if (!systick[0]) systick[1] = 0xFFFFFF, systick[2] = 0, systick[0] = 5;
    return (double)(0xFFFFFF - systick[2]) * 40;
#endif
}
#endif

static void measure(const char *name, void (*call)(void), long times) {
    size_t before = taken;
    size_t touched = stack_of(call);
    printf("%-20s memory %5lu  stack %5lu", name, (unsigned long)(taken - before), (unsigned long)touched);
    double from = clock_now();
    for (long i = 0; i < times; i++) call();
    if (times) printf("  %6.0f %s", (clock_now() - from) / (double)times, unit);
    putchar('\n');
}

/* How much memory answers with so many boxes take, and an outbox. */
static unsigned answers_of(uint8_t boxes) {
    size_t before = taken;
    EXPECT(j1939_answers_new(&answers, boxes) == 0 && j1939_answers_close(&answers) == 0);
    return (unsigned)(taken - before);
}

static unsigned outbox_of(uint8_t boxes) {
    size_t before = taken;
    EXPECT(j1939_outbox_new(&outbox, boxes) == 0 && j1939_outbox_close(&outbox) == 0);
    return (unsigned)(taken - before);
}

/* How much stack the longest answer takes that is kept, and handed in as a transfer. */
static j1939_request request;
static void answer(void) { EXPECT(j1939_answers_answer(&answers, &request, payload, sizeof payload) == 1); }
static void turn(void) { EXPECT(j1939_answers_turn(&answers, &controller, 300000) == 0); }

static void measure_answers(void) {
    static const uint32_t served[] = {65260};
    static const j1939_frame asks = {.id = 0x18EA0309, .len = 3, .data = {0xEC, 0xFE, 0}};
    j1939_setup serves = setup;
    serves.served = served, serves.served_count = 1;
    EXPECT(j1939_controller_new(&controller, &serves) == 0 && j1939_answers_new(&answers, 1) == 0);
    EXPECT(j1939_controller_take_frame(&controller, 5, &out) == 1 && j1939_controller_tick(&controller, 300000) == 0);
    EXPECT(j1939_controller_hear(&controller, &asks, 300000) == 0);
    EXPECT(j1939_answers_take_request(&answers, &controller, 300000, &request) == 1);
    unsigned kept = (unsigned)stack_of(answer), handed = (unsigned)stack_of(turn);
    printf("answers_answer %u, answers_turn %u bytes of stack\n", kept, handed);
    EXPECT(j1939_answers_close(&answers) == 0 && j1939_controller_close(&controller) == 0);
}

int main(void) {
    printf("j1939_node %u, j1939_claims %u, j1939_message %u bytes\n", (unsigned)sizeof node, (unsigned)sizeof node.claims,
           (unsigned)sizeof message);
    EXPECT(j1939_node_init(&node, 1, 3) == 0);
    measure("listener_new", open_listener, 0);
    measure("assembler_new", open_assembler, 0);
    measure("receiver_new", open_receiver, 0);
    measure("sender_new", open_sender, 0);
    measure("controller_new", open_controller, 0);
    measure("listener_feed", hear, MANY);
    measure("  other group", hear_other, MANY);
    measure("  announced", announce, MANY);
    measure("read", read_number, MANY);
    measure("read_text", read_text, MANY);
    measure("report_line", write_line, MANY);
    measure("faults_message", write_faults, MANY);
    measure("node_tick", node_tick, MANY);
    measure("node_on", node_on, MANY);
    measure("receiver_tick", receiver_tick, MANY);
    measure("sender_tick", sender_tick, MANY);
    measure("controller_frame", controller_frame, MANY);
    measure("controller_tick", controller_tick, MANY);
    measure("controller_hear", controller_hear, MANY);
    measure("  heard, taken", controller_hear_other, MANY);
    measure("  sent, taken", controller_send, MANY);
    measure("  RTS heard", controller_hear_rts, 0);
    measure("  to all", controller_broadcast, 0);
    measure("  to one", controller_transfer, 0);
    measure("  taken", controller_take, 0);
    measure("listener_close", close_listener, 0);
    measure("assembler_close", close_assembler, 0);
    measure("receiver_close", close_receiver, 0);
    measure("sender_close", close_sender, 0);
    measure("controller_close", close_controller, 0);
    printf("answers with no box %u, with ten %u bytes\n", answers_of(0), answers_of(10));
    printf("an outbox with no box %u, with ten %u bytes\n", outbox_of(0), outbox_of(10));
    measure_answers();
    return 0;
}
