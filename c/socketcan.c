/* A controller on a CAN interface of Linux: it claims an address and keeps it, sends an engine speed each 100 ms and
 * its fault codes each second, receives what is sent to it, and answers requests for its VIN and its fault codes. Where
 * it has a destination it sends that its VIN once, and asks for the other's until it came. Where it loses its address
 * it goes on at a free one, if its NAME may choose; and it obeys a commanded address. What it sends is printed as
 * candump -L writes it, once the interface took it: where its queue is full the frame waits, and is handed over again.
 * Where the interface goes down it waits for its return, and claims its address anew: at once, where nothing waits to
 * be sent, else behind that.
 *
 *   socketcan INTERFACE NAME ADDRESS [DESTINATION]   on an interface, until SIGINT or SIGTERM: NAME and the addresses
 *                                                    are hex
 *   socketcan --socketpair                           two of them in two processes, for two seconds, with a socketpair
 *                                                    for a bus: both claim address 80; one sends the other its VIN,
 *                                                    and asks for the other's
 */
#define _DEFAULT_SOURCE
#include "j1939.h"

#include <errno.h>
#include <inttypes.h>
#include <linux/can.h>
#include <linux/can/error.h>
#include <linux/can/raw.h>
#include <net/if.h>
#include <poll.h>
#include <signal.h>
#include <stdio.h>
#include <stdlib.h>
#include <string.h>
#include <sys/ioctl.h>
#include <sys/socket.h>
#include <sys/wait.h>
#include <time.h>
#include <unistd.h>

/* In microseconds: the time between two values, between two messages of fault codes, between two requests; how long it
 * waits for others to come before it sends anything but claims, for room in a full queue, and for an interface that is
 * down. */
static const uint64_t VALUES = 100000, FAULTS = 1000000, AGAIN = 500000, PATIENCE = 1000000, ROOM = 2000, DOWN = 100000;

/* The groups of vehicle identification, of the engine speed and its parameter (J1939-71), of active fault codes
 * (J1939-73), and of a commanded address (J1939-81). */
enum { VIN_GROUP = 65260, VIN_SIZE = 17, EEC1 = 61444, ENGINE_SPEED = 190, DM1 = 65226, COMMANDED_ADDRESS = 65240 };
enum { NOBODY = 254, EVERYBODY = 255 };
static const uint32_t SERVED[] = {VIN_GROUP, DM1};

typedef struct {
    const char *bus;        /* what the bus is called where frames are printed */
    int socket;             /* -1 while the interface is down */
    uint64_t name, start;   /* when it came to the bus */
    uint64_t begins;        /* how long it waits before it claims */
    uint8_t destination;    /* whom it sends its message to; NOBODY for nobody */
    const char *vin;
    j1939_controller controller;
    uint64_t values_due, faults_due; /* when the next value and the next fault codes are sent */
    uint64_t request_due;   /* when the other's VIN is asked for */
    uint64_t own;           /* the token of its VIN, while that is on its way */
    int is_sent, is_done;   /* its VIN is on its way or over; it was acknowledged */
    uint8_t wanted;         /* the address that it goes to once all that was handed in has ended; NOBODY for none */
    unsigned received;      /* how many messages came in packets */
} station;

/* Set by a signal that asks it to end. */
static volatile sig_atomic_t is_over;

static void end(int signal) {
    (void)signal;
    is_over = 1;
}

/* The microseconds of a clock. */
static uint64_t micros_of(clockid_t clock) {
    struct timespec t;
    clock_gettime(clock, &t);
    return (uint64_t)t.tv_sec * 1000000 + (uint64_t)t.tv_nsec / 1000;
}

/* The moment, by a clock that nobody sets. */
static uint64_t moment(void) {
    return micros_of(CLOCK_MONOTONIC);
}

static uint64_t sooner(uint64_t one, uint64_t other) {
    return one < other ? one : other;
}

/* Ends the program where a call answers an error: each is a fault of this program, or want of memory. */
static int32_t sure(int32_t answer) {
    if (answer < 0) {
        fprintf(stderr, "socketcan: a call answers %" PRId32 "\n", answer);
        exit(1);
    }
    return answer;
}

/* Whether something was accepted; else no address is held, there is no room, or it may not go: it was asked for by
 * another at its own address. */
static int accepted(int32_t answer) {
    return answer != J1939_NO_ADDRESS && answer != J1939_FULL && answer != J1939_BAD_VALUE && sure(answer) == 1;
}

/* ---- the bus */

/* Ends the program where standard output is gone, or a socket for another reason than its interface. */
static void fail(void) {
    perror("socketcan");
    exit(1);
}

/* Makes of a socket that of an interface which is up: data frames of 29 bits, and what is told of the bus itself. */
static int attach(int at, const char *name) {
    struct ifreq request = {0};
    struct sockaddr_can address = {.can_family = AF_CAN};
    struct can_filter wanted = {.can_id = CAN_EFF_FLAG, .can_mask = CAN_EFF_FLAG | CAN_RTR_FLAG};
    can_err_mask_t told = CAN_ERR_BUSOFF | CAN_ERR_RESTARTED;
    snprintf(request.ifr_name, sizeof request.ifr_name, "%s", name);
    if (ioctl(at, SIOCGIFINDEX, &request) != 0) return 0;
    address.can_ifindex = request.ifr_ifindex;
    if (ioctl(at, SIOCGIFFLAGS, &request) != 0) return 0;
    errno = ENETDOWN;
    if (!(request.ifr_flags & IFF_UP)) return 0;
    if (setsockopt(at, SOL_CAN_RAW, CAN_RAW_FILTER, &wanted, sizeof wanted) != 0) return 0;
    if (setsockopt(at, SOL_CAN_RAW, CAN_RAW_ERR_FILTER, &told, sizeof told) != 0) return 0;
    return bind(at, (const struct sockaddr *)&address, sizeof address) == 0;
}

/* A socket of an interface; -1 where that isn't there, or is down. */
static int open_interface(const char *name) {
    int at = socket(PF_CAN, SOCK_RAW, CAN_RAW);
    if (at < 0 || attach(at, name)) return at;
    int why = errno;
    close(at);
    errno = why;
    return -1;
}

/* Lets go of an interface that went down or was taken away. */
static void lose_interface(station *s) {
    if (errno != ENETDOWN && errno != ENODEV && errno != ENXIO) fail();
    fprintf(stderr, "%.16s: the interface is down\n", s->bus);
    close(s->socket);
    s->socket = -1;
}

/* Looks whether the interface is up again. Then the address is claimed anew: others heard nothing of it, and it nothing of
 * them. */
static void regain_interface(station *s) {
    s->socket = open_interface(s->bus);
    if (s->socket < 0) return;
    fprintf(stderr, "%.16s: the interface is up again\n", s->bus);
    sure(j1939_controller_again(&s->controller, moment()));
}

/* Prints a frame that was sent, with the moment just before: so an answer to it has a later one. */
static void print(const station *s, const j1939_frame *frame, uint64_t now) {
    char line[80];
    int size = snprintf(line, sizeof line, "(%010" PRIu64 ".%06" PRIu64 ") %.16s %08" PRIX32 "#", now / 1000000,
                        now % 1000000, s->bus, frame->id);
    for (int i = 0; i < frame->len; i++)
        size += snprintf(line + size, sizeof line - (size_t)size, "%02X", frame->data[i]);
    line[size++] = '\n';
    if (write(STDOUT_FILENO, line, (size_t)size) != size) fail();
}

/* Hands a frame to the interface, and prints it; 0 where that has no room for it now, or is down. */
static int say(station *s, const j1939_frame *frame) {
    struct can_frame can = {.can_id = frame->id | CAN_EFF_FLAG, .can_dlc = frame->len};
    uint64_t now = micros_of(CLOCK_REALTIME);
    if (s->socket < 0) return 0;
    memcpy(can.data, frame->data, frame->len);
    if (send(s->socket, &can, sizeof can, MSG_DONTWAIT) != sizeof can) {
        if (errno != ENOBUFS && errno != EAGAIN && errno != EINTR) lose_interface(s);
        return 0;
    }
    print(s, frame, now);
    return 1;
}

/* Waits for a frame until this moment at most; 0 where none came, or one that is none of J1939's. */
static int next_frame(station *s, uint64_t due, j1939_frame *frame) {
    struct pollfd ready = {.fd = s->socket, .events = POLLIN};
    struct can_frame can;
    uint64_t now = moment();
    if (poll(&ready, 1, now < due ? (int)((due - now + 999) / 1000) : 0) != 1) return 0;
    if (recv(s->socket, &can, sizeof can, MSG_DONTWAIT) != sizeof can) {
        if (errno != EAGAIN && errno != EINTR) lose_interface(s);
        return 0;
    }
    if (can.can_id & CAN_ERR_FLAG) {
        fprintf(stderr, "%.16s: %s\n", s->bus, can.can_id & CAN_ERR_BUSOFF ? "bus off" : "on the bus again");
        return 0;
    }
    if (!(can.can_id & CAN_EFF_FLAG) || can.can_id & CAN_RTR_FLAG || can.can_dlc > 8) return 0;
    *frame = (j1939_frame){.micros = moment(), .id = can.can_id & CAN_EFF_MASK, .len = can.can_dlc};
    memcpy(frame->data, can.data, can.can_dlc);
    return 1;
}

/* ---- the controller */

/* Hands in the VIN, to all or to one controller; whether it was accepted. */
static int send_vin(station *s, uint8_t to, uint64_t now, uint64_t *token) {
    const uint8_t *vin = (const uint8_t *)s->vin;
    return accepted(j1939_controller_send(&s->controller, now, 6, VIN_GROUP, to, vin, VIN_SIZE, token));
}

/* Hands in an engine speed, in thousandths of an rpm, in place of one that still waits. */
static void send_speed(station *s, int64_t speed, uint64_t now) {
    uint8_t data[8];
    uint32_t raw;
    uint64_t token;
    if (!sure(j1939_raw_of(ENGINE_SPEED, speed, &raw))) return;
    memset(data, 0xFF, sizeof data); /* what isn't measured */
    data[3] = (uint8_t)raw, data[4] = (uint8_t)(raw >> 8); /* bytes 4 and 5, as J1939 counts them */
    if (sure(j1939_controller_renew(&s->controller, 3, EEC1, EVERYBODY, data, sizeof data, &token))) return;
    accepted(j1939_controller_send(&s->controller, now, 3, EEC1, EVERYBODY, data, sizeof data, &token));
}

/* Hands in its active fault codes: all lamps are off, and there is none. */
static int send_faults(station *s, uint64_t now) {
    static const uint8_t none[8] = {0x00, 0xFF, 0, 0, 0, 0, 0xFF, 0xFF};
    uint64_t token;
    return accepted(j1939_controller_send(&s->controller, now, 6, DM1, EVERYBODY, none, sizeof none, &token));
}

/* Hands in what it sends of its own. What can't go now is left out: the next one is newer. */
static void send_own(station *s, uint64_t now) {
    uint64_t token;
    if (now >= s->values_due) {
        send_speed(s, 1500000, now);
        s->values_due = now + VALUES;
    }
    if (now >= s->faults_due) {
        send_faults(s, now);
        s->faults_due = now + FAULTS;
    }
    if (s->destination == NOBODY || now < s->start + PATIENCE) return;
    if (!s->is_sent) s->is_sent = send_vin(s, s->destination, now, &s->own);
    if (!s->received && now >= s->request_due) {
        accepted(j1939_controller_ask(&s->controller, now, VIN_GROUP, s->destination, &token));
        s->request_due = now + AGAIN;
    }
}

/* Goes to the address that it wants, where it may already. */
static void move(station *s) {
    if (s->wanted == NOBODY || !sure(j1939_controller_move_to(&s->controller, s->wanted))) return;
    fprintf(stderr, "%.16s: on to address %02X\n", s->bus, (unsigned)s->wanted);
    s->wanted = NOBODY;
}

/* Obeys a commanded address (J1939-81, 4.2.3): the NAME, its low byte first, and the address. */
static void obey(station *s, const j1939_message *message) {
    uint64_t name = 0;
    if (message->pgn != COMMANDED_ADDRESS || message->len != 9) return;
    for (int i = 7; i >= 0; i--) name = name << 8 | message->data[i];
    if (name == s->name && message->data[8] < NOBODY) s->wanted = message->data[8];
}

/* Answers a request: to all where all were asked, else to who asked, who is told where there is no room. */
static void answer(station *s, const j1939_request *request, uint64_t now) {
    uint8_t to = request->destination == EVERYBODY ? EVERYBODY : request->source;
    uint64_t token;
    if (request->pgn == VIN_GROUP ? send_vin(s, to, now, &token) : send_faults(s, now)) return;
    if (to != EVERYBODY) accepted(j1939_controller_acknowledge(&s->controller, now, request, J1939_BUSY));
}

/* Tells what happened, and looks for another address where its own was lost. */
static void take_news(station *s) {
    uint64_t count;
    uint8_t address;
    for (int32_t news; (news = sure(j1939_controller_take_news(&s->controller))) != 0;) {
        if (news == J1939_NEWS_ANOTHER) fprintf(stderr, "%.16s: another sends from its address\n", s->bus);
        if (news == J1939_NEWS_MISSED && j1939_controller_missed(&s->controller, &count) == 0)
            fprintf(stderr, "%.16s: %" PRIu64 " messages missed\n", s->bus, count);
        if (news >= J1939_NEWS_DOUBLED)
            fprintf(stderr, "%.16s: another of its NAME claims %02X\n", s->bus, (unsigned)(news - J1939_NEWS_DOUBLED));
        if (news != J1939_NEWS_LOST) continue;
        fprintf(stderr, "%.16s: its address is lost\n", s->bus);
        if (s->name >> 63 && sure(j1939_controller_free_address(&s->controller, &address))) s->wanted = address;
    }
}

/* Shows it a frame, and takes what came with it. */
static void hear(station *s, const j1939_frame *frame) {
    static j1939_message message;
    j1939_request request;
    uint8_t priority;
    int32_t kind;
    sure(j1939_controller_hear(&s->controller, frame, moment()));
    while ((kind = sure(j1939_controller_take_received(&s->controller, &message, &priority))) != 0) {
        if (kind == J1939_RECEIVED_FRAME) continue;
        s->received++;
        fprintf(stderr, "from %02X: %u bytes of group %" PRIu32 "\n", (unsigned)message.source, (unsigned)message.len,
                message.pgn);
        obey(s, &message);
    }
    while (sure(j1939_controller_take_request(&s->controller, &request))) answer(s, &request, frame->micros);
    take_news(s);
}

/* Takes what ended. */
static void take_ended(station *s) {
    j1939_ended ended;
    for (int32_t kind; (kind = sure(j1939_controller_take_ended(&s->controller, &ended))) != 0;) {
        if (kind != J1939_ENDED_TRANSFER || ended.token != s->own) continue;
        s->is_done = ended.ending == J1939_ENDED_DONE;
        s->is_sent = ended.ending != J1939_ENDED_WITHDRAWN;
        s->own = UINT64_MAX;
    }
}

/* Hands over all frames that go out now; when there is more to say, if nothing is heard till then. */
static uint64_t speak(station *s, uint64_t now) {
    j1939_frame frame;
    uint64_t due, next = UINT64_MAX;
    while (sure(j1939_controller_peek_frame(&s->controller, now, &frame))) {
        if (!say(s, &frame)) {
            next = now + ROOM;
            break;
        }
        sure(j1939_controller_take_frame(&s->controller, now, &frame));
    }
    if (next == UINT64_MAX && sure(j1939_controller_next_due(&s->controller, &due))) next = due;
    if (sure(j1939_controller_next_tick(&s->controller, &due))) next = sooner(next, due);
    return next;
}

/* A turn of the loop; when the next is due, if nothing is heard till then. */
static uint64_t turn(station *s, uint64_t now) {
    uint64_t due;
    sure(j1939_controller_tick(&s->controller, now));
    take_ended(s);
    move(s); /* before it says that it can't claim an address */
    if (s->wanted == NOBODY) send_own(s, now);
    due = speak(s, now);
    if (s->wanted != NOBODY) return sooner(due, now + ROOM);
    if (s->destination != NOBODY && !s->received) due = sooner(due, s->request_due);
    return sooner(due, sooner(s->values_due, s->faults_due));
}

/* Runs a controller until a moment, or a signal. */
static void run(station *s, uint8_t preferred, uint64_t last) {
    j1939_frame frame;
    uint64_t due, now;
    s->controller = (j1939_controller)J1939_EMPTY;
    s->start = moment();
    s->own = UINT64_MAX, s->wanted = NOBODY;
    s->values_due = s->faults_due = s->request_due = s->start + PATIENCE;
    sure(j1939_controller_new(&s->controller, &(j1939_setup){.name = s->name,
                                                             .address = preferred,
                                                             .delay = (uint8_t)s->start,
                                                             .broadcasts = 1,
                                                             .sessions = 4,
                                                             .transfers = 4,
                                                             .window = 16,
                                                             .served = SERVED,
                                                             .served_count = sizeof SERVED / sizeof SERVED[0]}));
    while ((now = moment()) < last && !is_over) {
        if (s->socket < 0) regain_interface(s);
        due = now < s->start + s->begins ? s->start + s->begins : turn(s, now);
        due = sooner(s->socket < 0 ? now + DOWN : due, last);
        if (next_frame(s, due, &frame)) hear(s, &frame);
    }
}

/* ---- the program */

/* Plays one of two controllers; whether all went well. The second has the smaller NAME, and comes later; it sends the
 * first its VIN, and asks for the first's. */
static int play(int socket, int is_second) {
    static station s;
    uint8_t own;
    s = (station){.bus = "can0", .socket = socket, .begins = is_second ? 400000 : 0};
    s.name = is_second ? 0x8000000001400001 : 0x8000000001400002;
    s.destination = is_second ? 0x81 : NOBODY;
    s.vin = is_second ? "4V4NC9EH7EN165432" : "1FUJA6CV12LK12345";
    run(&s, 0x80, moment() + 2000000);
    int holds = j1939_controller_status(&s.controller, &own) == J1939_HOLDING && own == (is_second ? 0x80 : 0x81);
    return j1939_controller_close(&s.controller) == 0 && holds && s.is_done == is_second && s.received == 1;
}

static int play_both(void) {
    int ends[2], status;
    if (socketpair(AF_UNIX, SOCK_DGRAM, 0, ends) != 0) return 1;
    pid_t other = fork();
    if (other < 0) return 1;
    if (other == 0) return play(ends[1], 1) ? 0 : 1;
    int is_well = play(ends[0], 0);
    return waitpid(other, &status, 0) == other && status == 0 && is_well ? 0 : 1;
}

int main(int argc, char **argv) {
    static station s;
    if (argc == 2 && strcmp(argv[1], "--socketpair") == 0) return play_both();
    if (argc < 4 || argc > 5) {
        fprintf(stderr, "socketcan INTERFACE NAME ADDRESS [DESTINATION] | --socketpair\n");
        return 2;
    }
    s = (station){.bus = argv[1], .socket = open_interface(argv[1]), .vin = "1FUJA6CV12LK12345"};
    if (s.socket < 0) {
        perror("socketcan");
        return 1;
    }
    s.name = strtoull(argv[2], NULL, 16);
    s.destination = argc == 5 ? (uint8_t)strtoul(argv[4], NULL, 16) : NOBODY;
    signal(SIGINT, end);
    signal(SIGTERM, end);
    run(&s, (uint8_t)strtoul(argv[3], NULL, 16), UINT64_MAX);
    return j1939_controller_close(&s.controller) == 0 ? 0 : 1;
}
