/* A controller like that of socketcan.c, which also sends each text back that comes to it in packets: to its sender, as soon as there is
 * room. */
#define main socketcan
#include "socketcan.c"
#undef main

enum { MOST = 1024, PARTNERS = 10 };

static struct {
    uint8_t to;
    uint16_t size;
    uint8_t bytes[J1939_LONGEST];
} kept[MOST];
static size_t kept_count;

static void keep(const j1939_message *message) {
    if (kept_count == MOST) exit(1);
    kept[kept_count].to = message->source;
    kept[kept_count].size = message->len;
    memcpy(kept[kept_count++].bytes, message->data, message->len);
}

/* Hands in what can go now, the oldest first; what can't stays. */
static void skept_count(station *s, uint64_t now) {
    uint64_t token;
    size_t left = 0;
    for (size_t i = 0; i < kept_count; i++)
        if (!accepted(j1939_controller_send(&s->controller, now, 6, VIN_GROUP, kept[i].to, kept[i].bytes, kept[i].size, &token)))
            kept[left++] = kept[i];
    kept_count = left;
}

static void hear_all(station *s, uint64_t due) {
    static j1939_message message;
    j1939_frame frame;
    uint8_t priority;
    int32_t kind;
    if (!next_frame(s, due, &frame)) return;
    sure(j1939_controller_hear(&s->controller, &frame, moment()));
    while ((kind = sure(j1939_controller_take_received(&s->controller, &message, &priority))) != 0)
        if (kind == J1939_RECEIVED_TRANSFER) keep(&message);
    take_news(s);
}

int main(int count, char **words) {
    static station s;
    if (count != 4) return 2;
    s = (station){.bus = words[1], .socket = open_interface(words[1]), .destination = NOBODY, .wanted = NOBODY};
    if (s.socket < 0) return 1;
    s.name = strtoull(words[2], NULL, 16);
    s.controller = (j1939_controller)J1939_EMPTY;
    signal(SIGTERM, end);
    j1939_setup setup = {.name = s.name, .address = (uint8_t)strtoul(words[3], NULL, 16), .sessions = PARTNERS, .transfers = PARTNERS, .window = 16};
    sure(j1939_controller_new(&s.controller, &setup));
    while (!is_over) {
        uint64_t now = moment();
        sure(j1939_controller_tick(&s.controller, now));
        take_ended(&s);
        skept_count(&s, now);
        hear_all(&s, speak(&s, now));
    }
    fprintf(stderr, "%zu wait\n", kept_count);
    return j1939_controller_close(&s.controller) == 0 ? 0 : 1;
}
