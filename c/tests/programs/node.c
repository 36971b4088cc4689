#include "j1939.h"

static j1939_node node;

int main(int count, char **words) {
    j1939_frame out, frame = {.micros = (uint64_t)count};
    (void)words;
    j1939_node_init(&node, 1, 3);
    j1939_node_start(&node, 1, &out);
    j1939_node_on(&node, &frame, &out);
    return j1939_node_tick(&node, (uint64_t)count);
}
