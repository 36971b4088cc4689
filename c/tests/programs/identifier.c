#include "j1939.h"

int main(int count, char **words) {
    j1939_id_fields fields;
    (void)words;
    return j1939_id_split((uint32_t)count, &fields);
}
