// Writes a log of LINES lines: by turns a claim of 00, by a NAME below all before, and one value of engine speed, so a row more of a
// summary. With a second word the NAMEs are chosen: the low fifteen bits of their rows' hashes are 0, by a hash with a seed that
// all know, that of the Rattle kit's maps. A map by that hash seeks each among all.
//
//     chosen_names LINES [chosen]
#include <inttypes.h>
#include <stdio.h>
#include <stdlib.h>

// Four bytes and fewer are read twice or thrice.
static const uint64_t four = 0x100000001, one = 0x10101;

static uint64_t folded(uint64_t state, uint64_t value, uint64_t length) {
    unsigned __int128 product = (unsigned __int128)(state ^ value) * (0x9E3779B97F4A7C15 ^ 2 * length);
    return (uint64_t)product ^ (uint64_t)(product >> 64);
}

// Of the row's address, no destination, a NAME, this one, its PGN and its SPN.
static uint64_t hash_of(uint64_t name) {
    uint64_t begun = folded(folded(folded(0x243F6A8885A308D3, 0x00 * one, 1), 0, 8), 1, 8);
    uint64_t hash = folded(folded(folded(begun, name, 8), 61444 * four, 4), 190 * four, 4);
    return hash ^ hash >> 32;
}

int main(int count, char **words) {
    if (count < 2) return 2;
    uint64_t name = 0x8000000001401234, micros = 1700000000000000;
    for (long line = 0; line < atol(words[1]); line++, micros += 560) {
        printf("(%" PRIu64 ".%06" PRIu64 ") can0 ", micros / 1000000, micros % 1000000);
        if (line % 2 == 1) {
            printf("0CF00400#FFFFFFE02EFFFFFF\n");
            continue;
        }
        do name--;
        while (count > 2 && hash_of(name) & 0x7FFF);
        printf("18EEFF00#");
        for (int byte = 0; byte < 8; byte++) printf("%02X", (unsigned)(name >> 8 * byte & 0xFF));
        putchar('\n');
    }
}
