/* floor LOG BYTES: reads LOG in pieces of 64 KiB, finds its newlines, and writes BYTES bytes in pieces of
   64 KiB: the least that a report of this size costs. */
#include <stdio.h>
#include <stdlib.h>
#include <string.h>
#include <fcntl.h>
#include <unistd.h>

static char piece[65536];

int main(int count, char **words) {
    if (count != 3) return 2;
    int log = open(words[1], O_RDONLY);
    if (log < 0) return 1;
    long lines = 0;
    ssize_t size;
    while ((size = read(log, piece, sizeof piece)) > 0) {
        for (char *at = piece; (at = memchr(at, '\n', piece + size - at)) != NULL; at++) lines++;
    }
    for (long left = atol(words[2]); left > 0; left -= size) {
        size = write(1, piece, left < (long)sizeof piece ? (size_t)left : sizeof piece);
        if (size <= 0) return 1;
    }
    fprintf(stderr, "lines %ld\n", lines);
    return 0;
}
