/* What a proved program asks of the system besides the C library and memory (c/heap.c), for Linux on machines that the kit has no such
 * object for: its words, its environment and errno. The contracts are those of the kit's os and libc. */
#include <errno.h>
#include <stdint.h>
#include <stdlib.h>
#include <string.h>

extern char **environ;

int64_t rattle_arg(uint64_t index, uint8_t *to, uint64_t room);
int64_t rattle_env(const uint8_t *name, uint8_t *to, uint64_t room);
int64_t rattle_env_at(uint64_t index, uint8_t *to, uint64_t room);
int32_t rattle_errno(void);
void rattle_set_errno(int32_t error);

static uint64_t word_count;
static char **words;

__attribute__((constructor)) static void keep(int count, char **given) {
    word_count = (uint64_t)count;
    words = given;
}

/* Puts a text at the start of the room: its length, -1 where there is none, or -2 where it doesn't fit, and then the room is full of it. */
static int64_t copy(const char *text, uint8_t *to, uint64_t room) {
    if (text == NULL) return -1;
    size_t length = strlen(text);
    memcpy(to, text, length < room ? length : room);
    return length > room ? -2 : (int64_t)length;
}

/* The word of this number. */
int64_t rattle_arg(uint64_t index, uint8_t *to, uint64_t room) { return copy(index < word_count ? words[index] : NULL, to, room); }

/* The value of a variable of the environment, whose name ends with 0. */
int64_t rattle_env(const uint8_t *name, uint8_t *to, uint64_t room) { return copy(getenv((const char *)name), to, room); }

/* The entry of this number in the environment. */
int64_t rattle_env_at(uint64_t index, uint8_t *to, uint64_t room) {
    uint64_t at = 0;
    while (environ != NULL && at < index && environ[at] != NULL) at++;
    return copy(environ != NULL ? environ[at] : NULL, to, room);
}

int32_t rattle_errno(void) { return errno; }

void rattle_set_errno(int32_t error) { errno = error; }
