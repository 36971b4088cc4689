/* Where there is no command line: the words of a program whose main has another name, by -Dmain=named and
 * -DWORDS='"random", "20000"'. */
#include <stddef.h>

int named(int count, char **words);

int main(void) {
    static char *words[] = {WORDS, NULL};
    return named((int)(sizeof words / sizeof *words) - 1, words);
}
