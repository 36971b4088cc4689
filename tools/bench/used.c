/* used PROGRAM WORDS..: runs it with standard output thrown away, and prints the microseconds of processor
   time and the KiB of memory at the peak that it took. The child of a larger program would show that
   program's memory. */
#include <stdio.h>
#include <fcntl.h>
#include <sys/resource.h>
#include <sys/wait.h>
#include <unistd.h>

int main(int count, char **words) {
    if (count < 2) return 2;
    pid_t child = fork();
    if (child == 0) {
        int nothing = open("/dev/null", O_WRONLY);
        dup2(nothing, 1);
        dup2(nothing, 2);
        execv(words[1], words + 1);
        _exit(127);
    }
    int status;
    struct rusage used;
    if (child < 0 || wait4(child, &status, 0, &used) < 0 || status != 0) return 1;
    long seconds = used.ru_utime.tv_sec + used.ru_stime.tv_sec;
    long micros = used.ru_utime.tv_usec + used.ru_stime.tv_usec;
    printf("%ld %ld\n", seconds * 1000000 + micros, used.ru_maxrss);
    return 0;
}
