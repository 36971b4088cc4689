/* Where a program begins on a Cortex-M without an operating system, and what newlib asks of one. Output and the end go to the debugger, or
 * to qemu, by semihosting. */
#include <stddef.h>
#include <stdint.h>
#include <string.h>
#include <sys/stat.h>

extern uint8_t data_begin[], data_end[], data_from[], bss_begin[], bss_end[], stack_top[];
int main(void);
void reset(void);
void fault(void);

enum { OPEN = 1, WRITE0 = 4, WRITE = 5, END = 0x20, ENDED = 0x20026, STACK = 65536 };

/* A call of the debugger. */
static int ask(int call, const void *at) {
    register int r0 __asm__("r0") = call;
    register const void *r1 __asm__("r1") = at;
    __asm__ volatile("bkpt 0xAB" : "+r"(r0) : "r"(r1) : "memory");
    return r0;
}

void _exit(int status) {
    const uint32_t block[2] = {ENDED, (uint32_t)status};
    ask(END, block);
    for (;;) {}
}

void reset(void) {
    memcpy(data_begin, data_from, (size_t)(data_end - data_begin));
    memset(bss_begin, 0, (size_t)(bss_end - bss_begin));
    *(volatile uint32_t *)0xE000ED88 |= 0xF << 20; /* the unit of floating point, if there is one: newlib may use it */
#if __ARM_ARCH == 6 /* an access that isn't aligned is a fault, as on each such processor */
    *(volatile uint32_t *)0xE000ED14 |= 8;
#endif
    int status = main();
    extern int fflush(void *file);
    fflush(NULL);
    _exit(status);
}

void fault(void) {
    ask(WRITE0, "fault\n");
    _exit(99);
}

__attribute__((section(".vectors"), used)) static const void *const vectors[16] = {
    stack_top, (void *)reset, (void *)fault, (void *)fault, (void *)fault, (void *)fault, (void *)fault};

/* The heap grows up to where the stack may come down to. */
void *_sbrk(ptrdiff_t size) {
    static uint8_t *end = bss_end;
    if (size > stack_top - end - STACK) return (void *)-1;
    end += size;
    return end - size;
}

/* Standard output and standard error. */
int _write(int file, const char *text, int size) {
    static int opened[2];
    int number = file == 2;
    if (!opened[number]) {
        const uint32_t open[3] = {(uint32_t)(uintptr_t) ":tt", number ? 8 : 4, 3};
        opened[number] = ask(OPEN, open);
    }
    const uint32_t block[3] = {(uint32_t)opened[number], (uint32_t)(uintptr_t)text, (uint32_t)size};
    return size - ask(WRITE, block);
}

int _read(int file, char *to, int size) {
    (void)file, (void)to, (void)size;
    return 0;
}

int _close(int file) {
    (void)file;
    return 0;
}

int _fstat(int file, struct stat *found) {
    (void)file;
    found->st_mode = S_IFCHR;
    return 0;
}

int _isatty(int file) {
    (void)file;
    return 1;
}

int _lseek(int file, int to, int from) {
    (void)file, (void)to, (void)from;
    return 0;
}

int _getpid(void) {
    return 1;
}

int _kill(int process, int signal) {
    (void)process, (void)signal;
    return -1;
}

void _fini(void) {}
