/* What a C program needs of a system, on a Cortex-M without one: the vectors and the start, a heap, and standard input, output and the
 * command line by semihosting, which an emulator or a debugger answers. For newlib, with the linker script mps2.ld. */
#include <errno.h>
#include <stdint.h>
#include <stdlib.h>
#include <string.h>
#include <sys/stat.h>

enum { OPEN = 1, WRITE = 5, READ = 6, COMMAND_LINE = 0x15, EXIT = 0x20, ENDED = 0x20026, FAULT = 70, MOST_WORDS = 8 };

/* Where the processor is told that there is floating point. */
#define COPROCESSORS 0xe000ed88u

/* The linker script's places. */
extern uint8_t data_kept[], data_start[], data_end[], bss_start[], bss_end[], heap_start[], heap_end[], stack_top[];

int main(int count, char **words);

/* One call of the host, its arguments in a block of words. */
static uintptr_t host(uintptr_t call, const void *block)
{
    register uintptr_t number __asm__("r0") = call;
    register const void *arguments __asm__("r1") = block;
    __asm__ volatile("bkpt 0xab" : "+r"(number) : "r"(arguments) : "memory");
    return number;
}

void _exit(int status)
{
    const uintptr_t block[] = {ENDED, (uintptr_t)status};
    for (;;)
        host(EXIT, block);
}

/* The host's console: mode 0 reads it, 4 writes its output, 8 its errors. */
static uintptr_t console(int file)
{
    static uintptr_t open[3];
    static const uintptr_t modes[] = {0, 4, 8};
    const uintptr_t block[] = {(uintptr_t)":tt", modes[file], 3};
    if (open[file] == 0)
        open[file] = host(OPEN, block);
    return open[file];
}

/* The host answers how many bytes were not taken, or not given. */
int _write(int file, const char *bytes, int count)
{
    const uintptr_t block[] = {console(file), (uintptr_t)bytes, (uintptr_t)count};
    return count - (int)host(WRITE, block);
}

int _read(int file, char *bytes, int count)
{
    const uintptr_t block[] = {console(file), (uintptr_t)bytes, (uintptr_t)count};
    return count - (int)host(READ, block);
}

void *_sbrk(ptrdiff_t more)
{
    static uint8_t *at = heap_start;
    uint8_t *was = at;
    if (more > heap_end - at) {
        errno = ENOMEM;
        return (void *)-1;
    }
    at += more;
    return was;
}

int _close(int file)
{
    (void)file;
    return 0;
}

int _fstat(int file, struct stat *state)
{
    (void)file;
    state->st_mode = S_IFCHR;
    return 0;
}

int _isatty(int file)
{
    (void)file;
    return 0;
}

int _lseek(int file, int to, int from)
{
    (void)file;
    (void)to;
    (void)from;
    return 0;
}

/* Signals, and what newlib runs when a program ends: there are none. */
int _kill(int process, int signal)
{
    (void)process;
    (void)signal;
    return -1;
}

int _getpid(void)
{
    return 1;
}

void _fini(void)
{
}

/* The words of the command line behind a name for the program; their number with it. */
static int command_line(char **words)
{
    static char name[] = "program", text[256];
    const uintptr_t block[] = {(uintptr_t)text, sizeof text};
    int count = 0;
    words[count++] = name;
    host(COMMAND_LINE, block);
    for (char *word = strtok(text, " "); word != NULL && count < MOST_WORDS; word = strtok(NULL, " "))
        words[count++] = word;
    return count;
}

static void start(void)
{
    static char *words[MOST_WORDS + 1];
#ifdef __ARM_FP
    *(volatile uint32_t *)COPROCESSORS |= 15u << 20;
#endif
    memcpy(data_start, data_kept, (size_t)(data_end - data_start));
    memset(bss_start, 0, (size_t)(bss_end - bss_start));
    exit(main(command_line(words), words));
}

static void fault(void)
{
    _exit(FAULT);
}

/* The stack's top, the start, and then the faults: the processor reads them where memory starts. */
__attribute__((section(".vectors"), used)) static const uintptr_t vectors[16] = {
    (uintptr_t)stack_top, (uintptr_t)start, (uintptr_t)fault, (uintptr_t)fault, (uintptr_t)fault, (uintptr_t)fault, (uintptr_t)fault};
