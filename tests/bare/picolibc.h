/* picolibc's standard input waits for ever where the input ends. The host's console, opened as a file, does not. */
#include <stdio.h>

static inline FILE *console(void)
{
    static FILE *file = NULL;
    if (file == NULL)
        file = fopen(":tt", "r");
    return file;
}

#undef stdin
#define stdin console()
