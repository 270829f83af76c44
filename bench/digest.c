/* Calls one digest over and over, for bench/digest to count its instructions: `digest WHICH LENGTH TIMES`, where WHICH is
 * moss (the library), c (the same loop in C) or none (an empty function, for what the calling itself takes). */
#include "mosspillow.h"

#include <stdlib.h>

enum { LONGEST = 4096 };

static uint64_t c_digest(const uint8_t *bytes, size_t length)
{
    uint64_t hash = UINT64_C(0xcbf29ce484222325);
    for (size_t i = 0; i < length; i++) {
        hash ^= bytes[i];
        hash *= UINT64_C(0x100000001b3);
    }
    return hash;
}

static uint64_t none(const uint8_t *bytes, size_t length)
{
    (void)bytes;
    (void)length;
    return 0;
}

int main(int argc, char **argv)
{
    static uint8_t bytes[LONGEST];
    if (argc != 4)
        return 2;
    /* A volatile pointer, so that no call is moved out of the loop or put in its place. */
    uint64_t (*volatile chosen)(const uint8_t *, size_t) = argv[1][0] == 'm' ? moss_digest : argv[1][0] == 'c' ? c_digest : none;
    size_t length = strtoul(argv[2], NULL, 10);
    unsigned long times = strtoul(argv[3], NULL, 10);
    if (length > LONGEST)
        return 2;
    for (size_t i = 0; i < length; i++)
        bytes[i] = (uint8_t)(i * 37 + 11);
    uint64_t sum = 0;
    for (unsigned long i = 0; i < times; i++)
        sum += chosen(bytes, length);
    return sum == 1;
}
